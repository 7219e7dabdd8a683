//! The variants of a log. Document 02 calls them kinds.

use super::log::{frames, number};
use super::{Refusal, MOST_ACTIVITIES};
use std::cmp::Reverse;
use std::collections::HashMap;

/// The words of an entry, one for each thing that it shows of a variant.
pub const VARIANT_LENGTH: usize = 3;

/// All frames in which each activity occurs equally often, the order ignored.
#[derive(Clone, Copy, Debug, PartialEq, Eq)]
pub struct Variant {
    pub first_line: u64,
    pub frames: u64,
    pub cases: u64,
}

impl Variant {
    /// The variants that whole entries show.
    pub fn from_entries(entries: &[u64]) -> impl Iterator<Item = Variant> + '_ {
        let entries = entries.chunks_exact(VARIANT_LENGTH);
        entries.map(|entry| Variant {
            first_line: entry[0],
            frames: entry[1],
            cases: entry[2],
        })
    }

    /// The entry that shows the variant.
    pub fn entry(self) -> [u64; VARIANT_LENGTH] {
        [self.first_line, self.frames, self.cases]
    }
}

/// How often each activity occurs in a frame, at most 254 times.
#[derive(PartialEq, Eq, Hash)]
struct Tally([u8; MOST_ACTIVITIES as usize]);

impl Tally {
    /// Tallies the activities of these checked digits.
    fn of(codes: &[u8]) -> Tally {
        let mut counts = [0; MOST_ACTIVITIES as usize];
        for code in codes.chunks_exact(2) {
            counts[number(code) as usize] += 1;
        }
        Tally(counts)
    }
}

/// The variants of a log whose case counts have so many digits: by falling cases, and of equals the
/// one with the earlier first line first.
pub fn variants(count_digits: usize, activities: u8, text: &[u8]) -> Result<Vec<Variant>, Refusal> {
    let mut indices: HashMap<Tally, usize> = HashMap::new();
    let mut variants: Vec<Variant> = Vec::new();
    for (line, frame) in (0..).zip(frames(count_digits, activities, text)?) {
        let (cases, codes) = frame?;
        let index = *indices.entry(Tally::of(codes)).or_insert(variants.len());
        if index == variants.len() {
            variants.push(Variant {
                first_line: line,
                frames: 0,
                cases: 0,
            });
        }
        variants[index].frames += 1;
        variants[index].cases += cases;
    }
    variants.sort_by_key(|variant| (Reverse(variant.cases), variant.first_line));
    Ok(variants)
}
