//! Places and variants, and the words of the lists, of the cache and of a summary.

use crate::{Verdict, VARIANT_LENGTH};

/// A place: two sets of activities, with the bit `1 << code` for each activity.
#[derive(Debug, Clone, Copy, PartialEq, Eq)]
pub struct Place {
    /// The activities that put a token in.
    pub inputs: u16,
    /// The activities that take a token out.
    pub outputs: u16,
}

impl Place {
    /// The place as a word of a list: inputs + 65536 * outputs.
    pub const fn word(self) -> u32 {
        self.inputs as u32 | (self.outputs as u32) << 16
    }

    /// The place of a word.
    ///
    /// ```
    /// use placelist::Place;
    ///
    /// let place = Place { inputs: 0x0005, outputs: 0x0006 };
    /// assert_eq!(place.word(), 0x0006_0005);
    /// assert_eq!(Place::from_word(place.word()), place);
    /// ```
    pub const fn from_word(word: u32) -> Place {
        Place {
            inputs: (word & 0xFFFF) as u16,
            outputs: (word >> 16) as u16,
        }
    }
}

/// A place that a search rejected, and why.
#[derive(Debug, Clone, Copy, PartialEq, Eq)]
pub struct Rejected {
    /// The place.
    pub place: Place,
    /// Why it was rejected. A search writes every verdict but [`Verdict::Fitting`].
    pub mark: Verdict,
}

impl Rejected {
    /// The word in the cache of rejected places: the word of the place + 2^32 * mark.
    pub const fn word(self) -> u64 {
        self.place.word() as u64 | (self.mark as u64) << 32
    }

    /// What a word of the cache says. `None` if its mark, all that is above the lower 32 bits, is
    /// not 1, 2 or 3: a search writes no such word.
    ///
    /// ```
    /// use placelist::{Place, Rejected, Verdict};
    ///
    /// let place = Place { inputs: 0x0005, outputs: 0x0006 };
    /// let rejected = Rejected { place, mark: Verdict::Overfed };
    /// assert_eq!(rejected.word(), 0x0000_0002_0006_0005);
    /// assert_eq!(Rejected::from_word(rejected.word()), Some(rejected));
    /// assert_eq!(Rejected::from_word(place.word().into()), None);
    /// ```
    pub const fn from_word(word: u64) -> Option<Rejected> {
        let mark = match word >> 32 {
            1 => Verdict::Underfed,
            2 => Verdict::Overfed,
            3 => Verdict::Both,
            _ => return None,
        };
        let place = Place::from_word((word & 0xFFFF_FFFF) as u32);
        Some(Rejected { place, mark })
    }
}

/// A variant \[kind\] of a log: the frames in which each activity occurs equally often. The order
/// of the activities is ignored.
#[derive(Debug, Clone, Copy, PartialEq, Eq)]
pub struct Variant {
    /// The first line that is of this variant.
    pub first_line: u64,
    /// The number of lines that are of it.
    pub frames: u64,
    /// The sum of their case counts.
    pub cases: u64,
}

impl Variant {
    /// The variants of the entries that a summary wrote, [`VARIANT_LENGTH`] words each, in their
    /// order. Words at the end that are no whole entry are passed over.
    ///
    /// ```
    /// use placelist::Variant;
    ///
    /// let mut variants = Variant::from_entries(&[4, 2, 100, 0, 3, 99, 7, 7]);
    /// assert_eq!(variants.next(), Some(Variant { first_line: 4, frames: 2, cases: 100 }));
    /// assert_eq!(variants.next(), Some(Variant { first_line: 0, frames: 3, cases: 99 }));
    /// assert_eq!(variants.next(), None);
    /// ```
    pub fn from_entries(entries: &[u64]) -> impl Iterator<Item = Variant> + '_ {
        let variant = |entry: &[u64]| Variant {
            first_line: entry[0],
            frames: entry[1],
            cases: entry[2],
        };
        entries.chunks_exact(VARIANT_LENGTH).map(variant)
    }
}
