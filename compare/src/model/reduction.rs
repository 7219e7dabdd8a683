//! The places of a list that are no union of others of it.

use std::collections::HashSet;

/// What a search for a cover remembers: nothing, or the bits that were found to have no cover.
type Memory = Option<HashSet<u32>>;

/// The words of `words` that are not redundant, in order.
pub fn irredundant(words: &[u32]) -> Vec<u32> {
    kept(words, || None)
}

/// The same for lists on which a plain search would take too long: many choices leave the same
/// bits open, and what has no cover is remembered.
pub fn irredundant_remembering(words: &[u32]) -> Vec<u32> {
    kept(words, || Some(HashSet::new()))
}

fn kept(words: &[u32], memory: impl Fn() -> Memory) -> Vec<u32> {
    let mut distinct = words.to_vec();
    distinct.sort_unstable();
    distinct.dedup();
    words
        .iter()
        .copied()
        .filter(|&word| !is_redundant(word, &distinct, memory()))
        .collect()
}

/// Whether the word is a union of two or more of `distinct` that share no input and no output.
/// A part other than the word itself cannot be the whole, so the cover has at least two.
fn is_redundant(word: u32, distinct: &[u32], mut memory: Memory) -> bool {
    let parts: Vec<u32> = distinct
        .iter()
        .copied()
        .filter(|&part| part != word && part & !word == 0)
        .collect();
    covers(word, &parts, &mut memory)
}

/// Whether some of `parts`, which are those within `open`, cover `open` without sharing a bit.
fn covers(open: u32, parts: &[u32], memory: &mut Memory) -> bool {
    if open == 0 {
        return true;
    }
    if memory.as_ref().is_some_and(|known| known.contains(&open)) {
        return false;
    }
    let bit = scarcest_bit(open, parts);
    let covered = parts.iter().filter(|&&part| part & bit != 0).any(|&part| {
        let rest: Vec<u32> = parts
            .iter()
            .copied()
            .filter(|&other| other & part == 0)
            .collect();
        covers(open & !part, &rest, memory)
    });
    if let (false, Some(known)) = (covered, memory) {
        known.insert(open);
    }
    covered
}

/// The bit of `open` that the fewest parts have.
fn scarcest_bit(open: u32, parts: &[u32]) -> u32 {
    (0..32)
        .map(|position| 1 << position)
        .filter(|bit| open & bit != 0)
        .min_by_key(|bit| parts.iter().filter(|&part| part & bit != 0).count())
        .expect("a bit is open")
}
