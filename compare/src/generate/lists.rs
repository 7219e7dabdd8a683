//! Lists of words, with unions, near unions and repeats.

use super::{any_place, random_place, Random};

/// A list of valid words over the codes below `activities`.
pub fn random_valid_list(random: &mut Random, activities: u8, length: usize) -> Vec<u32> {
    let mut words: Vec<u32> = Vec::new();
    while words.len() < length {
        let word = if words.is_empty() || random.chance(40) {
            random_place(random, activities).word()
        } else {
            derived_word(random, &words)
        };
        if word & 0xFFFF != 0 && word >> 16 != 0 {
            let position = random.between(0, words.len());
            words.insert(position, word);
        }
    }
    words
}

/// A word made of earlier ones: a repeat, a union, or a union changed by one bit.
fn derived_word(random: &mut Random, words: &[u32]) -> u32 {
    let mut word = random.pick(words);
    if random.chance(10) {
        return word;
    }
    for _ in 0..random.between(1, 12) {
        let part = random.pick(words);
        if word & part == 0 {
            word |= part;
        }
    }
    match random.below(4) {
        0 => word ^ 1 << random.below(32),
        1 => word | random.pick(words),
        _ => word,
    }
}

/// A list that may have invalid words.
pub fn random_list(random: &mut Random, length: usize) -> Vec<u32> {
    let activities = random.between(2, 16) as u8;
    let mut words = random_valid_list(random, activities, length);
    if !words.is_empty() && random.chance(25) {
        for _ in 0..random.between(1, 3) {
            let position = random.below(words.len());
            words[position] = any_place(random).word();
        }
    }
    words
}
