//! Comparisons of reduced and written lists.

use super::Comparison;
use crate::generate::{random_list, random_valid_list, Random};
use crate::model::PLACE_BYTES;

/// All comparisons of this kind; the random ones so many times.
pub fn compare(comparison: &mut Comparison, random: &mut Random, rounds: usize) {
    short_lists(comparison);
    for _ in 0..rounds {
        small_rooms(comparison, random);
        random_lists(comparison, random);
        partitions(comparison, random);
        long_lists(comparison, random);
    }
}

/// Every list of up to four places over two activities, and of up to two words of any kind.
fn short_lists(comparison: &mut Comparison) {
    let sets = [1, 2, 3];
    let words: Vec<u32> = sets
        .iter()
        .flat_map(|outputs| sets.map(|inputs| inputs | outputs << 16))
        .collect();
    let mut lists = vec![vec![]];
    for length in 0..=4 {
        for list in &lists {
            comparison.reduce("reduce: every short list", list, length + 1);
        }
        lists = longer(&lists, &words);
    }
    let words = [
        0,
        1,
        0x8000,
        0x0001_0000,
        0x8000_0000,
        0x0001_0001,
        0xFFFF_FFFF,
    ];
    for list in longer(&longer(&[vec![]], &words), &words) {
        comparison.reduce("reduce: invalid words", &list, 2);
        comparison.write("write: invalid words", &list, 18);
        comparison.reduce("reduce: invalid words, no room", &list, 1);
        comparison.write("write: invalid words, no room", &list, 17);
    }
}

/// Each list with each word appended.
fn longer(lists: &[Vec<u32>], words: &[u32]) -> Vec<Vec<u32>> {
    let mut longer = Vec::new();
    for list in lists {
        for &word in words {
            longer.push([&list[..], &[word]].concat());
        }
    }
    longer
}

/// Every room from 0 to beyond what is needed.
fn small_rooms(comparison: &mut Comparison, random: &mut Random) {
    for _ in 0..150 {
        let length = random.between(0, 7);
        let words = random_list(random, length);
        for room in 0..words.len() + 4 {
            comparison.reduce("reduce: every small room", &words, room);
        }
        for room in 0..PLACE_BYTES * words.len() + 12 {
            comparison.write("write: every small room", &words, room);
        }
    }
}

/// Lists with unions, near unions, repeats and invalid words.
fn random_lists(comparison: &mut Comparison, random: &mut Random) {
    for _ in 0..20_000 {
        let length = random.up_to_one_of(&[6, 20, 60]);
        let words = random_list(random, length);
        let room = random.pick(&[length, length, length + 1, length + 9, length.max(1) - 1]);
        comparison.reduce("reduce: random lists", &words, room);
        let bytes = PLACE_BYTES * length;
        let room = random.pick(&[bytes, bytes + 1, bytes + 30, bytes.max(1) - 1]);
        comparison.write("write: random lists", &words, room);
    }
}

/// A place, parts of it that split it up, and one of them changed or missing.
fn partitions(comparison: &mut Comparison, random: &mut Random) {
    for _ in 0..10_000 {
        let most = random.between(2, 16);
        let mut parts = random_partition(random, most);
        let whole = parts.iter().fold(0, |union, part| union | part);
        let chosen = random.below(parts.len());
        match random.below(4) {
            0 => parts[chosen] ^= 1 << random.below(32),
            1 => drop(parts.remove(chosen)),
            2 => parts.extend(random_partition(random, most)),
            _ => {}
        }
        let position = random.between(0, parts.len());
        parts.insert(position, whole);
        comparison.reduce("reduce: partitions and near ones", &parts, parts.len());
    }
}

/// Disjoint places that use some of the inputs and outputs below a bound.
fn random_partition(random: &mut Random, bound: usize) -> Vec<u32> {
    let count = random.between(1, bound.min(6));
    let mut parts: Vec<u32> = (0..count).map(|part| 0x0001_0001 << part).collect();
    for bit in (count..bound).chain(16 + count..16 + bound) {
        let part = random.below(count + 1);
        if let Some(part) = parts.get_mut(part) {
            *part |= 1 << bit;
        }
    }
    parts
}

/// Lists of hundreds and thousands of words.
fn long_lists(comparison: &mut Comparison, random: &mut Random) {
    for length in [100, 200, 400, 800, 1500, 4096, 5000] {
        for activities in [4, 8, 16] {
            let words = random_valid_list(random, activities, length);
            comparison.reduce("reduce: long lists", &words, length + 3);
            comparison.write("write: long lists", &words, PLACE_BYTES * length + 3);
        }
    }
}
