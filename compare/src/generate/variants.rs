//! Logs by their variants: frames that have the same activities in any order.

use super::logs::{frame, random_count, random_step};
use super::Random;
use crate::model::Frame;
use std::collections::HashSet;
use std::ops::RangeInclusive;

/// The activities between the start and the end of a frame, in any order.
pub type Bag = Vec<u8>;

/// What the frames of a log count.
#[derive(Clone, Copy, Debug)]
pub enum Counts {
    /// all the same
    Equal(u64),
    /// the numbers from 1 on, each once
    Different,
    /// any up to a greatest one
    UpTo(u64),
}

/// So many bags of such sizes, also equal and nearly equal ones.
pub fn random_bags(
    random: &mut Random,
    activities: u8,
    sizes: &RangeInclusive<usize>,
    count: usize,
) -> Vec<Bag> {
    let mut bags: Vec<Bag> = Vec::new();
    while bags.len() < count {
        let bag = if bags.is_empty() || random.chance(50) {
            random_bag(random, activities, sizes)
        } else {
            let bag = bags[random.below(bags.len())].clone();
            near_bag(random, activities, bag)
        };
        bags.push(bag);
    }
    bags
}

/// So many bags of such sizes, no two of them equal. There have to be so many.
pub fn different_bags(
    random: &mut Random,
    activities: u8,
    sizes: &RangeInclusive<usize>,
    count: usize,
) -> Vec<Bag> {
    let mut known = HashSet::new();
    let mut bags = Vec::new();
    while bags.len() < count {
        let mut bag = random_bag(random, activities, sizes);
        bag.sort_unstable();
        if known.insert(bag.clone()) {
            bags.push(bag);
        }
    }
    bags
}

/// A bag of such a size, empty if nothing can stand between the start and the end.
fn random_bag(random: &mut Random, activities: u8, sizes: &RangeInclusive<usize>) -> Bag {
    if activities == 2 {
        return Bag::new();
    }
    let size = random.between(*sizes.start(), *sizes.end());
    (0..size).map(|_| random_step(random, activities)).collect()
}

/// The bag with one activity changed, more or fewer, or with two activities in each other's place.
/// An empty one stays.
fn near_bag(random: &mut Random, activities: u8, mut bag: Bag) -> Bag {
    let Some(position) = bag.len().checked_sub(1).map(|last| random.between(0, last)) else {
        return bag;
    };
    let (code, other) = (bag[position], random_step(random, activities));
    match random.below(4) {
        0 => bag[position] = other,
        1 => bag.push(other),
        2 => drop(bag.remove(position)),
        _ => bag
            .iter_mut()
            .for_each(|it| *it = swapped(*it, code, other)),
    }
    bag
}

/// The other one of two codes, or a third one itself.
fn swapped(it: u8, code: u8, other: u8) -> u8 {
    if it == code {
        other
    } else if it == other {
        code
    } else {
        it
    }
}

/// A log of so many frames: each bag once, then any of them, mostly in an order of their own.
pub fn log_of_bags(random: &mut Random, bags: &[Bag], frames: usize, counts: Counts) -> Vec<Frame> {
    let cases = case_counts(random, frames, counts);
    let of_index = |(index, cases)| {
        let any = random.below(bags.len());
        let mut inner = bags.get(index).unwrap_or(&bags[any]).clone();
        if random.chance(80) {
            random.shuffle(&mut inner);
        }
        frame(cases, inner)
    };
    cases.into_iter().enumerate().map(of_index).collect()
}

/// The counts of so many frames.
fn case_counts(random: &mut Random, frames: usize, counts: Counts) -> Vec<u64> {
    let mut cases: Vec<u64> = (1..=frames as u64).collect();
    match counts {
        Counts::Equal(count) => cases.fill(count),
        Counts::Different => random.shuffle(&mut cases),
        Counts::UpTo(most) => cases.fill_with(|| random_count(random, most)),
    }
    cases
}
