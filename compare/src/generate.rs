//! Inputs for the comparisons, the same ones for the same seed.

mod damage;
mod lists;
mod logs;
mod padding;
mod random;
mod underfed;
mod variants;

pub use damage::{each_changed_byte, faulty_lines, faulty_logs};
pub use lists::{random_list, random_valid_list};
pub use logs::{
    halved_log, log_of_bytes, long_log, process_log, random_log, short_logs, text_of, LogShape,
};
pub use padding::{padded_input, padded_log};
pub use random::Random;
pub use underfed::{log_underfed_from, place_from_2_to_3, UNDERFED_BOUND};
pub use variants::{different_bags, log_of_bags, random_bags, Bag, Counts};

use crate::model::{Place, Settings};

/// How many activity sets have at most `most` codes below `activities`.
pub fn count_sets(activities: u8, most: u8) -> u64 {
    let mut sets = 0;
    let mut of_size = 1;
    for size in 1..=u64::from(most) {
        of_size = of_size * (u64::from(activities) + 1 - size) / size;
        sets += of_size;
    }
    sets
}

/// How many candidates the settings have.
pub fn count_candidates(settings: Settings) -> u64 {
    let inputs = count_sets(settings.activities, settings.inputs);
    inputs * count_sets(settings.activities, settings.outputs)
}

/// Settings within their ranges, with at most so many candidates.
pub fn random_settings(random: &mut Random, most_candidates: u64) -> Settings {
    loop {
        let activities = random.between(2, 16) as u8;
        let settings = Settings {
            activities,
            inputs: random.between(1, usize::from(activities)) as u8,
            outputs: random.between(1, usize::from(activities)) as u8,
            threshold: random_threshold(random),
        };
        if count_candidates(settings) <= most_candidates {
            return settings;
        }
    }
}

/// The first line of the program's input.
pub fn settings_line(settings: Settings) -> Vec<u8> {
    let Settings {
        activities,
        inputs,
        outputs,
        threshold,
    } = settings;
    format!("{activities:02X}{inputs:02X}{outputs:02X}{threshold:04X}\n").into_bytes()
}

/// A threshold, often 0 and often small.
pub fn random_threshold(random: &mut Random) -> u16 {
    match random.below(4) {
        0 => 0,
        1 => random.between(1, 50) as u16,
        2 => random.between(0, 1000) as u16,
        _ => random.pick(&[1, 100, 200, 250, 333, 500, 999, 1000]),
    }
}

/// A set of some of the codes below `activities`, not empty.
pub fn random_set(random: &mut Random, activities: u8) -> u16 {
    let all = (1u32 << activities) - 1;
    loop {
        let mut set = random.next() as u32;
        for _ in 0..random.below(4) {
            set &= random.next() as u32;
        }
        if set & all != 0 {
            return (set & all) as u16;
        }
    }
}

/// A place with codes below `activities`.
pub fn random_place(random: &mut Random, activities: u8) -> Place {
    Place {
        inputs: random_set(random, activities),
        outputs: random_set(random, activities),
    }
}

/// Any place, seldom a valid one for a small bound.
pub fn any_place(random: &mut Random) -> Place {
    let set = |random: &mut Random| match random.below(3) {
        0 => 0,
        1 => 1 << random.below(16),
        _ => random.next() as u16,
    };
    Place {
        inputs: set(random),
        outputs: set(random),
    }
}
