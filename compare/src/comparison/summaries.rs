//! Comparisons of summaries.

use super::logs::{LIMIT_COUNTS, WORKED};
use super::places::TEXTS;
use super::Comparison;
use crate::generate::{
    different_bags, each_changed_byte, faulty_lines, faulty_logs, halved_log, log_of_bags,
    long_log, random_bags, random_log, short_logs, text_of, Bag, Counts, Random,
};
use crate::model::{self, COUNT_DIGITS, MOST_EVENTS, MOST_FRAMES, VARIANT_LENGTH};

/// The words that suffice for every log.
const MOST_WORDS: usize = VARIANT_LENGTH * MOST_FRAMES;

/// How the frames of logs count.
const COUNTS: [Counts; 5] = [
    Counts::Equal(1),
    Counts::Equal(0xFFFF_FFFF),
    Counts::Different,
    Counts::UpTo(3),
    Counts::UpTo(0xFFFF_FFFF),
];

/// All comparisons of this kind; the random ones so many times.
pub fn compare(comparison: &mut Comparison, random: &mut Random, rounds: usize) {
    worked_cases(comparison);
    refusals(comparison);
    damaged_logs(comparison);
    limit_counts(comparison);
    every_short_log(comparison);
    for _ in 0..rounds {
        random_logs(comparison, random);
        chosen_variants(comparison, random);
        longest_frames(comparison, random);
        most_frames(comparison, random);
    }
}

/// One log with buffers around the one that is just long enough: no words, an entry too few, a word
/// too few, just enough, and one to three words more.
fn around(comparison: &mut Comparison, kind: &'static str, activities: u8, text: &[u8]) {
    let variants = model::summarize(activities, text, &mut [0; MOST_WORDS]).unwrap_or(0);
    let enough = VARIANT_LENGTH * variants;
    let fewer = |words| enough.saturating_sub(words);
    let short = [0, fewer(VARIANT_LENGTH), fewer(1)];
    for room in short.into_iter().chain(enough..=enough + VARIANT_LENGTH) {
        comparison.summarize(kind, activities, text, room);
    }
}

/// The written cases at every bound.
fn worked_cases(comparison: &mut Comparison) {
    for activities in 0..=u8::MAX {
        for text in WORKED {
            let kind = "summarize: worked cases at every bound";
            around(comparison, kind, activities, text);
        }
    }
}

/// Refusals of bounds, texts and buffers, alone and together.
fn refusals(comparison: &mut Comparison) {
    for activities in [0, 1, 2, 3, 15, 16, 17, 128, 255] {
        for text in TEXTS {
            for room in 0..8 {
                let kind = "summarize: refusals together";
                comparison.summarize(kind, activities, text, room);
            }
        }
    }
}

/// Every byte changed of a log, lines with several faults, and logs at and beyond the limits.
fn damaged_logs(comparison: &mut Comparison) {
    each_changed_byte(
        b"0000000100020301\n0000000200030201\n0C0A00B00001\n",
        |text| {
            for room in [5, 6] {
                comparison.summarize("summarize: every byte changed", 4, text, room);
            }
        },
    );
    for line in faulty_lines() {
        let text = [b"000000010001\n", &line[..], b"00000002000201\n"].concat();
        for room in [0, 9] {
            comparison.summarize("summarize: lines with several faults", 3, &text, room);
        }
    }
    for text in faulty_logs() {
        for activities in [2, 3, 16] {
            let kind = "summarize: logs at the limits";
            around(comparison, kind, activities, &text);
        }
    }
}

/// Counts at their limits. Half of the frames are of either variant: one case decides, or none.
fn limit_counts(comparison: &mut Comparison) {
    for cases in LIMIT_COUNTS {
        for last in [1, cases.max(1) - 1, cases, 0xFFFF_FFFF.min(cases + 1)] {
            for frames in [1, 2, 3, MOST_FRAMES - 1, MOST_FRAMES, MOST_FRAMES + 1] {
                let text = halved_log(frames, cases, last);
                comparison.summarize("summarize: counts at the limits", 3, &text, 7);
            }
        }
    }
}

/// Every log of up to three of these lines.
fn every_short_log(comparison: &mut Comparison) {
    let traces = [
        "0001", "000201", "000301", "00020201", "00020301", "00030201",
    ];
    let lines = [1, 2].map(|cases| traces.map(|trace| format!("{cases:08X}{trace}\n")));
    for log in short_logs(&lines.concat(), 3) {
        around(comparison, "summarize: every short log", 4, log.as_bytes());
    }
}

/// Random logs, also under any bound.
fn random_logs(comparison: &mut Comparison, random: &mut Random) {
    for index in 0..1500 {
        let activities = random.between(2, 16) as u8;
        let frames = if index % 100 == 0 { MOST_FRAMES } else { 30 };
        let text = random_log(random, activities, frames);
        around(comparison, "summarize: random logs", activities, &text);
        let any = random.between(0, 17) as u8;
        around(
            comparison,
            "summarize: random logs under another bound",
            any,
            &text,
        );
    }
}

/// Logs of variants that were drawn before: some equal, some nearly so.
fn chosen_variants(comparison: &mut Comparison, random: &mut Random) {
    for _ in 0..2000 {
        let activities = random.between(2, 16) as u8;
        let sizes = match random.below(3) {
            0 => 0..=3,
            1 => 5..=20,
            _ => 60..=90,
        };
        let count = 1 + random.up_to_one_of(&[2, 10, 40]);
        let bags = random_bags(random, activities, &sizes, count);
        let frames = 1 + random.up_to_one_of(&[5, 40, 100]);
        let counts = random.pick(&COUNTS);
        let text = text_of_bags(random, &bags, frames, counts);
        around(comparison, "summarize: chosen variants", activities, &text);
    }
}

/// Frames in which an activity occurs as often as it can, and such numbers fewer that the lower
/// digits of what is left agree.
fn longest_frames(comparison: &mut Comparison, random: &mut Random) {
    const KIND: &str = "summarize: longest frames";
    let most = MOST_EVENTS - 2;
    let mut bags: Vec<Bag> = Vec::new();
    for code in 2..16 {
        bags.extend([0, 1, 16, 64, 128].map(|fewer| vec![code; most - fewer]));
        let mut near = vec![code; most];
        near[0] = 2 + (code + 1) % 14;
        bags.push(near);
    }
    for _ in 0..40 {
        let counts = random.pick(&COUNTS);
        let text = text_of_bags(random, &bags, 150, counts);
        around(comparison, KIND, 16, &text);
        around(comparison, KIND, 4, &long_log(random, 4, 40));
    }
}

/// As many frames as there can be, of one variant up to one for each, and one frame more.
fn most_frames(comparison: &mut Comparison, random: &mut Random) {
    const KIND: &str = "summarize: the most frames";
    for variants in [1, 2, 8, MOST_FRAMES / 2, MOST_FRAMES - 1, MOST_FRAMES] {
        for activities in [8, 16] {
            let bags = different_bags(random, activities, &(8..=18), variants);
            for counts in COUNTS {
                let text = text_of_bags(random, &bags, MOST_FRAMES, counts);
                around(comparison, KIND, activities, &text);
                let longer = [&text[..], b"000000010001\n"].concat();
                comparison.summarize(KIND, activities, &longer, MOST_WORDS);
            }
        }
    }
    let bags = different_bags(random, 5, &(240..=252), MOST_FRAMES);
    let text = text_of_bags(random, &bags, MOST_FRAMES, Counts::Different);
    around(comparison, KIND, 5, &text);
}

/// The text of a log of these bags.
fn text_of_bags(random: &mut Random, bags: &[Bag], frames: usize, counts: Counts) -> Vec<u8> {
    text_of(COUNT_DIGITS, &log_of_bags(random, bags, frames, counts))
}
