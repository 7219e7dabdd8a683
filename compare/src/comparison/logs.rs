//! Comparisons of checked logs, whole and damaged.

use super::Comparison;
use crate::generate::{each_changed_byte, faulty_lines, faulty_logs, long_log, random_log, Random};
use crate::model::{COUNT_DIGITS, MOST_ACTIVITIES, MOST_FRAMES};

/// The texts of the written cases.
pub const WORKED: [&[u8]; 9] = [
    b"00000001000203040501\n",
    b"0000000100040202030301\n",
    b"00000001000201\n",
    b"0000001F0002030401\n0000001B0003020401\n000000170002030501\n000000130003020501\n",
    b"",
    b"\n",
    b"000000000001\n",
    b"000000010100\n",
    b"000000010001\n",
];

/// Case counts at the limits of four digits, and of 32 bits with and without a sign.
pub const LIMIT_COUNTS: [u64; 10] = [
    0,
    1,
    0xFFFF,
    0x1_0000,
    0x1_FFFF,
    0x7FFF_FFFF,
    0x8000_0000,
    0xFFFF_0000,
    0xFFFF_FFFE,
    0xFFFF_FFFF,
];

/// All comparisons of this kind; the random ones so many times.
pub fn compare(comparison: &mut Comparison, random: &mut Random, rounds: usize) {
    for activities in 0..=u8::MAX {
        for text in WORKED {
            comparison.check("check: worked cases at every bound", activities, text);
        }
    }
    each_digit(comparison);
    limit_counts(comparison);
    combined_faults(comparison, rounds);
    for log in faulty_logs() {
        for activities in [2, 3, 16] {
            comparison.check("check: logs at the limits", activities, &log);
        }
    }
    for _ in 0..rounds {
        changed_bytes(comparison, random);
        whole_logs(comparison, random);
    }
}

/// Each digit of a count, at each of its places.
fn each_digit(comparison: &mut Comparison) {
    for position in 0..COUNT_DIGITS {
        for digit in 0..16u64 {
            let text = format!("{:08X}0001\n", digit << (4 * position));
            comparison.check("check: each digit of a count", 2, text.as_bytes());
        }
    }
}

/// Counts at their limits, in logs of few and of the most frames.
fn limit_counts(comparison: &mut Comparison) {
    for count in LIMIT_COUNTS {
        for frames in [1, 2, MOST_FRAMES - 1, MOST_FRAMES, MOST_FRAMES + 1] {
            let text = format!("{count:08X}0001\n").repeat(frames);
            comparison.check("check: counts at the limits", 2, text.as_bytes());
        }
    }
}

/// Lines with several faults, alone, in pairs, and as the last line of a longest log.
fn combined_faults(comparison: &mut Comparison, rounds: usize) {
    let lines = faulty_lines();
    for line in &lines {
        for activities in [1, 2, 3, 4] {
            comparison.check("check: lines with several faults", activities, line);
        }
        for frames in [MOST_FRAMES - 1, MOST_FRAMES, MOST_FRAMES + 1] {
            let text = [b"000000010001\n".repeat(frames), line.clone()].concat();
            comparison.check("check: faulty lines at the end", 3, &text);
        }
    }
    let step = if rounds == 1 { 4 } else { 1 };
    for (index, first) in lines.iter().enumerate() {
        for second in lines.iter().skip(index % step).step_by(step) {
            let text = [&first[..], second].concat();
            comparison.check("check: two faulty lines", 3, &text);
        }
    }
}

/// Every byte of some logs replaced, deleted, and followed by others.
fn changed_bytes(comparison: &mut Comparison, random: &mut Random) {
    for _ in 0..40 {
        let activities = random.pick(&[3, 4, 6, 10, 11, 16]);
        let mut text = random_log(random, activities, 4);
        text.truncate(116);
        each_changed_byte(&text, |damaged| {
            comparison.check("check: every byte changed", activities, damaged);
        });
    }
}

/// Logs in the written form, also under other bounds.
fn whole_logs(comparison: &mut Comparison, random: &mut Random) {
    for index in 0..4000 {
        let activities = random.between(2, 16) as u8;
        let frames = if index % 100 == 0 { MOST_FRAMES } else { 30 };
        let text = random_log(random, activities, frames);
        comparison.check("check: whole logs", activities, &text);
        let other = random.between(2, usize::from(MOST_ACTIVITIES)) as u8;
        comparison.check("check: whole logs under another bound", other, &text);
    }
    for _ in 0..200 {
        let text = long_log(random, 5, 3);
        comparison.check("check: longest frames", 5, &text);
    }
}
