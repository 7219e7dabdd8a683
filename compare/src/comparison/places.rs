//! Comparisons of replayed and judged places.

use super::logs::{LIMIT_COUNTS, WORKED};
use super::Comparison;
use crate::generate::{
    any_place, each_changed_byte, faulty_logs, halved_log, log_underfed_from, long_log,
    place_from_2_to_3, random_log, random_place, random_threshold, short_logs, text_of, Random,
    UNDERFED_BOUND,
};
use crate::model::{self, Place, COUNT_DIGITS, MOST_EVENTS, MOST_FRAMES};

/// Texts of every kind of fault, for a bound of 3.
pub const TEXTS: [&[u8]; 10] = [
    b"",
    b"00000001000201\n",
    b"\n",
    b"00000001000201",
    b"00000000000201\n",
    b"00000001000301\n",
    b"00000001000200\n",
    b"00000001000201\n000000010301\n",
    b"00000001000201\n00000001000101\n00000001\n",
    b"00000001000201\nFFFFFFFF0001\n",
];

/// All comparisons of this kind; the random ones so many times.
pub fn compare(comparison: &mut Comparison, random: &mut Random, rounds: usize) {
    worked_cases(comparison);
    refusals(comparison);
    changed_bytes(comparison);
    limits(comparison);
    every_short_log(comparison);
    first_missing_events(comparison);
    for _ in 0..rounds {
        random_places(comparison, random);
        first_underfed_lines(comparison, random);
        thresholds(comparison, random);
        longest_frames(comparison, random);
    }
}

/// Every place of six activities on the written cases' first logs.
fn worked_cases(comparison: &mut Comparison) {
    for text in &WORKED[..4] {
        for word in 0..1 << 12 {
            let place = Place {
                inputs: word & 0x3F,
                outputs: word >> 6,
            };
            comparison.replay("replay: every place on worked cases", 6, text, place);
            comparison.judge("judge: every place on worked cases", 6, 419, text, place);
        }
    }
}

/// Refusals of settings, places and texts, alone and together.
fn refusals(comparison: &mut Comparison) {
    let places = [
        (1, 2),
        (0, 2),
        (1, 0),
        (0, 0),
        (8, 1),
        (1, 8),
        (0x8000, 1),
        (4, 4),
    ];
    let places = places.map(|(inputs, outputs)| Place { inputs, outputs });
    for activities in [0, 1, 2, 3, 4, 15, 16, 17, 128, 255] {
        for place in places {
            for text in TEXTS {
                comparison.replay("replay: refusals together", activities, text, place);
                for threshold in [0, 999, 1000, 1001, 0xFFFF] {
                    let kind = "judge: refusals together";
                    comparison.judge(kind, activities, threshold, text, place);
                }
            }
        }
    }
}

/// Every byte changed of a log that is replayed or judged.
fn changed_bytes(comparison: &mut Comparison) {
    let place = Place {
        inputs: 5,
        outputs: 6,
    };
    each_changed_byte(b"00000001000201\n00000002000201\n0C0A00B00001\n", |text| {
        comparison.replay("replay: every byte changed", 3, text, place);
        comparison.judge("judge: every byte changed", 3, 100, text, place);
    });
}

/// Logs at and beyond the limits.
fn limits(comparison: &mut Comparison) {
    let place = Place {
        inputs: 1,
        outputs: 6,
    };
    for text in faulty_logs() {
        comparison.replay("replay: logs at the limits", 3, &text, place);
        comparison.judge("judge: logs at the limits", 3, 500, &text, place);
    }
}

/// Every place of four activities on every trace of one to four steps, and on every log of up to
/// three of four lines.
fn every_short_log(comparison: &mut Comparison) {
    let line = |inner: &str| format!("0000000100{inner}01\n");
    let steps = short_logs(&["02", "03"].map(String::from), 4);
    let traces: Vec<String> = steps.iter().map(|steps| line(steps)).collect();
    let logs = short_logs(&["", "02", "03", "0302"].map(line), 3);
    for outputs in 1..1 << 4 {
        for inputs in 1..1 << 4 {
            let place = Place { inputs, outputs };
            for trace in &traces {
                comparison.replay("replay: every short trace", 4, trace.as_bytes(), place);
            }
            for log in &logs {
                comparison.judge("judge: every short log", 4, 333, log.as_bytes(), place);
            }
        }
    }
}

/// Lines at both ends of a log, in its middle and next to the last that a byte can number, as the
/// first that underfeeds a place; also no line.
fn first_underfed_lines(comparison: &mut Comparison, random: &mut Random) {
    for frames in [1, 2, 3, 300, MOST_FRAMES - 1, MOST_FRAMES] {
        let lines = [0, 1, 2, 127, 128, 255, 256, 2047, 2048, frames - 1, frames];
        for line in lines.into_iter().filter(|&line| line <= frames) {
            for threshold in [0, random_threshold(random), 1000] {
                let place = place_from_2_to_3(random);
                let log = log_underfed_from(random, place, frames, line);
                let text = text_of(COUNT_DIGITS, &log);
                let kind = "replay: first underfed lines";
                comparison.replay(kind, UNDERFED_BOUND, &text, place);
                let kind = "judge: first underfed lines";
                comparison.judge(kind, UNDERFED_BOUND, threshold, &text, place);
            }
        }
    }
}

/// Each event of a longest frame between its start and its end as the first at which a token is
/// missing.
fn first_missing_events(comparison: &mut Comparison) {
    let place = Place {
        inputs: 2,
        outputs: 8,
    };
    for event in 1..MOST_EVENTS - 1 {
        let steps = "02".repeat(event - 1) + &"03".repeat(MOST_EVENTS - 1 - event);
        let text = format!("0000000100{steps}01\n").into_bytes();
        comparison.replay("replay: every event", 4, &text, place);
        comparison.judge("judge: every event", 4, 0, &text, place);
    }
}

/// Random places on random logs.
fn random_places(comparison: &mut Comparison, random: &mut Random) {
    for index in 0..1500 {
        let activities = random.between(2, 16) as u8;
        let frames = if index % 100 == 0 { 2000 } else { 30 };
        let text = random_log(random, activities, frames);
        for _ in 0..8 {
            let place = random_place(random, activities);
            let threshold = random_threshold(random);
            comparison.replay("replay: random places", activities, &text, place);
            comparison.judge("judge: random places", activities, threshold, &text, place);
        }
        let place = any_place(random);
        comparison.replay("replay: any sets", activities, &text, place);
        comparison.judge("judge: any sets", activities, 0, &text, place);
    }
}

/// Thresholds at and next to the shares of faulty cases.
fn thresholds(comparison: &mut Comparison, random: &mut Random) {
    for _ in 0..1500 {
        let activities = random.between(3, 8) as u8;
        let text = random_log(random, activities, 12);
        let place = random_place(random, activities);
        let Ok(judgement) = model::judge(activities, 0, &text, place) else {
            continue;
        };
        let sound = judgement.fitting + judgement.both;
        let cases = sound + judgement.underfed + judgement.overfed;
        for faulty in [judgement.underfed, judgement.overfed] {
            let share = (1000 * (faulty + judgement.both) / cases) as u16;
            for threshold in [share.saturating_sub(1), share, share + 1] {
                let kind = "judge: thresholds at the share";
                comparison.judge(kind, activities, threshold, &text, place);
            }
        }
    }
    for scale in [1, 0x1_0001, 4_294_967] {
        exact_shares(comparison, scale);
    }
    limit_counts(comparison);
}

/// Shares that are whole thousandths, of so many thousand cases: the verdict turns just above.
fn exact_shares(comparison: &mut Comparison, scale: u64) {
    for faulty in 1..1000u16 {
        let cases = scale * u64::from(faulty);
        let text = format!("{cases:08X}0001\n{:08X}000201\n", 1000 * scale - cases);
        for (inputs, outputs) in [(4, 2), (1, 4), (4, 4), (1, 8), (8, 4)] {
            let place = Place { inputs, outputs };
            for threshold in [faulty - 1, faulty, 1000 - faulty, 999 - faulty] {
                let kind = "judge: shares of whole thousandths";
                comparison.judge(kind, 4, threshold, text.as_bytes(), place);
            }
        }
    }
}

/// Counts at their limits. Half of the frames underfeed the place: at 500 one case decides.
fn limit_counts(comparison: &mut Comparison) {
    let place = Place {
        inputs: 4,
        outputs: 2,
    };
    for cases in LIMIT_COUNTS {
        for last in [1, cases.max(1) - 1, cases, 0xFFFF_FFFF.min(cases + 1)] {
            for frames in [2, 3, MOST_FRAMES - 1, MOST_FRAMES] {
                limit_shares(comparison, &halved_log(frames, cases, last), place);
            }
        }
    }
}

/// One such log, at thresholds around a half and at the ends of their range.
fn limit_shares(comparison: &mut Comparison, text: &[u8], place: Place) {
    for threshold in [0, 333, 499, 500, 501, 999, 1000] {
        comparison.judge("judge: counts at the limits", 3, threshold, text, place);
    }
}

/// Balances at the ends of their ranges.
fn longest_frames(comparison: &mut Comparison, random: &mut Random) {
    let all = |code: u8| format!("0000000100{}01\n", format!("{code:02X}").repeat(252));
    for (inputs, outputs) in [
        (4, 8),
        (8, 4),
        (5, 8),
        (7, 8),
        (8, 7),
        (4, 4),
        (15, 15),
        (8, 5),
        (8, 2),
    ] {
        let place = Place { inputs, outputs };
        comparison.replay("replay: longest frames", 4, all(2).as_bytes(), place);
        comparison.judge("judge: longest frames", 4, 0, all(2).as_bytes(), place);
    }
    for _ in 0..400 {
        let text = long_log(random, 6, 4);
        let place = random_place(random, 6);
        comparison.replay("replay: longest frames", 6, &text, place);
        comparison.judge("judge: longest frames", 6, 300, &text, place);
    }
}
