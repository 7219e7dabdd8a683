//! Comparisons of searches.

use super::logs::LIMIT_COUNTS;
use super::places::TEXTS;
use super::{Comparison, Sizes};
use crate::generate::{
    count_candidates, each_changed_byte, faulty_logs, halved_log, random_log, random_settings,
    random_threshold, Random,
};
use crate::model::{Settings, MOST_FRAMES};

/// All comparisons of this kind; the random ones so many times.
pub fn compare(comparison: &mut Comparison, random: &mut Random, rounds: usize) {
    refusals(comparison);
    damaged_logs(comparison);
    limit_counts(comparison);
    small_sizes(comparison, random, 4 + 2 * rounds);
    for _ in 0..rounds {
        random_searches(comparison, random);
        full_sizes(comparison, random);
        many_candidates(comparison, random);
        highest_settings(comparison, random);
    }
}

fn settings(activities: u8, inputs: u8, outputs: u8, threshold: u16) -> Settings {
    Settings {
        activities,
        inputs,
        outputs,
        threshold,
    }
}

/// Refusals of settings and texts, alone and together.
fn refusals(comparison: &mut Comparison) {
    let sizes = Sizes {
        budget: 20,
        rejected: 3,
        found: 3,
    };
    let kind = "search: refusals together";
    for activities in [0, 1, 2, 3, 16, 17, 255] {
        for inputs in [0, 1, 2, 3, 4, 16, 17, 255] {
            for outputs in [0, 1, 3, 4, 255] {
                for threshold in [0, 1000, 1001, 0xFFFF] {
                    let settings = settings(activities, inputs, outputs, threshold);
                    for text in TEXTS {
                        comparison.search(kind, settings, text, sizes);
                    }
                }
            }
        }
    }
}

/// Every byte changed of a searched log, and logs at and beyond the limits.
fn damaged_logs(comparison: &mut Comparison) {
    let sizes = Sizes {
        budget: 100,
        rejected: 10,
        found: 10,
    };
    let settings = settings(3, 1, 1, 0);
    each_changed_byte(b"00000001000201\n0000000200020201\n", |text| {
        comparison.search("search: every byte changed", settings, text, sizes);
    });
    for text in faulty_logs() {
        comparison.search("search: logs at the limits", settings, &text, sizes);
    }
}

/// Counts at their limits. Half of the frames are of either kind: at 500 one case decides.
fn limit_counts(comparison: &mut Comparison) {
    for cases in LIMIT_COUNTS {
        for frames in [2, MOST_FRAMES] {
            for fewer in [0, 1] {
                let text = halved_log(frames, cases, cases.max(fewer) - fewer);
                limit_shares(comparison, &text);
            }
        }
    }
}

/// One such log, at thresholds around a half and at the ends of their range.
fn limit_shares(comparison: &mut Comparison, text: &[u8]) {
    let sizes = Sizes {
        budget: 49,
        rejected: 49,
        found: 49,
    };
    for threshold in [0, 499, 500, 501, 1000] {
        let settings = settings(3, 3, 3, threshold);
        comparison.search("search: counts at the limits", settings, text, sizes);
    }
}

/// Every small budget, cache and list.
fn small_sizes(comparison: &mut Comparison, random: &mut Random, logs: usize) {
    for index in 0..logs {
        let settings = match index % 3 {
            0 => settings(3, 2, 2, 0),
            1 => settings(3, 3, 2, random_threshold(random)),
            _ => settings(4, 2, 2, random_threshold(random)),
        };
        let text = match index {
            0 => b"00000001000201\n".to_vec(),
            _ => random_log(random, settings.activities, 4),
        };
        for budget in (0..24).chain([30, 36, 41, 42, 43, 99, 100, u32::MAX]) {
            for rejected in 0..20 {
                for found in 0..9 {
                    let sizes = Sizes {
                        budget,
                        rejected,
                        found,
                    };
                    let kind = "search: every small size";
                    comparison.search(kind, settings, &text, sizes);
                }
            }
        }
    }
}

/// Random settings, logs and sizes.
fn random_searches(comparison: &mut Comparison, random: &mut Random) {
    for _ in 0..6000 {
        let settings = random_settings(random, 1500);
        let candidates = count_candidates(settings) as usize;
        let text = random_log(random, settings.activities, 12);
        let sizes = Sizes {
            budget: random.up_to_one_of(&[10, 100, 2000, 2000]) as u32,
            rejected: random.up_to_one_of(&[4, 40, 400, candidates]),
            found: random.up_to_one_of(&[5, 100, candidates]),
        };
        comparison.search("search: random sizes", settings, &text, sizes);
    }
}

/// Searches that complete, and the reduction of what they found.
fn full_sizes(comparison: &mut Comparison, random: &mut Random) {
    for _ in 0..1000 {
        let settings = random_settings(random, 1000);
        let candidates = count_candidates(settings);
        let text = random_log(random, settings.activities, 20);
        for rejected in [0, 16, candidates as usize] {
            let sizes = Sizes {
                budget: candidates as u32,
                rejected,
                found: candidates as usize,
            };
            let kind = "search: complete";
            let found = comparison.search(kind, settings, &text, sizes);
            comparison.reduce("reduce: what a search found", &found, found.len());
            comparison.write("write: what a search found", &found, 9 * found.len());
        }
    }
}

/// Sixteen activities and longer logs.
fn many_candidates(comparison: &mut Comparison, random: &mut Random) {
    for (activities, inputs, outputs) in [(16, 2, 2), (8, 3, 3), (7, 7, 2), (12, 1, 3), (6, 6, 6)] {
        for frames in [3, 150] {
            let settings = settings(activities, inputs, outputs, random_threshold(random));
            let text = random_log(random, activities, frames);
            let sizes = Sizes {
                budget: u32::MAX,
                rejected: random.pick(&[50, 500, 2000]),
                found: 20_000,
            };
            comparison.search("search: many candidates", settings, &text, sizes);
        }
    }
}

/// The highest settings, stopped early.
fn highest_settings(comparison: &mut Comparison, random: &mut Random) {
    for index in 0..60 {
        let settings = settings(16, 16, 16, random.pick(&[0, 500, 1000]));
        let text = random_log(random, 16, 5);
        let sizes = Sizes {
            budget: random.between(0, 12) as u32,
            rejected: index % 8,
            found: random.between(0, 8),
        };
        comparison.search("search: highest settings", settings, &text, sizes);
    }
}
