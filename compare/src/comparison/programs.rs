//! Comparisons of the whole program, on slices and as a process.

use super::places::TEXTS;
use super::Comparison;
use crate::generate::{
    count_candidates, each_changed_byte, halved_log, log_of_bytes, random_log, random_settings,
    settings_line, Random,
};
use crate::model::{Settings, MOST_FRAMES, MOST_INPUT, MOST_OUTPUT};
use std::path::Path;

/// The written case.
const WORKED: &[u8] = b"0303010000\n000000010001\n";
/// More than a million candidates, few of them fitting: the budget is used up.
const WHOLE_BUDGET: &[u8] = b"1004040000\n0000000100020304050607080901\n";

/// All comparisons on slices; the random ones so many times.
pub fn compare_reports(comparison: &mut Comparison, random: &mut Random, rounds: usize) {
    for room in rooms() {
        for input in [WORKED, b"", b"0303010000\n", &[b'0'; MOST_INPUT + 1]] {
            comparison.report("report: rooms", input, room);
        }
    }
    for input in fixed_inputs(random) {
        comparison.report("report: settings, sizes and ends", &input, MOST_OUTPUT);
    }
    each_changed_byte(b"0302010064\n00000009000201\n000000010001\n", |input| {
        comparison.report("report: every byte changed", input, MOST_OUTPUT + 1);
    });
    for _ in 0..rounds {
        for _ in 0..1500 {
            let input = random_input(random);
            comparison.report("report: random inputs", &input, MOST_OUTPUT);
        }
    }
    comparison.report("report: a whole budget", WHOLE_BUDGET, MOST_OUTPUT);
}

/// All comparisons of the process; the random ones so many times.
pub fn compare_program(
    comparison: &mut Comparison,
    random: &mut Random,
    rounds: usize,
    program: &Path,
) {
    for input in fixed_inputs(random) {
        comparison.program(
            "program: settings, sizes and ends",
            program,
            &input,
            MOST_INPUT,
        );
    }
    for piece in [1, 2, 3, 7, 10, 11, 12, 19, 23] {
        comparison.program("program: short pieces", program, WORKED, piece);
    }
    comparison.program("program: a whole budget", program, WHOLE_BUDGET, MOST_INPUT);
    for _ in 0..rounds {
        for index in 0..200 {
            let input = random_input(random);
            let piece = if index % 2 == 0 { MOST_INPUT } else { 16 };
            comparison.program("program: random inputs", program, &input, piece);
        }
        for bytes in [MOST_INPUT - 1, MOST_INPUT, MOST_INPUT + 1, 2 * MOST_INPUT] {
            let input = input_of_bytes(random, bytes);
            comparison.program("program: much input by pieces", program, &input, 4096);
        }
    }
}

fn rooms() -> Vec<usize> {
    let near = MOST_OUTPUT - 20..MOST_OUTPUT + 20;
    (0..40)
        .chain(near)
        .chain([MOST_OUTPUT / 2, 50_000])
        .collect()
}

/// An input of exactly so many bytes.
fn input_of_bytes(random: &mut Random, bytes: usize) -> Vec<u8> {
    let line = b"0402020032\n";
    [&line[..], &log_of_bytes(random, 4, bytes - line.len())].concat()
}

/// Inputs at the limits of settings, sizes and lists.
fn fixed_inputs(random: &mut Random) -> Vec<Vec<u8>> {
    let mut inputs = vec![WORKED.to_vec(), Vec::new(), vec![0; MOST_INPUT + 1]];
    for bytes in [
        MOST_INPUT - 1,
        MOST_INPUT,
        MOST_INPUT + 1,
        MOST_INPUT + 5000,
    ] {
        inputs.push(input_of_bytes(random, bytes));
        inputs.push(vec![b'0'; bytes]);
    }
    let lines = [
        "0303030000\n",
        "0303010000",
        "030301000\n",
        "03030100000\n",
        "0303010000\n\n",
        "\n",
        "0203010000\n",
        "0103010000\n",
        "1103010000\n",
        "0304010000\n",
        "0301040000\n",
        "0300010000\n",
        "0301000000\n",
        "03030103E8\n",
        "03030103E9\n",
        "030301FFFF\n",
        "0A010103e8\n",
        "0a01010000\n",
        "1010100000\n",
        "10101003E9\n",
        "FF03010000\n",
        "0303010000\r\n",
        " 0303010000\n",
        "0303 10000\n",
        "0403030000\n",
    ];
    for line in lines {
        // the highest settings would search for long
        for text in TEXTS
            .iter()
            .take(if line.starts_with("101010") { 1 } else { 10 })
        {
            inputs.push([line.as_bytes(), text].concat());
        }
    }
    for last in [0xFFFF_FFFE, 0xFFFF_FFFF] {
        let text = halved_log(MOST_FRAMES, 0xFFFF_FFFF, last);
        inputs.push([b"03030301F4\n", &text[..]].concat());
    }
    // every candidate fits: a list that is just short of full, and full ones
    for line in [
        "06060603E8\n",
        "08030303E8\n",
        "10101003E8\n",
        "0E010403E8\n",
    ] {
        inputs.push([line.as_bytes(), b"00000001000201\n"].concat());
    }
    for line in [
        "0803030000\n",
        "0707020000\n",
        "0E02020064\n",
        "1002020000\n",
    ] {
        inputs.push([line.as_bytes(), &random_log(random, 7, 20)].concat());
    }
    inputs
}

/// Settings and a log, now and then one that does not suit the other.
fn random_input(random: &mut Random) -> Vec<u8> {
    let mut settings = random_settings(random, 3000);
    let activities = settings.activities;
    let text = random_log(random, activities, 15);
    if random.chance(10) {
        settings.activities = random.between(0, 17) as u8;
        if count_candidates_above(settings, 20_000) {
            settings.activities = activities;
        }
    }
    [settings_line(settings), text].concat()
}

/// Whether valid settings have more candidates than that.
fn count_candidates_above(settings: Settings, most: u64) -> bool {
    settings.check().is_ok() && count_candidates(settings) > most
}
