//! The writer of lists and the program.

use super::log::{digit, number};
use super::reduction::irredundant;
use super::search::{search_log, End, Run};
use super::{Log, Refusal, Settings};

/// The bytes of a written place.
pub const PLACE_BYTES: usize = 9;
/// The most bytes that the program reads.
pub const MOST_INPUT: usize = 65_536;
/// The most bytes that the program writes: a full list and the last line.
pub const MOST_OUTPUT: usize = MOST_FOUND * PLACE_BYTES + 19;

const MOST_FOUND: usize = 4096;
const MOST_REJECTED: usize = 1024;
const BUDGET: u32 = 1_000_000;

/// A run and, if it completed, what the reduction of its list answered.
#[derive(Clone, Copy, Debug, PartialEq, Eq)]
pub struct Listing {
    pub run: Run,
    pub reduced: Option<Result<usize, Refusal>>,
}

/// Writes the lines of a list into a buffer of just their length.
pub fn write_lines(words: &[u32], text: &mut [u8]) {
    for (line, &word) in text.chunks_exact_mut(PLACE_BYTES).zip(words) {
        let inputs_first = word.rotate_right(16);
        for (position, byte) in line[..8].iter_mut().enumerate() {
            let value = inputs_first >> (28 - 4 * position) & 0xF;
            *byte = b"0123456789ABCDEF"[value as usize];
        }
        line[8] = b'\n';
    }
}

/// What the program writes for an input, the case counts of its log having so many digits.
pub fn program_text(count_digits: usize, input: &[u8]) -> Vec<u8> {
    match list_places(count_digits, input) {
        Ok((words, run)) => {
            let mut text = vec![0; PLACE_BYTES * words.len()];
            write_lines(&words, &mut text);
            let (end, replays, visits) = (run.end.number(), run.replays, run.visits);
            text.extend(format!("{end:02X}{replays:08X}{visits:08X}\n").bytes());
            text
        }
        Err(refusal) => {
            let (number, value) = (refusal.number(), refusal.value());
            format!("FF{number:02X}{value:08X}\n").into_bytes()
        }
    }
}

/// The places that the program lists, and its run.
fn list_places(count_digits: usize, input: &[u8]) -> Result<(Vec<u32>, Run), Refusal> {
    if input.len() > MOST_INPUT {
        return Err(Refusal::TooLarge { line: 0 });
    }
    let (settings, text) = split_settings(input).ok_or(Refusal::InvalidSetting)?;
    settings.check()?;
    let log = Log::parse(count_digits, settings.activities, text)?;
    let mut rejected = vec![0; MOST_REJECTED];
    let mut found = vec![0; MOST_FOUND];
    let run = search_log(settings, &log, BUDGET, &mut rejected, &mut found);
    found.truncate(run.found);
    if run.end == End::Complete {
        found = irredundant(&found);
    }
    Ok((found, run))
}

/// The settings of the first line and the log after it, if that line is well formed.
fn split_settings(input: &[u8]) -> Option<(Settings, &[u8])> {
    let (line, text) = input.split_at_checked(11)?;
    let digits = line.strip_suffix(b"\n")?;
    if digits.iter().any(|&byte| digit(byte).is_none()) {
        return None;
    }
    let settings = Settings {
        activities: number(&digits[0..2]) as u8,
        inputs: number(&digits[2..4]) as u8,
        outputs: number(&digits[4..6]) as u8,
        threshold: number(&digits[6..10]) as u16,
    };
    Some((settings, text))
}
