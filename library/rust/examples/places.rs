//! Lists the places of a log, and says of each how many cases fit it, and where the first token is
//! missing, if one is.
//!
//! ```text
//! places FILE
//! ```
//!
//! FILE has a settings line and a log, as the program placelist reads them. The status is that of
//! placelist: 0 complete, 1 a file failed, 2 usage, 3 refused, which is told in words on standard
//! error, 4 the list is only a beginning. A standard output that is closed is not noticed: Rust
//! opens one that takes everything in its place.

use placelist::{check, judge, reduce, search, write};
use placelist::{End, Judgement, MissingToken, Place, Refusal, Rejected, Settings, Verdict};
use placelist::{LINE_BYTES, PROGRAM_BUDGET, PROGRAM_FOUND, PROGRAM_REJECTED};
use std::ffi::{OsStr, OsString};
use std::io::{self, Write};
use std::os::unix::ffi::OsStrExt;
use std::process::ExitCode;

const COMPLETE: u8 = 0;
const FILE_FAILED: u8 = 1;
const USAGE: u8 = 2;
const REFUSED: u8 = 3;
const STOPPED: u8 = 4;

/// The settings line: two digits each of activities, inputs and outputs, four of threshold.
const SETTINGS_DIGITS: usize = 10;

/// Why there is no whole answer.
enum Failure {
    Unreadable,
    NoSettings,
    Refused(&'static str, Refusal),
}

fn main() -> ExitCode {
    let arguments: Vec<OsString> = std::env::args_os().skip(1).collect();
    let [path] = &arguments[..] else {
        complain(b"usage: places FILE");
        return USAGE.into();
    };
    let mut out = String::new();
    let answer = list_places(path, &mut out);
    let written = io::stdout().write_all(out.as_bytes());
    let written = written.and_then(|()| io::stdout().flush());
    let status = match answer {
        Ok(End::Complete) => COMPLETE,
        Ok(End::BudgetSpent | End::ListFull) => STOPPED,
        Err(failure) => fail(failure, path),
    };
    written.map_or(FILE_FAILED, |()| status).into()
}

/// Says what went wrong, and answers the exit status.
fn fail(failure: Failure, path: &OsStr) -> u8 {
    match failure {
        Failure::Unreadable => {
            complain(&[b"places: cannot read ", path.as_bytes()].concat());
            FILE_FAILED
        }
        Failure::NoSettings => {
            complain(b"places: the first line is no settings line");
            REFUSED
        }
        Failure::Refused(call, refusal) => {
            let number = refusal.number();
            let words = format!("places: {call} was refused: {refusal} (number {number})");
            complain(words.as_bytes());
            REFUSED
        }
    }
}

/// Writes a line to standard error; if that fails, there is nowhere to say so.
fn complain(words: &[u8]) {
    let _ = io::stderr().write_all(&[words, b"\n"].concat());
}

/// What to answer if this call is refused.
fn refused(call: &'static str) -> impl Fn(Refusal) -> Failure {
    move |refusal| Failure::Refused(call, refusal)
}

/// The whole job; `out` receives what is to be written. Answers how the search ended.
fn list_places(path: &OsStr, out: &mut String) -> Result<End, Failure> {
    let file = std::fs::read(path).map_err(|_| Failure::Unreadable)?;
    let (settings, log) = split_settings(&file).ok_or(Failure::NoSettings)?;

    let size = check(settings.activities, log).map_err(refused("the check"))?;
    let (frames, cases) = (size.frames, size.cases);
    out.push_str(&format!("log: {frames} frames, {cases} cases\n"));

    let (end, mut words) = search_places(settings, log, out)?;
    // a list that is not complete is left as found
    if end == End::Complete {
        words = reduced(&words)?;
        out.push_str(&format!("reduced: {} places\n", words.len()));
    }
    write_list(settings, log, cases, &words, out)?;
    Ok(end)
}

/// The settings of the first line, and the log. Whether they are in range is for the library to
/// say.
fn split_settings(file: &[u8]) -> Option<(Settings, &[u8])> {
    let (line, log) = file.split_at_checked(SETTINGS_DIGITS + 1)?;
    let digits = line.strip_suffix(b"\n")?;
    let settings = Settings {
        activities: number(&digits[0..2])? as u8,
        inputs: number(&digits[2..4])? as u8,
        outputs: number(&digits[4..6])? as u8,
        threshold: number(&digits[6..])?,
    };
    Some((settings, log))
}

/// The number of up to four digits 0-9 and A-F.
fn number(digits: &[u8]) -> Option<u16> {
    digits.iter().try_fold(0, |number, digit| {
        let value = match digit {
            b'0'..=b'9' => digit - b'0',
            b'A'..=b'F' => digit - b'A' + 10,
            _ => return None,
        };
        Some(number << 4 | u16::from(value))
    })
}

/// Searches the places that fit: how that ended, and their words.
fn search_places(
    settings: Settings,
    log: &[u8],
    out: &mut String,
) -> Result<(End, Vec<u32>), Failure> {
    let mut rejected = vec![0; PROGRAM_REJECTED];
    let mut found = vec![0; PROGRAM_FOUND];
    let run = search(settings, log, PROGRAM_BUDGET, &mut rejected, &mut found)
        .map_err(refused("the search"))?;
    found.truncate(run.found);
    out.push_str(&format!(
        "search: {}; {} places found, {} replays, {} visits\n",
        run.end, run.found, run.replays, run.visits
    ));
    tell_rejected(&rejected[..run.rejected], out);
    Ok((run.end, found))
}

/// Says why places were rejected, of those that the cache had room for.
fn tell_rejected(words: &[u64], out: &mut String) {
    let rejected: Vec<Rejected> = words
        .iter()
        .copied()
        .filter_map(Rejected::from_word)
        .collect();
    let count = |mark| rejected.iter().filter(|place| place.mark == mark).count();
    let (underfed, overfed) = (count(Verdict::Underfed), count(Verdict::Overfed));
    let both = count(Verdict::Both);
    out.push_str(&format!(
        "rejected: {underfed} underfed, {overfed} overfed, {both} both\n"
    ));
}

/// The list without the places that are unions of others.
fn reduced(words: &[u32]) -> Result<Vec<u32>, Failure> {
    let mut kept = vec![0; words.len()];
    let count = reduce(words, &mut kept).map_err(refused("the reduction"))?;
    kept.truncate(count);
    Ok(kept)
}

/// Lists the places, a line for each.
fn write_list(
    settings: Settings,
    log: &[u8],
    cases: u64,
    words: &[u32],
    out: &mut String,
) -> Result<(), Failure> {
    let mut text = vec![0; words.len() * LINE_BYTES];
    write(words, &mut text).map_err(refused("the writing"))?;
    for (word, line) in words.iter().zip(text.chunks(LINE_BYTES)) {
        let place = Place::from_word(*word);
        let judgement = judge(settings.activities, settings.threshold, log, place)
            .map_err(refused("the judgement"))?;
        out.push_str(&String::from_utf8_lossy(&line[..LINE_BYTES - 1]));
        tell_judgement(judgement, cases, out);
    }
    Ok(())
}

/// Ends the line of a place.
fn tell_judgement(judgement: Judgement, cases: u64, out: &mut String) {
    let fitting = judgement.fitting;
    out.push_str(&format!(": {fitting} of {cases} cases fit"));
    if let Some(MissingToken { line, event }) = judgement.first_underfed {
        out.push_str(&format!(
            "; first missing token: line {line}, event {event}"
        ));
    }
    out.push('\n');
}
