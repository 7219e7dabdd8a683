//! The outcomes that the comparisons have to reach: every answer, end and refusal of every call,
//! and where the first token is missing.

use crate::model::{Balances, Judgement, Log, MissingToken, Place, Verdict, MOST_FRAMES};
use std::ops::RangeInclusive;

/// A call and an outcome of it, as they are counted.
pub type Outcome = (&'static str, String);

/// Where no token is missing: whether the place is overfed.
const NOT_MISSING: [&str; 2] = ["no token missing", "no token missing, overfed"];
/// The event at which the first token is missing: the first of these that it is.
const EVENTS: [&str; 4] = [
    "missing at the first event",
    "missing at the last event",
    "missing at an activity of both sets",
    "missing at another event",
];
/// The line of this event: the first of these that it is.
const LINES: [&str; 4] = [
    "missing on the first line",
    "missing on line 4,095",
    "missing on the last line of fewer",
    "missing on another line",
];
/// Whether the underfed cases are too many.
const TOO_MANY: [&str; 2] = [
    "missing, cases within the threshold",
    "missing, cases above the threshold",
];

/// What the replay of a trace tells.
pub fn replayed(trace: &[u8], place: Place, balances: Balances) -> Vec<&'static str> {
    let missing_at = |event| missing_event(trace, place, event);
    let not_missing = NOT_MISSING[usize::from(balances.last > 0)];
    vec![balances.first_missing.map_or(not_missing, missing_at)]
}

/// What the judgement of a place over a log tells.
pub fn judged(log: &Log, place: Place, judgement: Judgement) -> Vec<&'static str> {
    let Some(MissingToken { line, event }) = judgement.first_underfed else {
        return vec![NOT_MISSING[usize::from(judgement.overfed > 0)]];
    };
    let underfed = matches!(judgement.verdict, Verdict::Underfed | Verdict::Both);
    vec![
        missing_event(&log.frames[line].trace, place, event),
        missing_line(log.frames.len(), line),
        TOO_MANY[usize::from(underfed)],
    ]
}

fn missing_event(trace: &[u8], place: Place, event: usize) -> &'static str {
    let in_both = (place.inputs & place.outputs) >> trace[event] & 1 == 1;
    first_of(EVENTS, [event == 0, event + 1 == trace.len(), in_both])
}

fn missing_line(frames: usize, line: usize) -> &'static str {
    first_of(
        LINES,
        [line == 0, line + 1 == MOST_FRAMES, line + 1 == frames],
    )
}

/// The first name whose condition holds, or the last one.
fn first_of(names: [&'static str; 4], conditions: [bool; 3]) -> &'static str {
    names[conditions.iter().position(|&it| it).unwrap_or(3)]
}

/// All outcomes of the calls, and of the program if it is compared.
pub fn required(with_program: bool) -> Vec<Outcome> {
    let answered = || named(&[&["answered"]]);
    let mut all = Vec::new();
    for (call, answers, refusals) in [
        ("check", answered(), 1..=6),
        ("replay", named(&[&NOT_MISSING, &EVENTS]), 1..=7),
        (
            "judge",
            named(&[&NOT_MISSING, &EVENTS, &LINES, &TOO_MANY]),
            1..=7,
        ),
        ("summarize", answered(), 1..=6),
        ("summarize", vec![], 8..=8),
        ("search", numbered("end ", 0..=2), 1..=6),
        ("reduce", answered(), 7..=8),
        ("write", answered(), 7..=8),
        ("report", program_lines(), 8..=8),
    ] {
        let outcomes = answers.into_iter().chain(numbered("refusal ", refusals));
        all.extend(outcomes.map(|outcome| (call, outcome)));
    }
    if with_program {
        all.extend(program_lines().into_iter().map(|line| ("program", line)));
    }
    all
}

/// What the last line of the program can say.
fn program_lines() -> Vec<String> {
    let mut lines = numbered("end 0", 0..=2);
    lines.extend(numbered("refusal line 0", 1..=6));
    lines
}

fn named(lists: &[&[&str]]) -> Vec<String> {
    lists.concat().into_iter().map(String::from).collect()
}

fn numbered(word: &str, numbers: RangeInclusive<u8>) -> Vec<String> {
    numbers.map(|number| format!("{word}{number}")).collect()
}
