//! Tokens in a trace, and the verdict of a log on a place.

use super::{Log, Place};

/// The least and the last token balance of a trace, and its first event at which a token is
/// missing.
#[derive(Clone, Copy, Debug, PartialEq, Eq)]
pub struct Balances {
    pub least: i16,
    pub last: i16,
    pub first_missing: Option<usize>,
}

/// An event at which a token is missing.
#[derive(Clone, Copy, Debug, PartialEq, Eq)]
pub struct MissingToken {
    pub line: usize,
    pub event: usize,
}

/// What a log says of a place at a threshold.
#[derive(Clone, Copy, Debug, PartialEq, Eq)]
pub enum Verdict {
    Fitting,
    Underfed,
    Overfed,
    Both,
}

/// The four case counts of a place, the verdict, and the first line that underfeeds the place.
#[derive(Clone, Copy, Debug, PartialEq, Eq)]
pub struct Judgement {
    pub fitting: u64,
    pub underfed: u64,
    pub overfed: u64,
    pub both: u64,
    pub verdict: Verdict,
    pub first_underfed: Option<MissingToken>,
}

/// The four case counts of a place.
struct CaseCounts {
    fitting: u64,
    underfed: u64,
    overfed: u64,
    both: u64,
}

impl Verdict {
    /// The verdict with these two properties.
    pub fn of(underfed: bool, overfed: bool) -> Verdict {
        match (underfed, overfed) {
            (false, false) => Verdict::Fitting,
            (true, false) => Verdict::Underfed,
            (false, true) => Verdict::Overfed,
            (true, true) => Verdict::Both,
        }
    }
}

impl CaseCounts {
    /// Counts the cases of a whole log, and tells of each line whether it underfeeds the place.
    fn of(log: &Log, place: Place, mut tell: impl FnMut(bool)) -> CaseCounts {
        let (mut fitting, mut underfed, mut overfed, mut both) = (0, 0, 0, 0);
        for frame in &log.frames {
            let (least, last) = least_and_last(&frame.trace, place);
            tell(least < 0);
            let cases = match Verdict::of(least < 0, last > 0) {
                Verdict::Fitting => &mut fitting,
                Verdict::Underfed => &mut underfed,
                Verdict::Overfed => &mut overfed,
                Verdict::Both => &mut both,
            };
            *cases += frame.cases;
        }
        CaseCounts {
            fitting,
            underfed,
            overfed,
            both,
        }
    }

    /// The verdict at a threshold, of so many cases in all.
    fn verdict(&self, threshold: u16, all: u64) -> Verdict {
        let too_many = |cases: u64| 1000 * cases > u64::from(threshold) * all;
        Verdict::of(
            too_many(self.underfed + self.both),
            too_many(self.overfed + self.both),
        )
    }
}

/// The least and the last balance of a trace. An event takes its token before it gives one.
fn least_and_last(trace: &[u8], place: Place) -> (i16, i16) {
    let mut least = 0;
    let mut balance = 0;
    for &code in trace {
        balance -= (place.outputs >> code & 1) as i16;
        least = least.min(balance);
        balance += (place.inputs >> code & 1) as i16;
    }
    (least, balance)
}

/// The first event of a trace at which a token is missing.
fn first_missing(trace: &[u8], place: Place) -> Option<usize> {
    let mut balance = 0;
    trace.iter().position(|&code| {
        balance -= (place.outputs >> code & 1) as i16;
        let missing = balance < 0;
        balance += (place.inputs >> code & 1) as i16;
        missing
    })
}

/// Replays one trace.
pub fn replay_trace(trace: &[u8], place: Place) -> Balances {
    let (least, last) = least_and_last(trace, place);
    Balances {
        least,
        last,
        first_missing: first_missing(trace, place),
    }
}

/// The verdict of a whole log on a place, which is all that a search asks for.
pub fn log_verdict(log: &Log, threshold: u16, place: Place) -> Verdict {
    CaseCounts::of(log, place, |_| ()).verdict(threshold, log.cases)
}

/// Judges a place over a whole log.
pub fn judge_log(log: &Log, threshold: u16, place: Place) -> Judgement {
    // counts the lines before the first that underfeeds the place, without a branch
    let (mut none_yet, mut line) = (true, 0);
    let counts = CaseCounts::of(log, place, |underfeeds| {
        none_yet &= !underfeeds;
        line += usize::from(none_yet);
    });
    let first_underfed = log.frames.get(line).and_then(|frame| {
        let event = first_missing(&frame.trace, place)?;
        Some(MissingToken { line, event })
    });
    Judgement {
        fitting: counts.fitting,
        underfed: counts.underfed,
        overfed: counts.overfed,
        both: counts.both,
        verdict: counts.verdict(threshold, log.cases),
        first_underfed,
    }
}
