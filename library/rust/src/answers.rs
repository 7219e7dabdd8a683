//! What the calls answer.

use std::fmt;

/// The version of the library: of its calls and of the formats that they read and write.
#[derive(Debug, Clone, Copy, PartialEq, Eq, PartialOrd, Ord)]
pub struct Version {
    /// Raised where a format or the arguments of a call change.
    pub major: u16,
    /// Raised where something is added.
    pub minor: u8,
    /// Raised where neither changes.
    pub patch: u8,
}

impl Version {
    /// The version of its number: major * 65536 + minor * 256 + patch.
    pub(crate) fn of(number: u32) -> Version {
        let [high, low, minor, patch] = number.to_be_bytes();
        Version {
            major: u16::from_be_bytes([high, low]),
            minor,
            patch,
        }
    }
}

impl fmt::Display for Version {
    fn fmt(&self, f: &mut fmt::Formatter<'_>) -> fmt::Result {
        write!(f, "{}.{}.{}", self.major, self.minor, self.patch)
    }
}

/// The size of a log.
#[derive(Debug, Clone, Copy, PartialEq, Eq)]
pub struct LogSize {
    /// The number of frames, at most 4,096.
    pub frames: u64,
    /// The sum of all case counts, at most 17,592,186,040,320.
    pub cases: u64,
}

/// An index of what may be nowhere: the archive gives a number below 0 then.
pub(crate) fn index(number: i32) -> Option<usize> {
    usize::try_from(number).ok()
}

/// The token balances of a trace on a place, and where the first token is missing.
#[derive(Debug, Clone, Copy, PartialEq, Eq)]
pub struct Balances {
    /// The least balance over the events, each taken after the outputs of the event and before its
    /// inputs. Below 0 the trace underfeeds the place.
    pub least: i16,
    /// The balance after the trace. Above 0 the trace overfeeds the place.
    pub last: i16,
    /// The first event at which a token is missing, that is, at which the balance, taken as for
    /// `least`, is below 0: 0 to 253. `None` exactly where `least` is 0.
    pub first_missing: Option<usize>,
}

/// The verdict on a place over a log, and the mark of a rejected place.
#[derive(Debug, Clone, Copy, PartialEq, Eq)]
#[repr(u8)]
pub enum Verdict {
    /// Neither underfed nor overfed.
    Fitting = 0,
    /// More cases than the threshold underfeed the place.
    Underfed = 1,
    /// More cases than the threshold overfeed the place.
    Overfed = 2,
    /// Underfed and overfed.
    Both = 3,
}

impl Verdict {
    /// The verdict of a number that the archive gave.
    pub(crate) fn of(number: u8) -> Verdict {
        match number {
            0 => Verdict::Fitting,
            1 => Verdict::Underfed,
            2 => Verdict::Overfed,
            3 => Verdict::Both,
            other => unreachable!("the archive gives no verdict {other}"),
        }
    }
}

/// Where in a log a token is missing.
#[derive(Debug, Clone, Copy, PartialEq, Eq)]
pub struct MissingToken {
    /// The line, 0 to 4,095.
    pub line: usize,
    /// The event of that line, 0 to 253.
    pub event: usize,
}

impl MissingToken {
    /// That of two indices that the archive gave, which are both nowhere or neither.
    pub(crate) fn of(line: i32, event: i32) -> Option<MissingToken> {
        let (line, event) = index(line).zip(index(event))?;
        Some(MissingToken { line, event })
    }
}

/// What judging a place answers: four numbers of cases, which add up to all cases of the log, at
/// most 17,592,186,040,320, the verdict, and where the first token is missing.
#[derive(Debug, Clone, Copy, PartialEq, Eq)]
pub struct Judgement {
    /// Cases that fit.
    pub fitting: u64,
    /// Cases that only underfeed the place.
    pub underfed: u64,
    /// Cases that only overfeed the place.
    pub overfed: u64,
    /// Cases that do both.
    pub both: u64,
    /// The verdict at the threshold.
    pub verdict: Verdict,
    /// The first line whose trace underfeeds the place, and its first event at which a token is
    /// missing, at any threshold. `None` exactly where no cases underfeed the place: `underfed` and
    /// `both` are 0.
    pub first_underfed: Option<MissingToken>,
}

/// How a search ended.
#[derive(Debug, Clone, Copy, PartialEq, Eq)]
#[repr(u8)]
pub enum End {
    /// After the last candidate: every fitting place was found.
    Complete = 0,
    /// A candidate needed a replay, and the budget was used up.
    BudgetSpent = 1,
    /// A candidate fitted, and the list had no room for it.
    ListFull = 2,
}

impl End {
    /// The end of a number that the archive gave.
    pub(crate) fn of(number: u64) -> End {
        match number {
            0 => End::Complete,
            1 => End::BudgetSpent,
            2 => End::ListFull,
            other => unreachable!("the archive gives no end {other}"),
        }
    }
}

impl fmt::Display for End {
    fn fmt(&self, f: &mut fmt::Formatter<'_>) -> fmt::Result {
        f.write_str(match self {
            End::Complete => "complete",
            End::BudgetSpent => "stopped, the budget was spent",
            End::ListFull => "stopped, the list was full",
        })
    }
}

/// How a search ended, and what it counted.
#[derive(Debug, Clone, Copy, PartialEq, Eq)]
pub struct Run {
    /// How the search ended.
    pub end: End,
    /// The words written to `found`.
    pub found: usize,
    /// The words written to `rejected`.
    pub rejected: usize,
    /// The candidates that were replayed, at most the budget.
    pub replays: u32,
    /// The candidates that were visited.
    pub visits: u32,
}
