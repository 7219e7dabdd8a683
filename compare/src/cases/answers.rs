//! What is written for an answer.

use super::notation;
use crate::model::{
    Balances, Judgement, Listing, LogSize, MissingToken, Refusal, Run, Variant, Verdict,
    VARIANT_LENGTH,
};

/// Where the first token is missing if none is.
const NOWHERE: &str = "nowhere";

/// An answer that can be written on lines of its own.
pub trait Lines {
    fn lines(&self) -> String;
}

impl Lines for LogSize {
    fn lines(&self) -> String {
        format!("  frames {} cases {}\n", self.frames, self.cases)
    }
}

impl Lines for Balances {
    fn lines(&self) -> String {
        let missing = match self.first_missing {
            Some(event) => format!("at event {event}"),
            None => NOWHERE.to_string(),
        };
        format!(
            "  least {} last {} first missing {missing}\n",
            self.least, self.last
        )
    }
}

impl Lines for Judgement {
    fn lines(&self) -> String {
        let verdict = match self.verdict {
            Verdict::Fitting => "fitting",
            Verdict::Underfed => "underfed",
            Verdict::Overfed => "overfed",
            Verdict::Both => "both",
        };
        let missing = match self.first_underfed {
            Some(MissingToken { line, event }) => format!("at line {line} event {event}"),
            None => NOWHERE.to_string(),
        };
        let counts = format!(
            "fitting {} underfed {} overfed {} both {}",
            self.fitting, self.underfed, self.overfed, self.both
        );
        format!("  {counts} verdict {verdict} first missing {missing}\n")
    }
}

impl Lines for Variant {
    fn lines(&self) -> String {
        format!(
            "  first line {} frames {} cases {}\n",
            self.first_line, self.frames, self.cases
        )
    }
}

impl Lines for Run {
    fn lines(&self) -> String {
        format!(
            "  end {} found {} rejected {} replays {} visits {}\n",
            self.end.number(),
            self.found,
            self.rejected,
            self.replays,
            self.visits
        )
    }
}

impl Lines for Listing {
    fn lines(&self) -> String {
        let reduced = self.reduced.map(|kept| lines(kept.map(Kept)));
        self.run.lines() + &reduced.unwrap_or_default()
    }
}

impl Lines for Refusal {
    fn lines(&self) -> String {
        format!("  refused {} at {}\n", self.number(), self.value())
    }
}

/// How many words a reduction kept.
pub struct Kept(pub usize);

impl Lines for Kept {
    fn lines(&self) -> String {
        format!("  kept {}\n", self.0)
    }
}

/// How many variants a log has.
#[derive(Clone, Copy)]
pub struct Variants(pub usize);

impl Lines for Variants {
    fn lines(&self) -> String {
        format!("  variants {}\n", self.0)
    }
}

/// How many bytes were written.
#[derive(Clone, Copy)]
pub struct Bytes(pub usize);

impl Lines for Bytes {
    fn lines(&self) -> String {
        format!("  bytes {}\n", self.0)
    }
}

/// The lines of an answer or of its refusal.
pub fn lines<A: Lines>(answer: Result<A, Refusal>) -> String {
    match answer {
        Ok(answer) => answer.lines(),
        Err(refusal) => refusal.lines(),
    }
}

/// The line of a list or of a reduced list.
pub fn list_line(name: &str, buffer: &[u32]) -> String {
    let buffer: Vec<u64> = buffer.iter().copied().map(u64::from).collect();
    format!("  {name}{}\n", notation::words(&buffer, 8))
}

/// The line of a cache.
pub fn cache_line(buffer: &[u64]) -> String {
    format!("  cache{}\n", notation::words(buffer, 9))
}

/// The answer of a summary, the entries that it says were written, and the other words.
pub fn summary_lines(answer: Result<usize, Refusal>, buffer: &[u64]) -> String {
    let (entries, others) = buffer.split_at(VARIANT_LENGTH * answer.unwrap_or(0));
    let mut written = lines(answer.map(Variants));
    for variant in Variant::from_entries(entries) {
        written += &variant.lines();
    }
    written + &format!("  others{}\n", notation::words(others, 9))
}

/// The answer of a call that writes a text, and the text.
pub fn text_lines(answer: Result<usize, Refusal>, buffer: &[u8]) -> String {
    let count = answer.unwrap_or(0);
    let text = notation::bytes(buffer, count);
    lines(answer.map(Bytes)) + &format!("  text{text}\n")
}
