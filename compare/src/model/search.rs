//! The search for the fitting candidates.

use super::candidates::{ordered_sets, Entry};
use super::judging::log_verdict;
use super::{Log, Place, Settings, Verdict};

/// How a search ended, and what it counted.
#[derive(Clone, Copy, Debug, PartialEq, Eq)]
pub struct Run {
    pub end: End,
    pub found: usize,
    pub rejected: usize,
    pub replays: u32,
    pub visits: u32,
}

/// The three ends of a search.
#[derive(Clone, Copy, Debug, PartialEq, Eq)]
pub enum End {
    Complete,
    BudgetUsed,
    ListFull,
}

impl End {
    /// The number of the end.
    pub fn number(self) -> u8 {
        match self {
            End::Complete => 0,
            End::BudgetUsed => 1,
            End::ListFull => 2,
        }
    }
}

const UNDERFED: u64 = 1 << 32;
const OVERFED: u64 = 2 << 32;

/// A buffer filled from the front.
struct Filled<'a, T> {
    buffer: &'a mut [T],
    count: usize,
}

impl<T> Filled<'_, T> {
    /// Appends if there is room, and says whether there was.
    fn push(&mut self, item: T) -> bool {
        match self.buffer.get_mut(self.count) {
            Some(slot) => {
                *slot = item;
                self.count += 1;
                true
            }
            None => false,
        }
    }

    fn items(&self) -> &[T] {
        &self.buffer[..self.count]
    }
}

/// A search under way.
struct Search<'a> {
    log: &'a Log,
    threshold: u16,
    budget: u32,
    rejected: Filled<'a, u64>,
    found: Filled<'a, u32>,
    replays: u32,
    visits: u32,
}

/// Searches all candidates of checked settings, in order.
pub fn search_log(
    settings: Settings,
    log: &Log,
    budget: u32,
    rejected: &mut [u64],
    found: &mut [u32],
) -> Run {
    let mut search = Search {
        log,
        threshold: settings.threshold,
        budget,
        rejected: Filled {
            buffer: rejected,
            count: 0,
        },
        found: Filled {
            buffer: found,
            count: 0,
        },
        replays: 0,
        visits: 0,
    };
    let inputs = ordered_sets(settings.activities, settings.inputs);
    let outputs = ordered_sets(settings.activities, settings.outputs);
    let end = search.all(&inputs, &outputs).err();
    Run {
        end: end.unwrap_or(End::Complete),
        found: search.found.count,
        rejected: search.rejected.count,
        replays: search.replays,
        visits: search.visits,
    }
}

impl Search<'_> {
    /// Goes through all candidates, or stops early with the end.
    fn all(&mut self, inputs: &[Entry], outputs: &[Entry]) -> Result<(), End> {
        for &Entry { set: outputs, .. } in outputs {
            let mut position = 0;
            while let Some(&Entry { set: inputs, after }) = inputs.get(position) {
                let known_overfed = self.visit(Place { inputs, outputs })?;
                position = if known_overfed { after } else { position + 1 };
            }
        }
        Ok(())
    }

    /// Visits one candidate. Answers whether the cache then rules it overfed.
    fn visit(&mut self, place: Place) -> Result<bool, End> {
        let known_overfed = self.is_known_overfed(place);
        if known_overfed || self.is_known_underfed(place) {
            self.visits += 1;
            return Ok(known_overfed);
        }
        if self.replays == self.budget {
            return Err(End::BudgetUsed);
        }
        self.visits += 1;
        self.replays += 1;
        let mark = match log_verdict(self.log, self.threshold, place) {
            Verdict::Fitting if self.found.push(place.word()) => return Ok(false),
            Verdict::Fitting => return Err(End::ListFull),
            Verdict::Underfed => UNDERFED,
            Verdict::Overfed => OVERFED,
            Verdict::Both => UNDERFED | OVERFED,
        };
        // a full cache drops the word, and then rules no more than before
        let kept = self.rejected.push(u64::from(place.word()) | mark);
        Ok(kept && mark & OVERFED != 0)
    }

    /// Whether the cache has a heavier underfed place.
    fn is_known_underfed(&self, place: Place) -> bool {
        self.rejected.items().iter().any(|&word| {
            word & UNDERFED != 0 && place.is_at_least_as_light_as(Place::from_word(word as u32))
        })
    }

    /// Whether the cache has a lighter overfed place.
    fn is_known_overfed(&self, place: Place) -> bool {
        self.rejected.items().iter().any(|&word| {
            word & OVERFED != 0 && Place::from_word(word as u32).is_at_least_as_light_as(place)
        })
    }
}
