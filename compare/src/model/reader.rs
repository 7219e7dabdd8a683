//! The calls that are lent a log, for case counts of any number of digits.

use super::judging::{judge_log, replay_trace};
use super::listing::{self, MOST_OUTPUT};
use super::log::measure;
use super::place::check_place;
use super::search::search_log;
use super::settings::{check_activities, check_threshold};
use super::summary::variants;
use super::{
    reduce, Balances, End, Judgement, Listing, Log, LogSize, Place, Refusal, Run, Settings,
    VARIANT_LENGTH,
};

/// Reads logs whose frames have so many digits of case count.
#[derive(Clone, Copy, Debug)]
pub struct Reader {
    pub count_digits: usize,
}

impl Reader {
    /// Checks a log.
    pub fn check(self, activities: u8, text: &[u8]) -> Result<LogSize, Refusal> {
        check_activities(activities)?;
        measure(self.count_digits, activities, text)
    }

    /// Replays line 0 of a log.
    pub fn replay(self, activities: u8, text: &[u8], place: Place) -> Result<Balances, Refusal> {
        check_activities(activities)?;
        check_place(activities, place)?;
        let log = Log::parse(self.count_digits, activities, text)?;
        Ok(replay_trace(&log.frames[0].trace, place))
    }

    /// Judges a place over a log.
    pub fn judge(
        self,
        activities: u8,
        threshold: u16,
        text: &[u8],
        place: Place,
    ) -> Result<Judgement, Refusal> {
        check_activities(activities)?;
        check_threshold(threshold)?;
        check_place(activities, place)?;
        let log = Log::parse(self.count_digits, activities, text)?;
        Ok(judge_log(&log, threshold, place))
    }

    /// Writes an entry for each variant of a log.
    pub fn summarize(
        self,
        activities: u8,
        text: &[u8],
        entries: &mut [u64],
    ) -> Result<usize, Refusal> {
        check_activities(activities)?;
        let variants = variants(self.count_digits, activities, text)?;
        if entries.len() / VARIANT_LENGTH < variants.len() {
            return Err(Refusal::BufferTooSmall);
        }
        for (entry, variant) in entries.chunks_exact_mut(VARIANT_LENGTH).zip(&variants) {
            entry.copy_from_slice(&variant.entry());
        }
        Ok(variants.len())
    }

    /// Searches the fitting candidates.
    pub fn search(
        self,
        settings: Settings,
        text: &[u8],
        budget: u32,
        rejected: &mut [u64],
        found: &mut [u32],
    ) -> Result<Run, Refusal> {
        settings.check()?;
        let log = Log::parse(self.count_digits, settings.activities, text)?;
        Ok(search_log(settings, &log, budget, rejected, found))
    }

    /// Searches the fitting candidates and, after a completed run, reduces what was found.
    pub fn list(
        self,
        settings: Settings,
        text: &[u8],
        budget: u32,
        rejected: &mut [u64],
        found: &mut [u32],
        kept: &mut [u32],
    ) -> Result<Listing, Refusal> {
        let run = self.search(settings, text, budget, rejected, found)?;
        let complete = run.end == End::Complete;
        let reduced = complete.then(|| reduce(&found[..run.found], kept));
        Ok(Listing { run, reduced })
    }

    /// What the program writes for an input.
    pub fn program_text(self, input: &[u8]) -> Vec<u8> {
        listing::program_text(self.count_digits, input)
    }

    /// Writes what the program writes for an input.
    pub fn report(self, input: &[u8], output: &mut [u8]) -> Result<usize, Refusal> {
        if output.len() < MOST_OUTPUT {
            return Err(Refusal::BufferTooSmall);
        }
        let text = self.program_text(input);
        output[..text.len()].copy_from_slice(&text);
        Ok(text.len())
    }
}
