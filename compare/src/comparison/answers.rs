//! Answers of both sides in one form.

use crate::model;

/// The fields of an answer, or the number of the refusal and what is beside it.
pub type Answer = Result<Vec<i64>, (u8, u64)>;

/// An answer whose fields can be listed.
pub trait Fields {
    fn fields(self) -> Vec<i64>;
}

/// An answer of the second implementation.
pub fn of_model<T: Fields>(answer: Result<T, model::Refusal>) -> Answer {
    answer
        .map(Fields::fields)
        .map_err(|refusal| (refusal.number(), refusal.value()))
}

/// An answer of the proved library.
pub fn of_library<T: Fields>(answer: Result<T, placelist::Refusal>) -> Answer {
    answer
        .map(Fields::fields)
        .map_err(|refusal| (refusal.number(), refusal.value))
}

/// An index, or -1.
fn index_or_none(index: Option<usize>) -> i64 {
    index.map_or(-1, |index| index as i64)
}

/// The fields of a judgement, of either side.
fn judged(counts: [u64; 4], verdict: i64, missing: Option<(usize, usize)>) -> Vec<i64> {
    let mut fields = counts.map(|count| count as i64).to_vec();
    let (line, event) = missing.unzip();
    fields.extend([verdict, index_or_none(line), index_or_none(event)]);
    fields
}

impl Fields for usize {
    fn fields(self) -> Vec<i64> {
        vec![self as i64]
    }
}

impl Fields for model::LogSize {
    fn fields(self) -> Vec<i64> {
        vec![self.frames as i64, self.cases as i64]
    }
}

impl Fields for placelist::LogSize {
    fn fields(self) -> Vec<i64> {
        vec![self.frames as i64, self.cases as i64]
    }
}

impl Fields for model::Balances {
    fn fields(self) -> Vec<i64> {
        let missing = index_or_none(self.first_missing);
        vec![self.least.into(), self.last.into(), missing]
    }
}

impl Fields for placelist::Balances {
    fn fields(self) -> Vec<i64> {
        let missing = index_or_none(self.first_missing);
        vec![self.least.into(), self.last.into(), missing]
    }
}

impl Fields for model::Judgement {
    fn fields(self) -> Vec<i64> {
        let verdict = match self.verdict {
            model::Verdict::Fitting => 0,
            model::Verdict::Underfed => 1,
            model::Verdict::Overfed => 2,
            model::Verdict::Both => 3,
        };
        let counts = [self.fitting, self.underfed, self.overfed, self.both];
        let missing = self.first_underfed.map(|token| (token.line, token.event));
        judged(counts, verdict, missing)
    }
}

impl Fields for placelist::Judgement {
    fn fields(self) -> Vec<i64> {
        let counts = [self.fitting, self.underfed, self.overfed, self.both];
        let missing = self.first_underfed.map(|token| (token.line, token.event));
        judged(counts, self.verdict as i64, missing)
    }
}

impl Fields for model::Run {
    fn fields(self) -> Vec<i64> {
        let (end, found, rejected) = (self.end.number(), self.found, self.rejected);
        let (replays, visits) = (self.replays.into(), self.visits.into());
        vec![end.into(), found as i64, rejected as i64, replays, visits]
    }
}

impl Fields for placelist::Run {
    fn fields(self) -> Vec<i64> {
        let (end, found, rejected) = (self.end as i64, self.found, self.rejected);
        let (replays, visits) = (self.replays.into(), self.visits.into());
        vec![end, found as i64, rejected as i64, replays, visits]
    }
}
