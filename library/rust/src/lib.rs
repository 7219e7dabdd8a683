//! The places of a case log, from a library that is proved.
//!
//! A *place* has a set of input activities, which each put a token in, and a set of output
//! activities, which each take one out. This crate checks a log, replays and judges a place on it,
//! saying where the first token is missing, summarizes its variants, searches all places that the
//! log fits, reduces a list of places and writes it. Every call is proved to answer, for all
//! arguments, what the written scope of the library (document 01) says, whose own word for a thing
//! stands in brackets; this crate hands arguments and answers over and does nothing else.
//!
//! An activity is a code from 0 to 15: 0 is the start of a case, 1 its end. A set is a `u16`, with
//! the bit `1 << code` for each activity. A log is text, a frame for each line: eight hexadecimal
//! digits of how many cases went this way, two for each activity, a line feed. Lines count from 0,
//! and so do the events of a trace, one for each activity of its frame.
//!
//! Nothing is allocated: a caller lends the buffers. After a refusal they are as they were, and in
//! any case beyond what was written. The numbers of refusals are those of [`RefusalKind`].
//!
//! ```
//! use placelist::{check, judge, reduce, search, write};
//! use placelist::{End, Place, Settings, Verdict, LINE_BYTES};
//!
//! let log = b"00000001000201\n"; // one case: 0, 2, 1
//! let size = check(3, log)?;
//! assert_eq!((size.frames, size.cases), (1, 1));
//!
//! let settings = Settings { activities: 3, inputs: 2, outputs: 2, threshold: 0 };
//! let (mut rejected, mut found) = ([0; 16], [0; 16]);
//! let run = search(settings, log, 1_000, &mut rejected, &mut found)?;
//! assert_eq!((run.end, run.found), (End::Complete, 4));
//!
//! let mut kept = [0; 16];
//! let count = reduce(&found[..run.found], &mut kept)?;
//! let mut text = [0; 16 * LINE_BYTES];
//! let bytes = write(&kept[..count], &mut text)?;
//! assert_eq!(&text[..bytes], b"00010002\n00040002\n00010004\n");
//!
//! let judgement = judge(3, 0, log, Place::from_word(kept[0]))?;
//! assert_eq!(judgement.verdict, Verdict::Fitting);
//! # Ok::<(), placelist::Refusal>(())
//! ```

mod answers;
mod ffi;
mod limits;
mod refusal;
mod words;

pub use answers::{Balances, End, Judgement, LogSize, MissingToken, Run, Verdict, Version};
pub use limits::*;
pub use refusal::{Refusal, RefusalKind};
pub use words::{Place, Rejected, Variant};

use answers::index;
use refusal::refused;

/// The settings of a search.
#[derive(Debug, Clone, Copy, PartialEq, Eq)]
pub struct Settings {
    /// The activity bound, 2 to 16: codes run from 0 to `activities - 1`.
    pub activities: u8,
    /// The most inputs of a place, 1 to `activities`.
    pub inputs: u8,
    /// The most outputs of a place, 1 to `activities`.
    pub outputs: u8,
    /// The threshold in thousandths of all cases, 0 to 1000.
    pub threshold: u16,
}

/// The version of the archive that was linked.
///
/// ```
/// println!("placelist {}", placelist::version());
/// ```
pub fn version() -> Version {
    // SAFETY: the call is given nothing.
    Version::of(unsafe { ffi::placelist_version() })
}

/// Checks a log: its frames and cases.
///
/// # Errors
/// In this order: 1, 6, then of the first faulty line 5, 2, 3 or 4.
pub fn check(activities: u8, text: &[u8]) -> Result<LogSize, Refusal> {
    let mut value = 0;
    let mut counts = [0; 2];
    // SAFETY: the text is a slice, value and counts are locals of their own (see `ffi`).
    let number = unsafe {
        ffi::placelist_check(
            activities,
            text.as_ptr(),
            text.len(),
            &mut value,
            &mut counts,
        )
    };
    refused(number, value)?;
    let [frames, cases] = counts;
    Ok(LogSize { frames, cases })
}

/// Checks the whole log and replays its first line on a place.
///
/// # Errors
/// In this order: 1, 7, 6, then of the first faulty line 5, 2, 3 or 4.
///
/// ```
/// use placelist::{replay, Place};
///
/// let place = Place { inputs: 0x0004, outputs: 0x0030 };
/// let balances = replay(6, b"0000000100040202030301\n", place)?;
/// assert_eq!((balances.least, balances.last), (-1, 1));
/// assert_eq!(balances.first_missing, Some(1)); // 4, before any 2
/// # Ok::<(), placelist::Refusal>(())
/// ```
pub fn replay(activities: u8, text: &[u8], place: Place) -> Result<Balances, Refusal> {
    let mut value = 0;
    let (mut least, mut last) = (0, 0);
    let mut missing = 0;
    // SAFETY: the text is a slice, value, least, last and missing are locals of their own (see
    // `ffi`).
    let number = unsafe {
        ffi::placelist_replay(
            activities,
            text.as_ptr(),
            text.len(),
            place.inputs,
            place.outputs,
            &mut value,
            &mut least,
            &mut last,
            &mut missing,
        )
    };
    refused(number, value)?;
    Ok(Balances {
        least,
        last,
        first_missing: index(missing),
    })
}

/// Judges a place over a log: how many cases fit it, the verdict at a threshold in thousandths, and
/// where the first token is missing.
///
/// # Errors
/// In this order: 1, 7, 6, then of the first faulty line 5, 2, 3 or 4.
///
/// ```
/// use placelist::{judge, MissingToken, Place, Verdict};
///
/// let log = b"0000005A0002030401\n000000060003020401\n0000000400020401\n";
/// let place = Place { inputs: 0x0008, outputs: 0x0010 }; // 4 only after 3
/// let judgement = judge(5, 50, log, place)?;
/// assert_eq!((judgement.fitting, judgement.underfed), (96, 4));
/// assert_eq!(judgement.verdict, Verdict::Fitting); // 4 of 100 cases are not more than 50 of 1000
/// // the last line has no 3 before its 4
/// assert_eq!(judgement.first_underfed, Some(MissingToken { line: 2, event: 2 }));
/// # Ok::<(), placelist::Refusal>(())
/// ```
pub fn judge(
    activities: u8,
    threshold: u16,
    text: &[u8],
    place: Place,
) -> Result<Judgement, Refusal> {
    let mut value = 0;
    let mut counts = [0; 4];
    let mut verdict = 0;
    let (mut line, mut event) = (0, 0);
    // SAFETY: the text is a slice, value, counts, verdict, line and event are locals of their own
    // (see `ffi`).
    let number = unsafe {
        ffi::placelist_judge(
            activities,
            threshold,
            text.as_ptr(),
            text.len(),
            place.inputs,
            place.outputs,
            &mut value,
            &mut counts,
            &mut verdict,
            &mut line,
            &mut event,
        )
    };
    refused(number, value)?;
    let [fitting, underfed, overfed, both] = counts;
    Ok(Judgement {
        fitting,
        underfed,
        overfed,
        both,
        verdict: Verdict::of(verdict),
        first_underfed: MissingToken::of(line, event),
    })
}

/// Summarizes a log by its variants: the frames in which each activity occurs equally often, in
/// whatever order. Answers how many variants there are.
///
/// `entries` receives an entry for each variant, [`VARIANT_LENGTH`] words from the front
/// ([`Variant::from_entries`]). Variants with more cases come first; of two with as many cases, the
/// one with the earlier first line. The frames of all entries add up to those of the log, and so do
/// the cases. `entries` may have any length; beyond the entries written it is unchanged.
/// `VARIANT_LENGTH * MOST_FRAMES` words suffice for every log.
///
/// # Errors
/// In this order: 1, 6, then of the first faulty line 5, 2, 3 or 4, then 8 where `entries` has room
/// for fewer entries than the log has variants.
///
/// ```
/// use placelist::{summarize, Variant, VARIANT_LENGTH};
///
/// let log = b"0000000100020301\n000000030001\n0000000400030201\n";
/// let mut entries = [0; 8 * VARIANT_LENGTH];
/// let count = summarize(4, log, &mut entries)?;
/// let variants: Vec<_> = Variant::from_entries(&entries[..VARIANT_LENGTH * count]).collect();
/// let expected = [
///     Variant { first_line: 0, frames: 2, cases: 5 }, // 2, 3 and 3, 2
///     Variant { first_line: 1, frames: 1, cases: 3 }, // neither
/// ];
/// assert_eq!(variants, expected);
/// # Ok::<(), placelist::Refusal>(())
/// ```
pub fn summarize(activities: u8, text: &[u8], entries: &mut [u64]) -> Result<usize, Refusal> {
    let mut value = 0;
    let mut count = 0;
    // SAFETY: text and entries are slices, the entries borrowed mutably, value and count are locals
    // of their own (see `ffi`).
    let number = unsafe {
        ffi::placelist_summarize(
            activities,
            text.as_ptr(),
            text.len(),
            entries.as_mut_ptr(),
            entries.len(),
            &mut value,
            &mut count,
        )
    };
    refused(number, value)?;
    Ok(count as usize)
}

/// Searches all places within the settings, with at most `budget` replays, and lists those that the
/// log fits. If it completes, it has found all of them, each once.
///
/// `found` receives the words of the fitting places in the order of candidates
/// ([`Place::from_word`]), `rejected` those of rejected places, which it keeps to save work
/// ([`Rejected::from_word`]). Both are written from the front and may have any length, also 0. What
/// they held before is not read.
///
/// A search that completes with a short `rejected` completes with a longer one too: with the same
/// found words, and as many replays and visits or fewer. The rejected words and their number can
/// change.
///
/// # Errors
/// In this order: 1, 6, then of the first faulty line 5, 2, 3 or 4.
pub fn search(
    settings: Settings,
    text: &[u8],
    budget: u32,
    rejected: &mut [u64],
    found: &mut [u32],
) -> Result<Run, Refusal> {
    let mut value = 0;
    let mut run = [0; 5];
    // SAFETY: the text and both buffers are slices, the buffers borrowed mutably, value and run are
    // locals of their own (see `ffi`).
    let number = unsafe {
        ffi::placelist_search(
            settings.activities,
            settings.inputs,
            settings.outputs,
            settings.threshold,
            text.as_ptr(),
            text.len(),
            budget,
            rejected.as_mut_ptr(),
            rejected.len(),
            found.as_mut_ptr(),
            found.len(),
            &mut value,
            &mut run,
        )
    };
    refused(number, value)?;
    let [end, found, rejected, replays, visits] = run;
    // No cast loses bits: words are counted within their buffer, replays and visits have 32 bits.
    Ok(Run {
        end: End::of(end),
        found: found as usize,
        rejected: rejected as usize,
        replays: replays as u32,
        visits: visits as u32,
    })
}

/// Reduces a list: leaves out each place that is made up by two or more places of the list of which
/// no two have an input or an output in common, and writes the words of the rest to `kept`, in
/// order. Answers how many.
///
/// # Errors
/// In this order: 7 for the first word with an empty set, 8 where `kept` is shorter than `words`.
pub fn reduce(words: &[u32], kept: &mut [u32]) -> Result<usize, Refusal> {
    let mut value = 0;
    let mut count = 0;
    // SAFETY: both lists are slices, kept borrowed mutably, value and count are locals of their own
    // (see `ffi`).
    let number = unsafe {
        ffi::placelist_reduce(
            words.as_ptr(),
            words.len(),
            kept.as_mut_ptr(),
            kept.len(),
            &mut value,
            &mut count,
        )
    };
    refused(number, value)?;
    Ok(count as usize)
}

/// Writes a list as text, for each place four digits of inputs, four of outputs and a line feed.
/// Answers how many bytes.
///
/// # Errors
/// In this order: 7 for the first word with an empty set, 8 where `text` has fewer than
/// [`LINE_BYTES`] bytes for each word.
pub fn write(words: &[u32], text: &mut [u8]) -> Result<usize, Refusal> {
    let mut value = 0;
    let mut count = 0;
    // SAFETY: list and text are slices, the text borrowed mutably, value and count are locals of
    // their own (see `ffi`).
    let number = unsafe {
        ffi::placelist_write(
            words.as_ptr(),
            words.len(),
            text.as_mut_ptr(),
            text.len(),
            &mut value,
            &mut count,
        )
    };
    refused(number, value)?;
    Ok(count as usize)
}

/// The program `placelist` from its input to its output. Answers how many bytes it wrote.
///
/// The input is a settings frame (two digits each of activities, most inputs and most outputs, four
/// of the threshold, a line feed) and the log. The output is the list, reduced if the search
/// completed, and a line of two digits of end, eight of replays and eight of visits. An input that
/// the program refuses is no refusal of the call: the output is then one line of FF, two digits of
/// the number and eight of the value; one of more than [`MOST_INPUT`] bytes is number 5.
///
/// # Errors
/// 8 where `output` has fewer than [`MOST_OUTPUT`] bytes.
///
/// ```
/// use placelist::{report, MOST_OUTPUT};
///
/// let mut output = [0; MOST_OUTPUT];
/// let bytes = report(b"0303010000\n000000010001\n", &mut output)?;
/// assert_eq!(&output[..bytes], b"00010002\n00050002\n00040004\n000000000C0000000F\n");
/// # Ok::<(), placelist::Refusal>(())
/// ```
pub fn report(input: &[u8], output: &mut [u8]) -> Result<usize, Refusal> {
    let mut value = 0;
    let mut count = 0;
    // SAFETY: input and output are slices, the output borrowed mutably, value and count are locals
    // of their own (see `ffi`).
    let number = unsafe {
        ffi::placelist_report(
            input.as_ptr(),
            input.len(),
            output.as_mut_ptr(),
            output.len(),
            &mut value,
            &mut count,
        )
    };
    refused(number, value)?;
    Ok(count as usize)
}
