//! The calls of the written scope, implemented from its text alone.
//! They take the same arguments as the calls of the proved library and answer the same.

mod candidates;
mod judging;
mod listing;
mod log;
mod place;
mod reader;
mod reduction;
mod refusal;
mod search;
mod settings;
mod summary;

pub use judging::{Balances, Judgement, MissingToken, Verdict};
pub use listing::{Listing, MOST_INPUT, MOST_OUTPUT, PLACE_BYTES};
pub use log::{Frame, Log, LogSize, COUNT_DIGITS, MOST_EVENTS, MOST_FRAMES};
pub use place::Place;
pub use reader::Reader;
pub use refusal::Refusal;
pub use search::{End, Run};
pub use settings::{Settings, MOST_ACTIVITIES};
pub use summary::{Variant, VARIANT_LENGTH};

/// Reads the frames of the scope.
pub const READER: Reader = Reader {
    count_digits: COUNT_DIGITS,
};

/// Checks a log.
pub fn check(activities: u8, text: &[u8]) -> Result<LogSize, Refusal> {
    READER.check(activities, text)
}

/// Replays line 0 of a log.
pub fn replay(activities: u8, text: &[u8], place: Place) -> Result<Balances, Refusal> {
    READER.replay(activities, text, place)
}

/// Judges a place over a log.
pub fn judge(
    activities: u8,
    threshold: u16,
    text: &[u8],
    place: Place,
) -> Result<Judgement, Refusal> {
    READER.judge(activities, threshold, text, place)
}

/// Writes an entry for each variant of a log.
pub fn summarize(activities: u8, text: &[u8], entries: &mut [u64]) -> Result<usize, Refusal> {
    READER.summarize(activities, text, entries)
}

/// Searches the fitting candidates.
pub fn search(
    settings: Settings,
    text: &[u8],
    budget: u32,
    rejected: &mut [u64],
    found: &mut [u32],
) -> Result<Run, Refusal> {
    READER.search(settings, text, budget, rejected, found)
}

/// Writes the words that are no union of others of the list.
pub fn reduce(words: &[u32], kept: &mut [u32]) -> Result<usize, Refusal> {
    reduce_by(reduction::irredundant, words, kept)
}

/// The same for lists on which a plain search for a cover would take too long.
pub fn reduce_remembering(words: &[u32], kept: &mut [u32]) -> Result<usize, Refusal> {
    reduce_by(reduction::irredundant_remembering, words, kept)
}

fn reduce_by(
    irredundant: fn(&[u32]) -> Vec<u32>,
    words: &[u32],
    kept: &mut [u32],
) -> Result<usize, Refusal> {
    place::check_words(words)?;
    if kept.len() < words.len() {
        return Err(Refusal::BufferTooSmall);
    }
    let irredundant = irredundant(words);
    kept[..irredundant.len()].copy_from_slice(&irredundant);
    Ok(irredundant.len())
}

/// Searches the fitting candidates and, after a completed run, reduces what was found.
pub fn list(
    settings: Settings,
    text: &[u8],
    budget: u32,
    rejected: &mut [u64],
    found: &mut [u32],
    kept: &mut [u32],
) -> Result<Listing, Refusal> {
    READER.list(settings, text, budget, rejected, found, kept)
}

/// Writes the words as lines.
pub fn write(words: &[u32], text: &mut [u8]) -> Result<usize, Refusal> {
    place::check_words(words)?;
    if text.len() / PLACE_BYTES < words.len() {
        return Err(Refusal::BufferTooSmall);
    }
    let length = PLACE_BYTES * words.len();
    listing::write_lines(words, &mut text[..length]);
    Ok(length)
}

/// What the program writes for an input.
pub fn program_text(input: &[u8]) -> Vec<u8> {
    READER.program_text(input)
}

/// Writes what the program writes for an input.
pub fn report(input: &[u8], output: &mut [u8]) -> Result<usize, Refusal> {
    READER.report(input, output)
}
