//! One comparison for each call: its whole answer, and every element of its buffers.

use super::answers::{of_library, of_model, Answer};
use super::buffers::{byte_pattern, entry_pattern, rejected_pattern, word_pattern, Guarded};
use super::{outcomes, process, Tally};
use crate::generate::{padded_input, padded_log};
use crate::model::{self, Log, Place, Reader, Settings, COUNT_DIGITS};
use std::path::Path;

/// Calls both sides and counts.
pub struct Comparison {
    pub tally: Tally,
    reader: Reader,
    plausible: bool,
}

/// The sizes of a search.
#[derive(Clone, Copy, Debug)]
pub struct Sizes {
    pub budget: u32,
    pub rejected: usize,
    pub found: usize,
}

fn show(text: &[u8]) -> String {
    format!("text b\"{}\"", text.escape_ascii())
}

fn library_place(place: Place) -> placelist::Place {
    placelist::Place {
        inputs: place.inputs,
        outputs: place.outputs,
    }
}

fn library_settings(settings: Settings) -> placelist::Settings {
    placelist::Settings {
        activities: settings.activities,
        inputs: settings.inputs,
        outputs: settings.outputs,
        threshold: settings.threshold,
    }
}

/// What the last line of the program's output says.
fn ending(output: &[u8]) -> String {
    let line = output.split(|&byte| byte == b'\n').rev().nth(1);
    let (kind, digits) = match line.unwrap_or_default() {
        [b'F', b'F', digits @ ..] => ("refusal line", digits),
        digits => ("end", digits),
    };
    format!("{kind} {}", digits[..digits.len().min(2)].escape_ascii())
}

impl Comparison {
    /// Texts have so many digits of case count. With fewer than the proved side reads, that side is
    /// lent them with zeros for the missing ones before every line of a log.
    pub fn new(count_digits: usize) -> Comparison {
        Comparison {
            tally: Tally::default(),
            reader: Reader { count_digits },
            plausible: false,
        }
    }

    fn missing_digits(&self) -> usize {
        COUNT_DIGITS - self.reader.count_digits
    }

    /// The text of a log as the proved side is lent it.
    fn given_log(&self, text: &[u8]) -> Guarded<u8> {
        Guarded::copy(&padded_log(self.missing_digits(), text), b'0')
    }

    /// The log of a text that a call accepted.
    fn accepted_log(&self, activities: u8, text: &[u8]) -> Log {
        Log::parse(self.reader.count_digits, activities, text).expect("an accepted log")
    }

    /// Counts what a call was expected to answer: one outcome or more.
    fn reach(&mut self, call: &'static str, expected: &Answer, answered: &[&str]) {
        if let Err((number, _)) = expected {
            self.tally.reach(call, format!("refusal {number}"));
            return;
        }
        for outcome in answered {
            self.tally.reach(call, outcome.to_string());
        }
    }

    pub fn check(&mut self, kind: &'static str, activities: u8, text: &[u8]) {
        let expected = of_model(self.reader.check(activities, text));
        let mut given = self.given_log(text);
        let before = given.clone();
        let actual = of_library(placelist::check(activities, given.inside()));
        let same = actual == expected && given == before;
        self.reach("check", &expected, &["answered"]);
        self.tally.record(kind, same, || {
            let text = show(text);
            format!("check(A {activities}, {text}) is {actual:?}, expected {expected:?}")
        });
    }

    pub fn replay(&mut self, kind: &'static str, activities: u8, text: &[u8], place: Place) {
        let answer = self.reader.replay(activities, text, place);
        let reached = answer.map_or(vec![], |balances| {
            let log = self.accepted_log(activities, text);
            outcomes::replayed(&log.frames[0].trace, place, balances)
        });
        let expected = of_model(answer);
        let mut given = self.given_log(text);
        let before = given.clone();
        let answer = placelist::replay(activities, given.inside(), library_place(place));
        let actual = of_library(answer);
        let same = actual == expected && given == before;
        self.reach("replay", &expected, &reached);
        self.tally.record(kind, same, || {
            let (text, word) = (show(text), place.word());
            let call = format!("replay(A {activities}, {text}, place {word:08X})");
            format!("{call} is {actual:?}, expected {expected:?}")
        });
    }

    pub fn judge(
        &mut self,
        kind: &'static str,
        activities: u8,
        threshold: u16,
        text: &[u8],
        place: Place,
    ) {
        let answer = self.reader.judge(activities, threshold, text, place);
        let reached = answer.map_or(vec![], |judgement| {
            let log = self.accepted_log(activities, text);
            outcomes::judged(&log, place, judgement)
        });
        let expected = of_model(answer);
        let mut given = self.given_log(text);
        let before = given.clone();
        let its_text = given.inside();
        let answer = placelist::judge(activities, threshold, its_text, library_place(place));
        let actual = of_library(answer);
        let same = actual == expected && given == before;
        self.reach("judge", &expected, &reached);
        self.tally.record(kind, same, || {
            let (text, word) = (show(text), place.word());
            let call = format!("judge(A {activities}, T {threshold}, {text}, place {word:08X})");
            format!("{call} is {actual:?}, expected {expected:?}")
        });
    }

    /// The buffer has so many words.
    pub fn summarize(&mut self, kind: &'static str, activities: u8, text: &[u8], room: usize) {
        self.plausible = !self.plausible;
        let mut entries = Guarded::new(room, entry_pattern(self.plausible));
        let mut its_entries = entries.clone();
        let answer = self.reader.summarize(activities, text, entries.inside());
        let expected = of_model(answer);
        let mut given = self.given_log(text);
        let before = given.clone();
        let answer = placelist::summarize(activities, given.inside(), its_entries.inside());
        let actual = of_library(answer);
        let same = actual == expected && its_entries == entries && given == before;
        self.reach("summarize", &expected, &["answered"]);
        self.tally.record(kind, same, || {
            let call = format!("summarize(A {activities}, {}, room {room})", show(text));
            let entries = its_entries.difference(&entries);
            format!("{call} is {actual:?}, expected {expected:?}; entries {entries}")
        });
    }

    /// Answers what was found, for further comparisons.
    pub fn search(
        &mut self,
        kind: &'static str,
        settings: Settings,
        text: &[u8],
        sizes: Sizes,
    ) -> Vec<u32> {
        self.plausible = !self.plausible;
        let mut rejected = Guarded::new(sizes.rejected, rejected_pattern(self.plausible));
        let mut found = Guarded::new(sizes.found, word_pattern(self.plausible));
        let (mut its_rejected, mut its_found) = (rejected.clone(), found.clone());
        let (room, list) = (rejected.inside(), found.inside());
        let reader = self.reader;
        let answer = reader.search(settings, text, sizes.budget, room, list);
        let listed = answer.map_or(vec![], |run| list[..run.found].to_vec());
        let expected = of_model(answer);

        let mut given = self.given_log(text);
        let before = given.clone();
        let (room, list) = (its_rejected.inside(), its_found.inside());
        let its_text = given.inside();
        let its_settings = library_settings(settings);
        let answer = placelist::search(its_settings, its_text, sizes.budget, room, list);
        let actual = of_library(answer);
        let same_buffers = its_rejected == rejected && its_found == found && given == before;
        let same = actual == expected && same_buffers;
        let end = expected.as_ref().map_or(0, |fields| fields[0]);
        self.reach("search", &expected, &[&format!("end {end}")]);
        self.tally.record(kind, same, || {
            let call = format!("search({settings:?}, {}, {sizes:?})", show(text));
            let (rejected, found) = (
                its_rejected.difference(&rejected),
                its_found.difference(&found),
            );
            format!(
                "{call} is {actual:?}, expected {expected:?}; rejected {rejected}; found {found}"
            )
        });
        listed
    }

    pub fn reduce(&mut self, kind: &'static str, words: &[u32], room: usize) {
        self.plausible = !self.plausible;
        let mut kept = Guarded::new(room, word_pattern(self.plausible));
        let mut its_kept = kept.clone();
        let expected = of_model(model::reduce(words, kept.inside()));
        let mut given = Guarded::copy(words, 0x0001_0001);
        let before = given.clone();
        let actual = of_library(placelist::reduce(given.inside(), its_kept.inside()));
        let same = actual == expected && its_kept == kept && given == before;
        self.reach("reduce", &expected, &["answered"]);
        self.tally.record(kind, same, || {
            let call = format!("reduce({words:08X?}, room {room})");
            let kept = its_kept.difference(&kept);
            format!("{call} is {actual:?}, expected {expected:?}; kept {kept}")
        });
    }

    pub fn write(&mut self, kind: &'static str, words: &[u32], room: usize) {
        let mut text = Guarded::new(room, byte_pattern);
        let mut its_text = text.clone();
        let expected = of_model(model::write(words, text.inside()));
        let mut given = Guarded::copy(words, 0x0001_0001);
        let before = given.clone();
        let actual = of_library(placelist::write(given.inside(), its_text.inside()));
        let same = actual == expected && its_text == text && given == before;
        self.reach("write", &expected, &["answered"]);
        self.tally.record(kind, same, || {
            let call = format!("write({words:08X?}, room {room})");
            let text = its_text.difference(&text);
            format!("{call} is {actual:?}, expected {expected:?}; text {text}")
        });
    }

    pub fn report(&mut self, kind: &'static str, input: &[u8], room: usize) {
        let mut output = Guarded::new(room, byte_pattern);
        let mut its_output = output.clone();
        let expected = of_model(self.reader.report(input, output.inside()));
        let mut given = Guarded::copy(&padded_input(self.missing_digits(), input), b'0');
        let before = given.clone();
        let actual = of_library(placelist::report(given.inside(), its_output.inside()));
        let same = actual == expected && its_output == output && given == before;
        let written = expected.as_ref().map_or(0, |fields| fields[0]);
        let ending = ending(&output.inside()[..written as usize]);
        self.reach("report", &expected, &[&ending]);
        self.tally.record(kind, same, || {
            let call = format!("report({}, room {room})", show(input));
            let output = its_output.difference(&output);
            format!("{call} is {actual:?}, expected {expected:?}; output {output}")
        });
    }

    /// Runs the program, fed in pieces of so many bytes.
    pub fn program(&mut self, kind: &'static str, program: &Path, input: &[u8], piece: usize) {
        let expected = self.reader.program_text(input);
        let padded = padded_input(self.missing_digits(), input);
        let actual = process::run(program, &padded, piece);
        self.tally.reach("program", ending(&expected));
        self.tally
            .record(kind, actual.as_ref() == Ok(&expected), || {
                let input = show(input);
                let expected = show(&expected);
                let actual = actual.map_or_else(|error| error, |output| show(&output));
                format!("the program, given {input} by {piece}: {actual}, expected {expected}")
            });
    }
}
