//! The calls that a line can name.

use super::answers::{cache_line, lines, list_line, summary_lines, text_lines, Kept};
use super::arguments::Arguments;
use crate::model;

/// Words and a byte that no call writes. The word of the cache would rule every candidate if it
/// were read.
const LIST_FILLER: u32 = 0x0000_EEEE;
const CACHE_FILLER: u64 = 0x3_FFFF_0000;
const ENTRY_FILLER: u64 = 0xEEEE_EEEE_EEEE_EEEE;
const TEXT_FILLER: u8 = b'~';

/// The lengths of the buffers, of which the front is lent.
const ENTRIES: usize = 64;
const CACHE: usize = 640;
const LIST: usize = 2240;
const REDUCED: usize = 4160;
const TEXT: usize = 36_900;
/// Those of the list and the reduced list of a listing.
const LISTED: usize = 320;

/// The answer to the call of a line, if it is one.
pub fn answer(line: &str) -> Option<String> {
    let mut arguments = Arguments::of(line);
    match arguments.word() {
        "check" => check(arguments),
        "replay" => replay(arguments),
        "judge" => judge(arguments),
        "summarize" => summarize(arguments),
        "search" => search(arguments),
        "reduce" => reduce(arguments),
        "write" => write(arguments),
        "report" => report(arguments),
        "list" => list(arguments),
        "twice" => twice(arguments),
        _ => None,
    }
}

fn check(mut arguments: Arguments) -> Option<String> {
    let activities = arguments.number()?;
    Some(lines(model::check(activities, &arguments.text()?)))
}

fn replay(mut arguments: Arguments) -> Option<String> {
    let activities = arguments.number()?;
    let place = arguments.place()?;
    let answer = model::replay(activities, &arguments.text()?, place);
    Some(lines(answer))
}

fn judge(mut arguments: Arguments) -> Option<String> {
    let activities = arguments.number()?;
    let threshold = arguments.number()?;
    let place = arguments.place()?;
    let answer = model::judge(activities, threshold, &arguments.text()?, place);
    Some(lines(answer))
}

fn summarize(mut arguments: Arguments) -> Option<String> {
    let activities = arguments.number()?;
    let room = arguments.room(ENTRIES)?;
    let text = arguments.text()?;
    let mut entries = [ENTRY_FILLER; ENTRIES];
    let answer = model::summarize(activities, &text, &mut entries[..room]);
    Some(summary_lines(answer, &entries))
}

fn search(mut arguments: Arguments) -> Option<String> {
    let settings = arguments.settings()?;
    let cache_room = arguments.room(CACHE)?;
    let list_room = arguments.room(LIST)?;
    let budget = arguments.number()?;
    let text = arguments.text()?;
    let mut cache = [CACHE_FILLER; CACHE];
    let mut list = [LIST_FILLER; LIST];
    let answer = model::search(
        settings,
        &text,
        budget,
        &mut cache[..cache_room],
        &mut list[..list_room],
    );
    Some(lines(answer) + &list_line("list", &list) + &cache_line(&cache))
}

fn reduce(mut arguments: Arguments) -> Option<String> {
    let room = arguments.room(REDUCED)?;
    let words = arguments.list()?;
    let mut reduced = [LIST_FILLER; REDUCED];
    let answer = model::reduce_remembering(&words, &mut reduced[..room]);
    Some(lines(answer.map(Kept)) + &list_line("reduced", &reduced))
}

fn write(mut arguments: Arguments) -> Option<String> {
    let room = arguments.room(TEXT)?;
    let words = arguments.list()?;
    let mut text = [TEXT_FILLER; TEXT];
    let answer = model::write(&words, &mut text[..room]);
    Some(text_lines(answer, &text))
}

fn report(mut arguments: Arguments) -> Option<String> {
    let room = arguments.room(TEXT)?;
    let input = arguments.text()?;
    let mut text = [TEXT_FILLER; TEXT];
    let answer = model::report(&input, &mut text[..room]);
    Some(text_lines(answer, &text))
}

/// What a listing is lent: how much of each buffer, and its budget.
struct Resources {
    cache: usize,
    list: usize,
    reduced: usize,
    budget: u32,
}

fn resources(arguments: &mut Arguments) -> Option<Resources> {
    Some(Resources {
        cache: arguments.room(CACHE)?,
        list: arguments.room(LISTED)?,
        reduced: arguments.room(LISTED)?,
        budget: arguments.number()?,
    })
}

/// The answer and the buffers of one listing.
fn listing(settings: model::Settings, text: &[u8], resources: Resources) -> String {
    let mut cache = [CACHE_FILLER; CACHE];
    let mut list = [LIST_FILLER; LISTED];
    let mut reduced = [LIST_FILLER; LISTED];
    let answer = model::list(
        settings,
        text,
        resources.budget,
        &mut cache[..resources.cache],
        &mut list[..resources.list],
        &mut reduced[..resources.reduced],
    );
    lines(answer)
        + &list_line("list", &list)
        + &cache_line(&cache)
        + &list_line("reduced", &reduced)
}

fn list(mut arguments: Arguments) -> Option<String> {
    let settings = arguments.settings()?;
    let only = resources(&mut arguments)?;
    let text = arguments.text()?;
    Some(listing(settings, &text, only))
}

fn twice(mut arguments: Arguments) -> Option<String> {
    let settings = arguments.settings()?;
    let first = resources(&mut arguments)?;
    let second = resources(&mut arguments)?;
    let text = arguments.text()?;
    Some(listing(settings, &text, first) + &listing(settings, &text, second))
}
