//! Compares the times of the proved library with those of the second implementation.
//!
//!     benchmark [--quick]
//!
//! It prints tables and judges nothing: no time makes it fail.

use compare::generate::{
    count_candidates, different_bags, log_of_bags, process_log, random_valid_list, text_of, Counts,
    LogShape, Random,
};
use compare::model::{self, Frame, Place, Settings, COUNT_DIGITS, PLACE_BYTES, VARIANT_LENGTH};
use compare::table::{Speed, Table};
use compare::timing::{measure, Effort, Times};
use std::hint::black_box;
use std::ops::Range;
use std::time::Duration;

/// The activities and frames of growing logs.
const SIZES: [(u8, usize); 4] = [(6, 10), (8, 100), (10, 1000), (14, 4000)];

/// A log with its sizes.
struct Sample {
    activities: u8,
    frames: usize,
    events: usize,
    text: Vec<u8>,
}

fn sample(activities: u8, frames: usize) -> Sample {
    sample_of(activities, &sample_log(activities, frames))
}

fn sample_log(activities: u8, frames: usize) -> Vec<Frame> {
    let shape = LogShape {
        activities,
        frames,
        noise: 10,
        repeats: 0,
        most_cases: 0xFFFF,
    };
    process_log(&mut Random::new(17), shape)
}

fn sample_of(activities: u8, log: &[Frame]) -> Sample {
    Sample {
        activities,
        frames: log.len(),
        events: log.iter().map(|frame| frame.trace.len()).sum(),
        text: text_of(COUNT_DIGITS, log),
    }
}

fn describe(sample: &Sample) -> String {
    let (activities, frames) = (sample.activities, sample.frames);
    format!("{activities} activities, {frames} frames")
}

fn checking(effort: Effort, samples: &[Sample]) {
    let mut table = Table::new("Checking a log", Speed::Millions("bytes"));
    for sample in samples {
        let (activities, text) = (sample.activities, &sample.text[..]);
        let times = measure(
            effort,
            || placelist::check(activities, black_box(text)),
            || model::check(activities, black_box(text)),
        );
        let input = format!("{}, {} bytes", describe(sample), text.len());
        table.row(&input, text.len(), times);
    }
    table.end();
}

fn judging(effort: Effort, samples: &[Sample]) {
    let mut table = Table::new("Judging a place over a log", Speed::Millions("events"));
    let place = Place {
        inputs: 0b001001,
        outputs: 0b110010,
    };
    for sample in samples {
        judge_row(&mut table, effort, sample, place);
    }
    table.end();
}

/// Growing logs of which no line underfeeds the place, or the last one alone.
fn judging_the_last_line(effort: Effort) {
    for (title, underfed) in [
        ("Judging a place that no line underfeeds", false),
        ("Judging a place that the last line alone underfeeds", true),
    ] {
        let mut table = Table::new(title, Speed::Millions("events"));
        for (activities, frames) in SIZES {
            let (sample, place) = token_taken(activities, frames, underfed);
            judge_row(&mut table, effort, &sample, place);
        }
        table.end();
    }
}

/// A place from the start to the end, whose token another activity takes too. Of this log only the
/// last line has that activity, and lacks a token at its end, or no line has it.
fn token_taken(activities: u8, frames: usize, by_last: bool) -> (Sample, Place) {
    let mut log = sample_log(activities, frames);
    let last = &mut log[frames - 1].trace;
    if by_last {
        last.insert(1, activities);
    }
    let last_event = last.len() - 1;
    let sample = sample_of(activities + 1, &log);
    let place = Place {
        inputs: 0b01,
        outputs: 0b10 | 1 << activities,
    };
    let missing = by_last.then_some((frames - 1, last_event));
    assert_first_underfed(&sample, place, missing);
    (sample, place)
}

/// Both sides have to answer this line and event.
fn assert_first_underfed(sample: &Sample, place: Place, expected: Option<(usize, usize)>) {
    let (activities, text) = (sample.activities, &sample.text[..]);
    let its_answer = placelist::judge(activities, 50, text, library_place(place));
    let its_missing = its_answer.expect("a log").first_underfed;
    assert_eq!(its_missing.map(|it| (it.line, it.event)), expected);
    let answer = model::judge(activities, 50, text, place);
    let missing = answer.expect("a log").first_underfed;
    assert_eq!(missing.map(|it| (it.line, it.event)), expected);
}

fn library_place(place: Place) -> placelist::Place {
    placelist::Place {
        inputs: place.inputs,
        outputs: place.outputs,
    }
}

fn judge_row(table: &mut Table, effort: Effort, sample: &Sample, place: Place) {
    let (activities, text) = (sample.activities, &sample.text[..]);
    let its_place = library_place(place);
    let times = measure(
        effort,
        || placelist::judge(activities, 50, black_box(text), its_place),
        || model::judge(activities, 50, black_box(text), place),
    );
    let input = format!("{}, {} events", describe(sample), sample.events);
    table.row(&input, sample.events, times);
}

/// Summaries of growing logs: of one variant, of few, and of one for each frame.
fn summarizing(effort: Effort) {
    for activities in [8, 16] {
        for (name, most_variants, counts) in [
            ("one variant", 1, Counts::UpTo(0xFFFF)),
            ("few variants", 8, Counts::UpTo(0xFFFF)),
            ("a variant for each frame", 4000, Counts::Different),
            (
                "a variant for each frame, of equal cases",
                4000,
                Counts::Equal(1),
            ),
        ] {
            let title = format!("Summarizing logs of {activities} activities, {name}");
            let mut table = Table::new(&title, Speed::Nanoseconds("frame"));
            for frames in [10, 100, 1000, 4000] {
                let mut random = Random::new(23);
                let variants = frames.min(most_variants);
                let bags = different_bags(&mut random, activities, &(8..=18), variants);
                let log = log_of_bags(&mut random, &bags, frames, counts);
                summary_row(&mut table, effort, &sample_of(activities, &log));
            }
            table.end();
        }
    }
}

fn summary_row(table: &mut Table, effort: Effort, sample: &Sample) {
    let (activities, frames, text) = (sample.activities, sample.frames, &sample.text[..]);
    let mut entries = vec![0; VARIANT_LENGTH * frames];
    let mut its_entries = entries.clone();
    let times = measure(
        effort,
        || placelist::summarize(activities, black_box(text), &mut its_entries),
        || model::summarize(activities, black_box(text), &mut entries),
    );
    let variants = model::summarize(activities, text, &mut entries).expect("a log and room");
    let events = sample.events;
    let input = format!("{frames} frames, {events} events, variants: {variants}");
    table.row(&input, frames, times);
}

/// Whole searches, for growing logs and for growing numbers of candidates.
fn searching(effort: Effort, quick: bool) {
    let most_frames = if quick { 1000 } else { 4000 };
    for cache in [0, 1024, 16_384] {
        let title = format!("Searching logs of more frames, cache of {cache} words");
        let mut table = Table::new(&title, Speed::Nanoseconds("event"));
        for frames in [10, 100, most_frames] {
            let sample = sample(14, frames);
            search_row(&mut table, effort, &sample, 2, cache, |_| sample.events);
        }
        table.end();
        let title = format!("Searching more candidates, cache of {cache} words");
        let mut table = Table::new(&title, Speed::Nanoseconds("candidate"));
        for activities in [6, 8, 10] {
            let sample = sample(activities, 30);
            search_row(&mut table, effort, &sample, 3, cache, |candidates| {
                candidates
            });
        }
        table.end();
    }
}

/// A search of all candidates with sets of up to `most` activities.
fn search_row(
    table: &mut Table,
    effort: Effort,
    sample: &Sample,
    most: u8,
    cache: usize,
    amount: impl Fn(usize) -> usize,
) {
    let settings = Settings {
        activities: sample.activities,
        inputs: most,
        outputs: most,
        threshold: 50,
    };
    let candidates = count_candidates(settings) as usize;
    let times = time_search(effort, &sample.text, settings, cache, candidates);
    let log = describe(sample);
    let input = format!("{log}, sets up to {most}: {candidates} candidates");
    table.row(&input, amount(candidates), times);
}

fn time_search(
    effort: Effort,
    text: &[u8],
    settings: Settings,
    cache: usize,
    list: usize,
) -> Times {
    let (mut rejected, mut found) = (vec![0; cache], vec![0; list]);
    let (mut its_rejected, mut its_found) = (rejected.clone(), found.clone());
    measure(
        effort,
        || {
            let settings = placelist::Settings {
                activities: settings.activities,
                inputs: settings.inputs,
                outputs: settings.outputs,
                threshold: settings.threshold,
            };
            let (rejected, found) = (&mut its_rejected[..], &mut its_found[..]);
            placelist::search(settings, black_box(text), u32::MAX, rejected, found)
        },
        || {
            let (rejected, found) = (&mut rejected[..], &mut found[..]);
            model::search(settings, black_box(text), u32::MAX, rejected, found)
        },
    )
}

/// Random lists with unions, and lists of all places over few activities.
fn reducing(effort: Effort, lengths: &[usize]) {
    let mut table = Table::new(
        "Reducing random words and unions of them",
        Speed::Nanoseconds("word"),
    );
    for &length in lengths {
        let words = random_valid_list(&mut Random::new(3), 14, length);
        reduce_row(&mut table, effort, &words);
    }
    table.end();
    let title = "Reducing the list of all places of 3 to 6 activities";
    let mut table = Table::new(title, Speed::Nanoseconds("word"));
    for activities in (3..7).take(lengths.len()) {
        reduce_row(&mut table, effort, &all_places(activities));
    }
    table.end();
}

/// Lists in which no word, or hardly any, is a union: short sets, one output, and two blocks of
/// single pairs that nearly make up the place of all activities.
fn reducing_others(effort: Effort) {
    let title = "Reducing lists without unions";
    let mut table = Table::new(title, Speed::Nanoseconds("word"));
    for (name, words) in [
        ("at most 3 inputs and 3 outputs of 12", short_sets(4096)),
        ("input sets with one output", one_output(4096)),
        ("two blocks of single pairs", two_blocks()),
    ] {
        let (times, _) = time_reduction(effort, &words);
        table.row(
            &format!("{} words, {name}", words.len()),
            words.len(),
            times,
        );
    }
}

fn short_sets(length: usize) -> Vec<u32> {
    let mut random = Random::new(5);
    let mut set = || (0..random.between(1, 3)).fold(0, |set, _| set | 1 << random.below(12));
    (0..length).map(|_| set() | set() << 16).collect()
}

fn one_output(length: usize) -> Vec<u32> {
    (1..=length as u32).map(|inputs| inputs | 1 << 16).collect()
}

/// 8 inputs with 9 outputs, 8 with 7, and the place of all: the pairs of neither block can cover
/// its activities, which shows only after many orders were tried.
fn two_blocks() -> Vec<u32> {
    let pairs = |inputs: Range<u32>, outputs: Range<u32>| {
        inputs.flat_map(move |input| {
            outputs
                .clone()
                .map(move |output| 1 << input | 1 << (16 + output))
        })
    };
    pairs(0..8, 0..9)
        .chain(pairs(8..16, 9..16))
        .chain([u32::MAX])
        .collect()
}

/// All places of so many activities, in order.
fn all_places(activities: u8) -> Vec<u32> {
    let settings = Settings {
        activities,
        inputs: activities,
        outputs: activities,
        threshold: 1000,
    };
    let mut words = vec![0; count_candidates(settings) as usize];
    // every candidate fits at this threshold
    let run = model::search(settings, b"000000010001\n", u32::MAX, &mut [], &mut words);
    assert_eq!(run.map(|run| run.found), Ok(words.len()));
    words
}

fn reduce_row(table: &mut Table, effort: Effort, words: &[u32]) {
    let length = words.len();
    let (times, count) = time_reduction(effort, words);
    table.row(&format!("{length} words, {count} kept"), length, times);
}

/// The times, and how many words were kept.
fn time_reduction(effort: Effort, words: &[u32]) -> (Times, usize) {
    let mut kept = vec![0; words.len()];
    let mut its_kept = kept.clone();
    let times = measure(
        effort,
        || placelist::reduce(black_box(words), &mut its_kept),
        || model::reduce(black_box(words), &mut kept),
    );
    let count = model::reduce(words, &mut kept).expect("a valid list");
    (times, count)
}

fn writing(effort: Effort, lengths: &[usize]) {
    let mut table = Table::new("Writing a list", Speed::Millions("bytes"));
    for &length in lengths {
        let words = random_valid_list(&mut Random::new(4), 16, length);
        let mut text = vec![0; PLACE_BYTES * length];
        let mut its_text = text.clone();
        let times = measure(
            effort,
            || placelist::write(black_box(&words), &mut its_text),
            || model::write(black_box(&words), &mut text),
        );
        table.row(&format!("{length} words"), PLACE_BYTES * length, times);
    }
    table.end();
}

fn introduce(effort: Effort) {
    let (least, most) = (effort.least_samples, effort.most_samples);
    println!("# Times of the proved library and of the second implementation");
    println!();
    println!(
        "A ratio is the proved time over the Rust time: at 2 the proved call takes twice as long."
    );
    println!(
        "Both sides ran in turn. Times are processor times; they and the ratios are medians of"
    );
    println!("{least} to {most} samples, and the spread is the least and the greatest ratio.");
    println!(
        "Every call starts from text: the Rust times of judging and searching include checking and"
    );
    println!(
        "decoding the log once, on which they then work; that of summarizing tallies the digits."
    );
}

fn main() {
    let quick = std::env::args().any(|word| word == "--quick");
    let effort = Effort {
        row: Duration::from_millis(if quick { 200 } else { 1500 }),
        least_samples: 3,
        most_samples: if quick { 5 } else { 25 },
    };
    let samples = SIZES.map(|(activities, frames)| sample(activities, frames));
    let lengths = [64, 256, 1024, 4096];
    let lengths = if quick { &lengths[..3] } else { &lengths };
    introduce(effort);
    checking(effort, &samples);
    judging(effort, &samples);
    judging_the_last_line(effort);
    summarizing(effort);
    searching(effort, quick);
    reducing(effort, lengths);
    reducing_others(effort);
    writing(effort, lengths);
}
