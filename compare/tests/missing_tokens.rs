//! Where the first token is missing, on the second implementation, held to the sentences of the
//! scope: the count of an event is taken anew from the events before it, for each event.

use compare::generate::{
    log_underfed_from, place_from_2_to_3, process_log, random_place, random_threshold, short_logs,
    text_of, LogShape, Random, UNDERFED_BOUND,
};
use compare::model::{
    judge, replay, Frame, Log, MissingToken, Place, Verdict, COUNT_DIGITS, MOST_EVENTS, MOST_FRAMES,
};

/// How many of the events are in a set.
fn events_in(set: u16, events: &[u8]) -> i16 {
    events.iter().filter(|&&code| set >> code & 1 == 1).count() as i16
}

/// The count of an event: of events before it in I, minus that of events up to and including it
/// in O.
fn count(trace: &[u8], place: Place, event: usize) -> i16 {
    events_in(place.inputs, &trace[..event]) - events_in(place.outputs, &trace[..=event])
}

/// Holds the replay of a frame to the counts of all its events.
fn assert_replay(activities: u8, frame: &Frame, place: Place) {
    let text = text_of(COUNT_DIGITS, std::slice::from_ref(frame));
    let balances = replay(activities, &text, place).unwrap();
    let trace = &frame.trace;
    let counts: Vec<i16> = (0..trace.len()).map(|at| count(trace, place, at)).collect();
    let enough = |counts: &[i16]| counts.iter().all(|&count| count >= 0);
    match balances.first_missing {
        Some(event) => assert!(counts[event] < 0 && enough(&counts[..event])),
        None => assert!(enough(&counts)),
    }
    assert_eq!(counts.iter().min(), Some(&balances.least));
    assert_eq!(balances.first_missing.is_none(), balances.least >= 0);
}

/// The first line with an event whose count is below 0, and the first such event of it.
fn first_underfed(frames: &[Frame], place: Place) -> Option<MissingToken> {
    frames.iter().enumerate().find_map(|(line, frame)| {
        let mut events = 0..frame.trace.len();
        let event = events.find(|&event| count(&frame.trace, place, event) < 0)?;
        Some(MissingToken { line, event })
    })
}

/// Holds the judgement of a place, at each of the thresholds, to the counts of all events.
fn assert_judgement(activities: u8, frames: &[Frame], place: Place, thresholds: &[u16]) {
    let text = text_of(COUNT_DIGITS, frames);
    let expected = first_underfed(frames, place);
    for &threshold in thresholds {
        let judgement = judge(activities, threshold, &text, place).unwrap();
        assert_eq!(judgement.first_underfed, expected);
        let underfed = judgement.underfed + judgement.both;
        assert_eq!(expected.is_none(), underfed == 0);
    }
}

/// All places of so many activities.
fn places(activities: u8) -> impl Iterator<Item = Place> {
    let sets = 1..1u16 << activities;
    sets.clone()
        .flat_map(move |outputs| sets.clone().map(move |inputs| Place { inputs, outputs }))
}

#[test]
fn every_short_trace() {
    let steps = ["02", "03"].map(String::from);
    for inner in short_logs(&steps, 5).into_iter().chain([String::new()]) {
        let text = format!("0000000100{inner}01\n");
        let log = Log::parse(COUNT_DIGITS, 4, text.as_bytes()).unwrap();
        for place in places(4) {
            assert_replay(4, &log.frames[0], place);
        }
    }
}

#[test]
fn every_short_log() {
    let lines = ["0001", "000201", "00020201", "00020301", "00030201"];
    let lines = lines.map(|trace| format!("00000001{trace}\n"));
    for text in short_logs(&lines, 3) {
        let log = Log::parse(COUNT_DIGITS, 4, text.as_bytes()).unwrap();
        for place in places(4) {
            assert_judgement(4, &log.frames, place, &[0, 500]);
        }
    }
}

#[test]
fn random_logs() {
    let mut random = Random::new(11);
    for _ in 0..2000 {
        let shape = LogShape {
            activities: random.between(2, 16) as u8,
            frames: random.between(1, 40),
            noise: random.pick(&[0, 5, 30, 60]),
            repeats: 20,
            most_cases: 0xFFFF_FFFF,
        };
        let log = process_log(&mut random, shape);
        for _ in 0..5 {
            let place = random_place(&mut random, shape.activities);
            let thresholds = [0, random_threshold(&mut random), 1000];
            assert_replay(shape.activities, &log[0], place);
            assert_judgement(shape.activities, &log, place, &thresholds);
        }
    }
}

/// Logs that were made to have their first underfed line at a chosen one.
#[test]
fn chosen_lines() {
    let mut random = Random::new(12);
    for frames in [1, 2, 3, 50, MOST_FRAMES] {
        for line in [0, 1, frames / 2, frames - 1, frames] {
            let place = place_from_2_to_3(&mut random);
            let log = log_underfed_from(&mut random, place, frames, line);
            assert_judgement(UNDERFED_BOUND, &log, place, &[0, 1, 1000]);
            let found = first_underfed(&log, place).map(|missing| missing.line);
            assert_eq!(found, (line < frames).then_some(line));
        }
    }
}

/// Activity 3 takes a token at each event from a chosen one on, and only the end gives one.
#[test]
fn every_event_of_a_longest_frame() {
    let place = Place {
        inputs: 0x0002,
        outputs: 0x0008,
    };
    for event in 1..MOST_EVENTS - 1 {
        let mut trace = vec![2; MOST_EVENTS];
        trace[event..].fill(3);
        (trace[0], trace[MOST_EVENTS - 1]) = (0, 1);
        let frame = Frame { cases: 1, trace };
        assert_replay(4, &frame, place);
        let text = text_of(COUNT_DIGITS, &[frame]);
        let balances = replay(4, &text, place).unwrap();
        assert_eq!(balances.first_missing, Some(event));
    }
}

#[test]
fn the_first_event_and_the_last() {
    let first = |inputs, outputs| {
        let text = format!("0000000100{}01\n", "02".repeat(MOST_EVENTS - 2));
        let place = Place { inputs, outputs };
        replay(4, text.as_bytes(), place).unwrap().first_missing
    };
    assert_eq!(first(0x0004, 0x0001), Some(0));
    assert_eq!(first(0x0001, 0x0001), Some(0));
    assert_eq!(first(0x0008, 0x0002), Some(MOST_EVENTS - 1));
    assert_eq!(first(0x0002, 0x0002), Some(MOST_EVENTS - 1));
    assert_eq!(first(0x0001, 0x0002), None);
}

/// Whether too many cases underfeed the place is another question.
#[test]
fn a_fitting_place_has_an_underfed_line() {
    let text = b"000003E7000201\n000000010001\n";
    let place = Place {
        inputs: 0x0004,
        outputs: 0x0002,
    };
    let missing = MissingToken { line: 1, event: 1 };
    for (threshold, verdict) in [(0, Verdict::Underfed), (1, Verdict::Fitting)] {
        let judgement = judge(3, threshold, text, place).unwrap();
        assert_eq!(judgement.verdict, verdict);
        assert_eq!(judgement.first_underfed, Some(missing));
    }
}
