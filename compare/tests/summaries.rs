//! The summary of a log, on the second implementation, held to the sentence of document 02 that
//! says what is of one kind, tried out on every two frames.

use compare::generate::{
    different_bags, log_of_bags, process_log, random_bags, text_of, Counts, LogShape, Random,
};
use compare::model::{
    check, summarize, Frame, LogSize, Refusal, Variant, COUNT_DIGITS, MOST_FRAMES, VARIANT_LENGTH,
};

const TWO_VARIANTS: &[u8] =
    b"0000001F0002030401\n000000170002030501\n0000001B0003020401\n000000130003020501\n";

/// Whether each activity occurs equally often in both, the order ignored.
fn of_one_kind(frame: &Frame, other: &Frame) -> bool {
    let count = |frame: &Frame, code| frame.trace.iter().filter(|&&it| it == code).count();
    (0..16).all(|code| count(frame, code) == count(other, code))
}

/// The kinds of a log: each first line, with all lines of its kind.
fn kinds(frames: &[Frame]) -> Vec<Variant> {
    let mut kinds = Vec::new();
    for (line, frame) in frames.iter().enumerate() {
        let alike = |other: &&Frame| of_one_kind(frame, other);
        if frames[..line].iter().find(alike).is_none() {
            let alike: Vec<&Frame> = frames.iter().filter(alike).collect();
            kinds.push(Variant {
                first_line: line as u64,
                frames: alike.len() as u64,
                cases: alike.iter().map(|frame| frame.cases).sum(),
            });
        }
    }
    kinds
}

/// Whether the one kind stands before the other.
fn leads(kind: &Variant, other: &Variant) -> bool {
    kind.cases > other.cases || kind.cases == other.cases && kind.first_line < other.first_line
}

/// The kinds, each behind as many as lead it.
fn in_order(kinds: &[Variant]) -> Vec<Variant> {
    let mut ordered = kinds.to_vec();
    for kind in kinds {
        let leading = kinds.iter().filter(|other| leads(other, kind));
        ordered[leading.count()] = *kind;
    }
    ordered
}

/// Holds the summary of a log to what the sentences say, and its cases to those of the log.
fn assert_summary(activities: u8, frames: &[Frame]) {
    let text = text_of(COUNT_DIGITS, frames);
    let mut entries = vec![u64::MAX; VARIANT_LENGTH * frames.len() + 1];
    let count = summarize(activities, &text, &mut entries).unwrap();
    let (entries, tail) = entries.split_at(VARIANT_LENGTH * count);
    let summary: Vec<Variant> = Variant::from_entries(entries).collect();
    assert_eq!(summary, in_order(&kinds(frames)));
    assert!(tail.iter().all(|&word| word == u64::MAX));
    let size = LogSize {
        frames: summary.iter().map(|variant| variant.frames).sum(),
        cases: summary.iter().map(|variant| variant.cases).sum(),
    };
    assert_eq!(check(activities, &text), Ok(size));
}

/// All frames of one or two cases with up to so many of activities 2 and 3.
fn short_frames(most: usize) -> Vec<Frame> {
    let mut frames = Vec::new();
    for inner in (0..=most).flat_map(words) {
        for cases in [1, 2] {
            let trace = [&[0], &inner[..], &[1]].concat();
            frames.push(Frame { cases, trace });
        }
    }
    frames
}

/// All words of so many of activities 2 and 3.
fn words(length: usize) -> impl Iterator<Item = Vec<u8>> {
    let word = move |bits: u8| (0..length).map(|place| 2 + (bits >> place & 1)).collect();
    (0..1 << length).map(word)
}

/// All logs of so many of these frames.
fn logs(choice: &[Frame], frames: u32) -> impl Iterator<Item = Vec<Frame>> + '_ {
    let number = choice.len();
    let log = move |index: usize| {
        let of_line = |line| choice[index / number.pow(line) % number].clone();
        (0..frames).map(of_line).collect()
    };
    (0..number.pow(frames)).map(log)
}

#[test]
fn entries_show_first_line_frames_and_cases() {
    let mut entries = [u64::MAX; 8];
    assert_eq!(summarize(6, TWO_VARIANTS, &mut entries), Ok(2));
    assert_eq!(entries, [0, 2, 58, 1, 2, 42, u64::MAX, u64::MAX]);
}

#[test]
fn more_cases_lead_and_then_the_earlier_first_line() {
    let mut entries = [0; 9];
    let text = b"00000001000301\n000000020001\n00000001000201\n00000001000301\n";
    assert_eq!(summarize(4, text, &mut entries), Ok(3));
    assert_eq!(entries, [0, 2, 2, 1, 1, 2, 2, 1, 1]);
    let text = b"FFFFFFFE0001\nFFFFFFFF000201\n00000001000301\nFFFFFFFF000301\n";
    assert_eq!(summarize(4, text, &mut entries), Ok(3));
    let expected = [2, 2, 0x1_0000_0000, 1, 1, 0xFFFF_FFFF, 0, 1, 0xFFFF_FFFE];
    assert_eq!(entries, expected);
}

#[test]
fn only_whole_entries_are_room() {
    for room in 0..10 {
        let mut entries = vec![u64::MAX; room];
        let answer = summarize(6, TWO_VARIANTS, &mut entries);
        let mut expected = [0, 2, 58, 1, 2, 42].repeat(usize::from(room >= 6));
        expected.resize(room, u64::MAX);
        assert_eq!(entries, expected);
        let small = Err(Refusal::BufferTooSmall);
        assert_eq!(answer, if room < 6 { small } else { Ok(2) });
    }
}

#[test]
fn every_short_log() {
    for (most_activities, most_frames) in [(3, 3), (1, 6)] {
        let choice = short_frames(most_activities);
        for log in (1..=most_frames).flat_map(|frames| logs(&choice, frames)) {
            assert_summary(4, &log);
        }
    }
}

#[test]
fn random_logs() {
    let mut random = Random::new(8);
    for _ in 0..1000 {
        let activities = random.between(2, 16) as u8;
        let frames = random.between(1, 40);
        let most_cases = random.pick(&[2, 0xFFFF_FFFF]);
        let log = process_log(
            &mut random,
            LogShape {
                activities,
                frames,
                noise: 30,
                repeats: 20,
                most_cases,
            },
        );
        assert_summary(activities, &log);
        let bags = random_bags(&mut random, activities, &(0..=20), 10);
        let counts = random.pick(&[Counts::Equal(7), Counts::Different, Counts::UpTo(3)]);
        let log = log_of_bags(&mut random, &bags, frames, counts);
        assert_summary(activities, &log);
    }
}

#[test]
fn long_logs() {
    let mut random = Random::new(9);
    for (variants, frames) in [(1, MOST_FRAMES), (8, MOST_FRAMES), (400, 400)] {
        let bags = different_bags(&mut random, 8, &(8..=18), variants);
        for counts in [Counts::Equal(0xFFFF_FFFF), Counts::Different] {
            let log = log_of_bags(&mut random, &bags, frames, counts);
            assert_summary(8, &log);
        }
    }
}

#[test]
fn as_many_variants_as_frames() {
    let mut random = Random::new(10);
    let bags = different_bags(&mut random, 8, &(8..=18), MOST_FRAMES);
    let log = log_of_bags(&mut random, &bags, MOST_FRAMES, Counts::Equal(5));
    let mut entries = vec![0; VARIANT_LENGTH * MOST_FRAMES];
    let answer = summarize(8, &text_of(COUNT_DIGITS, &log), &mut entries);
    assert_eq!(answer, Ok(MOST_FRAMES));
    let of_line = |line| [line, 1, 5];
    let expected: Vec<u64> = (0..MOST_FRAMES as u64).flat_map(of_line).collect();
    assert_eq!(entries, expected);
}
