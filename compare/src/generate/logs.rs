//! Logs such as an office's processes leave.

use super::Random;
use crate::model::{Frame, COUNT_DIGITS, MOST_EVENTS, MOST_FRAMES};

/// The bytes of a line with the fewest activities.
const SHORTEST_LINE: usize = COUNT_DIGITS + 5;

/// A process over activities, each used once in its description.
enum Process {
    Step(u8),
    Sequence(Vec<Process>),
    Choice(Vec<Process>),
    Concurrent(Vec<Process>),
    Loop(Box<Process>),
}

impl Process {
    /// A process over all of the codes.
    fn random(random: &mut Random, codes: &[u8]) -> Process {
        if let [code] = codes {
            return Process::Step(*code);
        }
        if random.chance(15) {
            return Process::Loop(Box::new(Process::parted(random, codes)));
        }
        Process::parted(random, codes)
    }

    /// A process of two or three parts.
    fn parted(random: &mut Random, codes: &[u8]) -> Process {
        if codes.len() < 2 {
            return Process::random(random, codes);
        }
        let first = random.between(1, codes.len() - 1);
        let second = random.between(first, codes.len());
        let parts = [&codes[..first], &codes[first..second], &codes[second..]]
            .into_iter()
            .filter(|part| !part.is_empty())
            .map(|part| Process::random(random, part))
            .collect();
        match random.below(6) {
            0..=2 => Process::Sequence(parts),
            3 | 4 => Process::Choice(parts),
            _ => Process::Concurrent(parts),
        }
    }

    /// The activities of one case.
    fn run(&self, random: &mut Random) -> Vec<u8> {
        match self {
            Process::Step(code) => vec![*code],
            Process::Sequence(parts) => parts.iter().flat_map(|part| part.run(random)).collect(),
            Process::Choice(parts) => parts[random.below(parts.len())].run(random),
            Process::Concurrent(parts) => {
                let runs = parts.iter().map(|part| part.run(random)).collect();
                interleave(random, runs)
            }
            Process::Loop(part) => {
                let mut trace = part.run(random);
                while random.chance(40) && trace.len() < 60 {
                    trace.extend(part.run(random));
                }
                trace
            }
        }
    }
}

/// Merges runs, each keeping its order.
fn interleave(random: &mut Random, mut runs: Vec<Vec<u8>>) -> Vec<u8> {
    let mut merged = Vec::new();
    runs.retain(|run| !run.is_empty());
    while !runs.is_empty() {
        let chosen = random.below(runs.len());
        merged.push(runs[chosen].remove(0));
        runs.retain(|run| !run.is_empty());
    }
    merged
}

/// Drops, doubles, swaps or adds an activity.
fn disturb(random: &mut Random, activities: u8, inner: &mut Vec<u8>) {
    let place = random.below(inner.len() + 1);
    match random.below(4) {
        0 if place < inner.len() => drop(inner.remove(place)),
        1 if place < inner.len() => inner.insert(place, inner[place]),
        2 if place + 1 < inner.len() => inner.swap(place, place + 1),
        _ if activities > 2 => inner.insert(place, random_step(random, activities)),
        _ => {}
    }
}

/// An activity that may stand inside a frame, for a bound above 2.
pub fn random_step(random: &mut Random, activities: u8) -> u8 {
    random.between(2, usize::from(activities) - 1) as u8
}

/// A frame with the start before and the end after these activities.
pub fn frame(cases: u64, mut inner: Vec<u8>) -> Frame {
    inner.truncate(MOST_EVENTS - 2);
    inner.insert(0, 0);
    inner.push(1);
    Frame {
        cases,
        trace: inner,
    }
}

/// A count up to `most`, often a small one.
pub fn random_count(random: &mut Random, most: u64) -> u64 {
    match random.below(8) {
        0 => 1,
        1 => most,
        2 => random.between(1, most as usize) as u64,
        _ => random.between(1, 40) as u64,
    }
}

/// A greatest count: of four digits, of all eight, and with nothing in the lower four.
pub fn random_most_cases(random: &mut Random) -> u64 {
    random.pick(&[
        0xFFFF,
        0x1_0000,
        0x1_0001,
        0xA_0000,
        0xFFFF_0000,
        0xFFFF_FFFF,
    ])
}

/// The text of frames, case counts in so many digits.
pub fn text_of(count_digits: usize, frames: &[Frame]) -> Vec<u8> {
    let mut text = Vec::new();
    for frame in frames {
        text.extend(format!("{:0count_digits$X}", frame.cases).bytes());
        for code in &frame.trace {
            text.extend(format!("{code:02X}").bytes());
        }
        text.push(b'\n');
    }
    text
}

/// What a log is to be like.
#[derive(Clone, Copy)]
pub struct LogShape {
    pub activities: u8,
    pub frames: usize,
    /// how many of a hundred frames are disturbed
    pub noise: usize,
    /// how many of a hundred frames repeat an earlier one's activities
    pub repeats: usize,
    /// the greatest case count of a frame
    pub most_cases: u64,
}

/// A log of a random process.
pub fn process_log(random: &mut Random, shape: LogShape) -> Vec<Frame> {
    let codes: Vec<u8> = (2..shape.activities).collect();
    let process = (!codes.is_empty()).then(|| Process::random(random, &codes));
    let mut frames: Vec<Frame> = Vec::new();
    for _ in 0..shape.frames {
        let cases = random_count(random, shape.most_cases);
        if !frames.is_empty() && random.chance(shape.repeats) {
            let trace = frames[random.below(frames.len())].trace.clone();
            frames.push(Frame { cases, trace });
            continue;
        }
        let mut inner = process.as_ref().map_or(vec![], |it| it.run(random));
        while random.chance(shape.noise) {
            disturb(random, shape.activities, &mut inner);
        }
        frames.push(frame(cases, inner));
    }
    frames
}

/// A log of any shape with at most so many frames.
pub fn random_log(random: &mut Random, activities: u8, most_frames: usize) -> Vec<u8> {
    let shape = LogShape {
        activities,
        frames: random.between(1, most_frames.min(MOST_FRAMES)),
        noise: random.pick(&[0, 5, 30, 60]),
        repeats: random.pick(&[0, 20]),
        most_cases: random_most_cases(random),
    };
    text_of(COUNT_DIGITS, &process_log(random, shape))
}

/// A log of frames at or just below the most activities.
pub fn long_log(random: &mut Random, activities: u8, frames: usize) -> Vec<u8> {
    let most_cases = random_most_cases(random);
    let long = |random: &mut Random| {
        let events = random.between(MOST_EVENTS - 6, MOST_EVENTS - 2);
        let inner = (0..events)
            .map(|_| random_step(random, activities))
            .collect();
        frame(random_count(random, most_cases), inner)
    };
    let frames: Vec<Frame> = (0..frames).map(|_| long(random)).collect();
    text_of(COUNT_DIGITS, &frames)
}

/// A log of which half of the frames, the first ones, go from the start straight to the end and the
/// others have activity 2 between. The last one may have another count.
pub fn halved_log(frames: usize, cases: u64, last: u64) -> Vec<u8> {
    let of_index = |index: usize| {
        let inner = if index < frames / 2 { vec![] } else { vec![2] };
        frame(if index + 1 < frames { cases } else { last }, inner)
    };
    let frames: Vec<Frame> = (0..frames).map(of_index).collect();
    text_of(COUNT_DIGITS, &frames)
}

/// Every log of one to `most` of these lines.
pub fn short_logs(lines: &[String], most: usize) -> Vec<String> {
    let mut all = Vec::new();
    let mut longest = vec![String::new()];
    for _ in 0..most {
        let longer = |log: &String| lines.iter().map(|line| log.clone() + line).collect();
        longest = longest.iter().flat_map::<Vec<_>, _>(longer).collect();
        all.extend(longest.iter().cloned());
    }
    all
}

/// A log of exactly so many bytes, at least those of two shortest lines, for a bound above 2.
pub fn log_of_bytes(random: &mut Random, activities: u8, bytes: usize) -> Vec<u8> {
    let most_cases = random_most_cases(random);
    let mut text = Vec::new();
    while text.len() < bytes {
        let rest = bytes - text.len();
        // a line has an odd number of bytes, from 13 to 517
        let line = match rest {
            0..=99 if rest % 2 == 1 => rest,
            0..=99 => SHORTEST_LINE,
            _ => 2 * random.between(10, 30) + SHORTEST_LINE,
        };
        let steps = 0..(line - SHORTEST_LINE) / 2;
        let inner = steps.map(|_| random_step(random, activities)).collect();
        let frame = frame(random_count(random, most_cases), inner);
        text.extend(text_of(COUNT_DIGITS, &[frame]));
    }
    text
}
