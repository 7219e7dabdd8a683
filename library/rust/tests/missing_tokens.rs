//! Where the first token is missing: in a trace and in a log, at the least and the largest indices,
//! and in office logs, where it is held to the definition for every place of one or two inputs and
//! one or two outputs.

use placelist::*;

/// M7: four lines, 100 cases.
const FOUR_LINES: &[u8] =
    b"0000001F0002030401\n0000001B0003020401\n000000170002030501\n000000130003020501\n";

const OFFICES: [&str; 3] = [
    include_str!("../../../examples/purchasing.log"),
    include_str!("../../../examples/leave.log"),
    include_str!("../../../examples/access.log"),
];

/// The digits of a settings line, and its line feed.
const SETTINGS_BYTES: usize = 11;

fn place(inputs: u16, outputs: u16) -> Place {
    Place { inputs, outputs }
}

fn missing_in_trace(text: &[u8], place: Place) -> Option<usize> {
    let balances = replay(16, text, place).unwrap();
    assert_eq!(balances.first_missing.is_some(), balances.least < 0);
    balances.first_missing
}

/// The line and the event, which are the same at every threshold.
fn missing_in_log(text: &[u8], place: Place) -> Option<(usize, usize)> {
    let at = |threshold| judge(16, threshold, text, place).unwrap();
    let judgement = at(0);
    let first = judgement.first_underfed;
    assert_eq!(first.is_some(), judgement.underfed + judgement.both > 0);
    for threshold in [1, 500, MOST_THRESHOLD] {
        assert_eq!(at(threshold).first_underfed, first);
    }
    first.map(|token| (token.line, token.event))
}

#[test]
fn in_a_trace() {
    let trace = b"0000000100030202040401\n";
    let missing = |inputs, outputs| missing_in_trace(trace, place(inputs, outputs));
    assert_eq!(missing(0x0001, 0x0002), None);
    assert_eq!(missing(0x0002, 0x0001), Some(0));
    assert_eq!(missing(0x0004, 0x0008), Some(1));
    assert_eq!(missing(0x0008, 0x0004), Some(3));
    assert_eq!(missing(0x0008, 0x0012), Some(5));
    assert_eq!(missing(0x0020, 0x0002), Some(6));
    // a token that is left over is not missing, and one that comes later is
    assert_eq!(missing(0x0004, 0x0002), None);
    assert_eq!(missing(0x0004, 0x0018), Some(1));
    // further ones are missing after it, and the balance falls
    assert_eq!(missing(0x0020, 0x001C), Some(1));
}

/// An event takes its tokens before it gives any.
#[test]
fn in_both_sets() {
    let missing = |trace, inputs, outputs| missing_in_trace(trace, place(inputs, outputs));
    assert_eq!(missing(b"00000001000201\n", 0x0004, 0x0004), Some(1));
    assert_eq!(missing(b"0000000100020201\n", 0x0005, 0x0004), None);
    assert_eq!(missing(b"0000000100020301\n", 0x0005, 0x000C), None);
    assert_eq!(missing(b"0000000100030201\n", 0x0005, 0x000C), Some(2));
}

#[test]
fn in_a_log() {
    let missing = |inputs, outputs| missing_in_log(FOUR_LINES, place(inputs, outputs));
    assert_eq!(missing(0x0001, 0x0002), None);
    assert_eq!(missing(0x0001, 0x0010), None);
    assert_eq!(missing(0x0002, 0x0001), Some((0, 0)));
    assert_eq!(missing(0x0008, 0x0004), Some((0, 1)));
    assert_eq!(missing(0x0004, 0x0008), Some((1, 1)));
    assert_eq!(missing(0x0010, 0x0002), Some((2, 4)));
    // both underfed and overfed
    assert_eq!(missing(0x0006, 0x0008), Some((1, 1)));
}

/// The first line decides, not the earliest event, nor how many cases a line has.
#[test]
fn first_line() {
    let log = b"0000000100020301\n0000000100020301\nFFFFFFFF00030201\n00000001000301\n";
    let missing = |inputs, outputs| missing_in_log(log, place(inputs, outputs));
    assert_eq!(missing(0x0004, 0x000A), Some((0, 3)));
    assert_eq!(missing(0x0004, 0x0008), Some((2, 1)));
    assert_eq!(missing(0x0004, 0x0002), Some((3, 2)));
}

/// The whole log is checked first.
#[test]
fn underfed_before_a_fault() {
    let log = b"00000001000201\n00000001000301\n";
    let kind = RefusalKind::UnknownActivity;
    let refused = Refusal { kind, value: 1 };
    let fed_by_itself = place(0x0004, 0x0004);
    assert_eq!(replay(3, log, fed_by_itself), Err(refused));
    assert_eq!(judge(3, 0, log, fed_by_itself), Err(refused));
}

#[test]
fn largest_indices() {
    let longest = format!("0000000100{}01\n", "02".repeat(MOST_FRAME_ACTIVITIES - 2));
    let closing = place(0x0008, 0x0002);
    assert_eq!(missing_in_trace(longest.as_bytes(), closing), Some(253));
    let log = "00000001000301\n".repeat(MOST_FRAMES - 1) + &longest;
    assert_eq!(missing_in_log(log.as_bytes(), closing), Some((4095, 253)));
    let log = longest + &"00000001000201\n".repeat(MOST_FRAMES - 1);
    assert_eq!(missing_in_log(log.as_bytes(), closing), Some((0, 253)));
}

fn number(digits: &str) -> u8 {
    u8::from_str_radix(digits, 16).unwrap()
}

/// The first event at which a token is missing, by the definition: of the events before it those
/// that are inputs are fewer than those up to it that are outputs.
fn plainly(line: &str, place: Place) -> Option<usize> {
    let code = |at| number(&line[at..at + 2]);
    let events: Vec<u16> = (8..line.len()).step_by(2).map(|at| 1 << code(at)).collect();
    let count = |events: &[u16], set| events.iter().filter(|&event| event & set != 0).count();
    let missing =
        |&k: &usize| count(&events[..k], place.inputs) < count(&events[..=k], place.outputs);
    (0..events.len()).find(missing)
}

/// The places of one or two inputs and outputs.
fn small_places(activities: u8) -> Vec<Place> {
    let sets = (1..1 << activities).filter(|set: &u16| set.count_ones() <= 2);
    let places = |inputs| sets.clone().map(move |outputs| place(inputs, outputs));
    sets.clone().flat_map(places).collect()
}

/// That all places so small are judged, and replayed on the first line, as the definition says.
fn as_defined(office: &str) {
    let (settings, lines) = office.split_at(SETTINGS_BYTES);
    let log = lines.as_bytes();
    for place in small_places(number(&settings[..2])) {
        let events = lines.lines().map(|line| plainly(line, place));
        let first_line = events.clone().next().unwrap();
        assert_eq!(missing_in_trace(log, place), first_line, "{place:?}");
        let token = |(line, event): (usize, Option<usize>)| Some((line, event?));
        let expected = events.enumerate().find_map(token);
        assert_eq!(missing_in_log(log, place), expected, "{place:?}");
    }
}

#[test]
fn offices() {
    OFFICES.into_iter().for_each(as_defined);
}
