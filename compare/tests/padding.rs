//! Nothing is lost of the logs whose counts had four digits: with 0000 before every line, each call
//! that is lent such a log answers what it answered before. The second implementation tells what
//! that was, by reading the text itself with counts of four digits; so do the figures of the scope.
//! Both sides are held to it as they read now: the second implementation and the proved library.

use compare::comparison::{required, Comparison, Sizes};
use compare::generate::{
    each_changed_byte, faulty_lines, faulty_logs, padded_input, padded_log, process_log,
    random_place, random_settings, settings_line, text_of, LogShape, Random,
};
use compare::model::{
    Balances, End, Judgement, Listing, LogSize, MissingToken, Place, Reader, Refusal, Run,
    Settings, Verdict, MOST_FRAMES, MOST_INPUT, MOST_OUTPUT, READER,
};
use std::fmt::Debug;

const BEFORE: Reader = Reader { count_digits: 4 };
const ZEROS: usize = 4;

const ONE_TRACE: &[u8] = b"0001000203040501\n";
const UNEVEN_TRACE: &[u8] = b"000100040202030301\n";
const FOUR_TRACES: &[u8] = b"001F0002030401\n001B0003020401\n00170002030501\n00130003020501\n";
const ONE_STEP: &[u8] = b"0001000201\n";
const ONE_STEP_SETTINGS: Settings = Settings {
    activities: 3,
    inputs: 2,
    outputs: 2,
    threshold: 0,
};

/// An answer, and all that buffers hold after it.
#[derive(Debug, PartialEq)]
struct Left<A> {
    answer: Result<A, Refusal>,
    rejected: Vec<u64>,
    found: Vec<u32>,
    kept: Vec<u32>,
}

/// An answer, and all words of the buffer after it.
type Summary = (Result<usize, Refusal>, Vec<u64>);

fn summarize(reader: Reader, activities: u8, text: &[u8], room: usize) -> Summary {
    let mut entries = vec![u64::MAX; room];
    let answer = reader.summarize(activities, text, &mut entries);
    (answer, entries)
}

fn search(reader: Reader, settings: Settings, text: &[u8], sizes: Sizes) -> Left<Run> {
    let mut rejected = vec![u64::MAX; sizes.rejected];
    let mut found = vec![u32::MAX; sizes.found];
    let answer = reader.search(settings, text, sizes.budget, &mut rejected, &mut found);
    Left {
        answer,
        rejected,
        found,
        kept: Vec::new(),
    }
}

fn list(reader: Reader, settings: Settings, text: &[u8], sizes: Sizes) -> Left<Listing> {
    let mut rejected = vec![u64::MAX; sizes.rejected];
    let mut found = vec![u32::MAX; sizes.found];
    let mut kept = vec![u32::MAX; sizes.found];
    let (cache, words) = (&mut rejected[..], &mut found[..]);
    let answer = reader.list(settings, text, sizes.budget, cache, words, &mut kept);
    Left {
        answer,
        rejected,
        found,
        kept,
    }
}

/// Holds both sides to the answers of before, which each call returns.
struct Padded {
    library: Comparison,
}

impl Padded {
    fn new() -> Padded {
        Padded {
            library: Comparison::new(BEFORE.count_digits),
        }
    }

    /// The answer before, which the second implementation has to give now; the library too.
    fn same<A: Debug + PartialEq>(&self, before: A, now: A) -> A {
        assert_eq!(now, before);
        assert_eq!(self.library.tally.differences(), 0);
        before
    }

    fn check(&mut self, activities: u8, text: &[u8]) -> Result<LogSize, Refusal> {
        self.library.check("check", activities, text);
        let now = READER.check(activities, &padded_log(ZEROS, text));
        self.same(BEFORE.check(activities, text), now)
    }

    fn replay(&mut self, activities: u8, text: &[u8], place: Place) -> Result<Balances, Refusal> {
        self.library.replay("replay", activities, text, place);
        let now = READER.replay(activities, &padded_log(ZEROS, text), place);
        self.same(BEFORE.replay(activities, text, place), now)
    }

    fn judge(
        &mut self,
        activities: u8,
        threshold: u16,
        text: &[u8],
        place: Place,
    ) -> Result<Judgement, Refusal> {
        self.library
            .judge("judge", activities, threshold, text, place);
        let now = READER.judge(activities, threshold, &padded_log(ZEROS, text), place);
        self.same(BEFORE.judge(activities, threshold, text, place), now)
    }

    fn search(&mut self, settings: Settings, text: &[u8], sizes: Sizes) -> Left<Run> {
        self.library.search("search", settings, text, sizes);
        let now = search(READER, settings, &padded_log(ZEROS, text), sizes);
        self.same(search(BEFORE, settings, text, sizes), now)
    }

    /// `room` is the words of the buffer.
    fn summarize(&mut self, activities: u8, text: &[u8], room: usize) -> Summary {
        self.library.summarize("summarize", activities, text, room);
        let now = summarize(READER, activities, &padded_log(ZEROS, text), room);
        self.same(summarize(BEFORE, activities, text, room), now)
    }

    /// The library has no such call of its own.
    fn list(&self, settings: Settings, text: &[u8], sizes: Sizes) -> Left<Listing> {
        let now = list(READER, settings, &padded_log(ZEROS, text), sizes);
        self.same(list(BEFORE, settings, text, sizes), now)
    }

    /// The longer input has to be one that the program reads.
    fn program(&mut self, input: &[u8]) -> Vec<u8> {
        let padded = padded_input(ZEROS, input);
        assert!(padded.len() <= MOST_INPUT);
        self.library.report("report", input, MOST_OUTPUT);
        self.same(BEFORE.program_text(input), READER.program_text(&padded))
    }

    /// Every call on one text. The buffer of the summary is as long as the cache of the search.
    fn all(&mut self, settings: Settings, text: &[u8], place: Place, sizes: Sizes) {
        let (activities, threshold) = (settings.activities, settings.threshold);
        let _ = self.check(activities, text);
        let _ = self.replay(activities, text, place);
        let _ = self.judge(activities, threshold, text, place);
        let _ = self.summarize(activities, text, sizes.rejected);
        self.search(settings, text, sizes);
        self.list(settings, text, sizes);
        self.program(&[&settings_line(settings), text].concat());
    }
}

fn place(inputs: u16, outputs: u16) -> Place {
    Place { inputs, outputs }
}

fn sizes(rejected: usize, found: usize, budget: u32) -> Sizes {
    Sizes {
        budget,
        rejected,
        found,
    }
}

#[test]
fn zeros_stand_before_every_line() {
    assert_eq!(padded_log(4, b""), b"");
    assert_eq!(
        padded_log(4, b"\n0001\r\n\nx"),
        b"0000\n00000001\r\n0000\n0000x"
    );
    assert_eq!(
        padded_input(4, b"0303010000\n00010001\n"),
        b"0303010000\n000000010001\n"
    );
    assert_eq!(padded_input(4, b"03030"), b"03030");
}

#[test]
fn m1_to_m6_stay() {
    let mut padded = Padded::new();
    for (activities, text, place, least, last, first_missing) in [
        (6, ONE_TRACE, place(0x0001, 0x0004), 0, 0, None),
        (6, ONE_TRACE, place(0x0004, 0x0030), -1, -1, Some(4)),
        (6, ONE_TRACE, place(0x0030, 0x0002), 0, 1, None),
        (6, UNEVEN_TRACE, place(0x0004, 0x0030), -1, 1, Some(1)),
        (6, UNEVEN_TRACE, place(0x0001, 0x0004), -1, -1, Some(3)),
        (3, ONE_STEP, place(0x0004, 0x0004), -1, 0, Some(1)),
    ] {
        let balances = Balances {
            least,
            last,
            first_missing,
        };
        assert_eq!(padded.replay(activities, text, place), Ok(balances));
    }
}

#[test]
fn m7_stays() {
    let mut padded = Padded::new();
    let size = LogSize {
        frames: 4,
        cases: 100,
    };
    assert_eq!(padded.check(6, FOUR_TRACES), Ok(size));
    for (threshold, verdict) in [(419, Verdict::Overfed), (420, Verdict::Fitting)] {
        let judgement = Judgement {
            fitting: 58,
            underfed: 0,
            overfed: 42,
            both: 0,
            verdict,
            first_underfed: None,
        };
        let place = place(0x0001, 0x0010);
        assert_eq!(
            padded.judge(6, threshold, FOUR_TRACES, place),
            Ok(judgement)
        );
    }
}

#[test]
fn the_first_underfed_line_of_m7_stays() {
    let mut padded = Padded::new();
    let judgement = Judgement {
        fitting: 0,
        underfed: 42,
        overfed: 58,
        both: 0,
        verdict: Verdict::Overfed,
        first_underfed: Some(MissingToken { line: 2, event: 3 }),
    };
    let place = place(0x0010, 0x0020);
    assert_eq!(padded.judge(6, 420, FOUR_TRACES, place), Ok(judgement));
}

#[test]
fn the_summary_of_m7_stays() {
    let mut padded = Padded::new();
    let entries = vec![0, 2, 58, 2, 2, 42, u64::MAX];
    assert_eq!(padded.summarize(6, FOUR_TRACES, 7), (Ok(2), entries));
}

#[test]
fn m8_to_m10_stay() {
    let mut padded = Padded::new();
    for (activities, text, number) in [
        (6, "", 6),
        (6, "\n", 2),
        (6, "00000001\n", 2),
        (2, "0001000201\n", 3),
        (6, "00010100\n", 4),
    ] {
        let refusal = padded.check(activities, text.as_bytes()).unwrap_err();
        assert_eq!((refusal.number(), refusal.value()), (number, 0));
    }
}

#[test]
fn m11_and_m12_stay() {
    let mut padded = Padded::new();
    let listed = [0x0002_0001, 0x0002_0004, 0x0006_0005, 0x0004_0001];
    for (sizes, end, found, rejected, replays, visits) in [
        (sizes(15, 4, 36), End::Complete, 4, 15, 19, 36),
        (sizes(640, 320, u32::MAX), End::Complete, 4, 15, 19, 36),
        (sizes(1, 4, 36), End::Complete, 4, 1, 34, 36),
        (sizes(0, 4, 36), End::Complete, 4, 0, 36, 36),
        (sizes(4, 4, 4), End::BudgetUsed, 0, 4, 4, 18),
        (sizes(15, 0, 36), End::ListFull, 0, 4, 5, 19),
    ] {
        let run = Run {
            end,
            found,
            rejected,
            replays,
            visits,
        };
        let searched = padded.search(ONE_STEP_SETTINGS, ONE_STEP, sizes);
        assert_eq!(searched.answer, Ok(run));
        assert_eq!(searched.found[..found], listed[..found]);
        let reduced = (end == End::Complete).then_some(Ok(3));
        let listing = padded.list(ONE_STEP_SETTINGS, ONE_STEP, sizes);
        assert_eq!(listing.answer, Ok(Listing { run, reduced }));
        if reduced.is_some() {
            assert_eq!(listing.kept[..3], [listed[0], listed[1], listed[3]]);
        }
    }
}

#[test]
fn the_program_stays() {
    let mut padded = Padded::new();
    let output = padded.program(b"0303010000\n00010001\n");
    let expected: &[u8] = b"00010002\n00050002\n00040004\n000000000C0000000F\n";
    assert_eq!(output, expected);
}

/// Settings with few candidates, a place, and sizes that may be too short.
fn random_arguments(random: &mut Random) -> (Settings, Place, Sizes) {
    let settings = random_settings(random, 200);
    let place = random_place(random, settings.activities);
    let budget = random.up_to_one_of(&[20, 200]) as u32;
    let cache = random.up_to_one_of(&[4, 40, 200]);
    (
        settings,
        place,
        sizes(cache, random.between(0, 200), budget),
    )
}

/// A log with counts of four digits.
fn random_text(random: &mut Random, activities: u8, most_frames: usize) -> Vec<u8> {
    let shape = LogShape {
        activities,
        frames: random.between(1, most_frames),
        noise: random.pick(&[0, 5, 30, 60]),
        repeats: random.pick(&[0, 20]),
        most_cases: 0xFFFF,
    };
    text_of(BEFORE.count_digits, &process_log(random, shape))
}

/// Logs in their form, also under other bounds.
fn random_logs(padded: &mut Padded, random: &mut Random) {
    for _ in 0..2000 {
        let (settings, place, sizes) = random_arguments(random);
        let text = random_text(random, settings.activities, 20);
        padded.all(settings, &text, place, sizes);
        let (settings, place, sizes) = random_arguments(random);
        padded.all(settings, &text, place, sizes);
    }
}

/// Every byte changed of some logs.
fn changed_bytes(padded: &mut Padded, random: &mut Random) {
    for _ in 0..10 {
        let (settings, place, sizes) = random_arguments(random);
        let mut text = random_text(random, settings.activities, 3);
        text.truncate(50);
        each_changed_byte(&text, |damaged| padded.all(settings, damaged, place, sizes));
    }
}

/// Faulty lines and logs of the generator, those that the zeros make of a text with four digits,
/// and lines beyond the most.
fn faulty_texts(padded: &mut Padded) {
    let settings = Settings {
        activities: 3,
        inputs: 2,
        outputs: 1,
        threshold: 100,
    };
    let padded_texts = faulty_lines().into_iter().chain(faulty_logs());
    let texts: Vec<Vec<u8>> = padded_texts.filter_map(|text| unpadded(&text)).collect();
    assert!(texts.len() > 300);
    let most = b"00010001\n".repeat(MOST_FRAMES);
    let beyond = ["0", "\n", "x\n", "\0", "00000001\n"];
    let beyond = beyond.map(|line| [&most[..], line.as_bytes()].concat());
    for text in texts.into_iter().chain(beyond) {
        padded.all(settings, &text, place(0x0001, 0x0006), sizes(5, 5, 20));
    }
}

/// The text that becomes this one with the zeros, if there is one.
fn unpadded(text: &[u8]) -> Option<Vec<u8>> {
    let lines = text.split_inclusive(|&byte| byte == b'\n');
    let lines: Option<Vec<&[u8]>> = lines.map(|line| line.strip_prefix(b"0000")).collect();
    lines.map(|lines| lines.concat())
}

/// Logs of the most lines, of which a chosen one is the first that underfeeds the place.
fn first_underfed_lines(padded: &mut Padded) {
    for line in [0, 1, 255, 256, MOST_FRAMES - 1] {
        let fitting = "0001000201\n";
        let text = fitting.repeat(line) + &"00010001\n".repeat(MOST_FRAMES - line);
        let judgement = padded.judge(3, 0, text.as_bytes(), place(0x0004, 0x0002));
        let missing = MissingToken { line, event: 1 };
        assert_eq!(judgement.unwrap().first_underfed, Some(missing));
    }
}

/// Settings and places beyond their ranges, and texts of all kinds.
fn refused_arguments(padded: &mut Padded) {
    for text in [
        "",
        "\n",
        "0001000201\n",
        "0001000201",
        "0001000201\n00010301\n",
    ] {
        for activities in [0, 1, 2, 3, 16, 17] {
            for threshold in [0, 1000, 1001] {
                for place in [place(1, 2), place(0, 2), place(4, 0), place(8, 0x8000)] {
                    let settings = Settings {
                        activities,
                        inputs: 1,
                        outputs: 3,
                        threshold,
                    };
                    padded.all(settings, text.as_bytes(), place, sizes(3, 3, 9));
                }
            }
        }
    }
}

/// A full list, and the longest input that is read with the zeros.
fn long_programs(padded: &mut Padded) {
    padded.program(b"08030303E8\n0001000201\n");
    let lines = "0001000203020301\n".repeat(3106) + &"000100020302030201\n".repeat(13);
    let input = "0402010000\n".to_string() + &lines;
    assert_eq!(padded_input(ZEROS, input.as_bytes()).len(), MOST_INPUT);
    assert_eq!(
        padded.program(input.as_bytes()),
        b"00010002\n000000001E00000026\n"
    );
}

#[test]
fn every_answer_stays() {
    let mut padded = Padded::new();
    let mut random = Random::new(7);
    random_logs(&mut padded, &mut random);
    changed_bytes(&mut padded, &mut random);
    faulty_texts(&mut padded);
    first_underfed_lines(&mut padded);
    refused_arguments(&mut padded);
    long_programs(&mut padded);
    let mut unreached = padded.library.tally.unreached(required(false));
    // lists have no log, a program that uses up its budget runs for seconds, and a short room is
    // refused before the input is read
    unreached.retain(|(call, _)| !["reduce", "write"].contains(call));
    let expected = ["end 01", "refusal 8"].map(|outcome| ("report", outcome.to_string()));
    assert_eq!(unreached, expected);
}
