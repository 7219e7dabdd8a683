//! The summary of a log: what is of one variant, the order of variants, and how entries are written
//! into buffers of any length.

use placelist::*;

/// What a buffer holds before a call, so that a word that was written shows.
const OLD: u64 = 0xEEEE_EEEE_EEEE_EEEE;

/// Four frames of two variants.
const TWO: &[u8] =
    b"000000010002030301\n0000000400020301\n000000020003020301\n000000030003030201\n";
const TWO_ENTRIES: [u64; 6] = [0, 3, 6, 1, 1, 4];

/// What a summary answers and leaves in a buffer of so many words.
fn summary(text: &[u8], words: usize) -> (Result<usize, Refusal>, Vec<u64>) {
    let mut entries = vec![OLD; words];
    let answer = summarize(16, text, &mut entries);
    (answer, entries)
}

/// That a log has these variants, each given by its first line, its frames and its cases, in a
/// buffer that is just long enough; that its length is checked; and that frames and cases add up.
fn summarized(text: &[u8], expected: &[[u64; VARIANT_LENGTH]]) {
    let (count, words) = (expected.len(), expected.concat());
    assert_eq!(summary(text, words.len()), (Ok(count), words.clone()));
    let kind = RefusalKind::BufferTooSmall;
    let refused = Err(Refusal { kind, value: 0 });
    let short = words.len() - 1;
    assert_eq!(summary(text, short), (refused, vec![OLD; short]));
    let size = check(16, text).unwrap();
    let sum = |of: fn(Variant) -> u64| Variant::from_entries(&words).map(of).sum::<u64>();
    assert_eq!(sum(|variant| variant.frames), size.frames);
    assert_eq!(sum(|variant| variant.cases), size.cases);
}

#[test]
fn one_variant() {
    summarized(b"000000010001\n", &[[0, 1, 1]]);
    summarized(b"FFFFFFFF000201\n", &[[0, 1, 0xFFFF_FFFF]]);
    let orders = b"000000010002030401\n000000020004030201\n000000030003020401\n";
    summarized(orders, &[[0, 3, 6]]);
}

/// Each activity has to occur equally often. It is not enough that the same activities occur, nor
/// that traces are equally long.
#[test]
fn what_is_of_one_variant() {
    let often = b"000000030002020301\n000000020002030301\n000000010002030201\n";
    summarized(often, &[[0, 2, 4], [1, 1, 2]]);
    let lengths = b"000000030001\n00000002000201\n0000000100020201\n";
    summarized(lengths, &[[0, 1, 3], [1, 1, 2], [2, 1, 1]]);
    let others = b"000000030002020F0F01\n0000000200020E0E0F01\n000000010002020F0E01\n";
    summarized(others, &[[0, 1, 3], [1, 1, 2], [2, 1, 1]]);
}

/// However often an activity occurs, each code by itself.
#[test]
fn every_number_of_each_activity() {
    let most = MOST_FRAME_ACTIVITIES - 2;
    let lines: Vec<_> = (0..=most as u64).map(|line| [line, 1, 1]).collect();
    for code in 2..MOST_ACTIVITIES {
        let digits = format!("{code:02X}");
        let frame = |often: usize| format!("0000000100{}01\n", digits.repeat(often));
        let log: String = (0..=most).map(frame).collect();
        summarized(log.as_bytes(), &lines);
    }
}

#[test]
fn repeated_frames() {
    let twice = b"00000001000201\n000000010001\n00000001000201\n";
    summarized(twice, &[[0, 2, 2], [1, 1, 1]]);
    let most = b"FFFFFFFF000201\n".repeat(MOST_FRAMES);
    summarized(&most, &[[0, 4096, 17_592_186_040_320]]);
}

#[test]
fn falling_cases() {
    let log = b"000000010001\n00000003000201\n00000002000301\n";
    summarized(log, &[[1, 1, 3], [2, 1, 2], [0, 1, 1]]);
    // it is the sum that counts, not a frame of many cases nor the number of frames
    let log =
        b"00000005000201\n00000001000301\n0000000300020301\n0000000300030201\n00000001000301\n";
    summarized(log, &[[2, 2, 6], [0, 1, 5], [1, 2, 2]]);
    // sums above 32 bits
    let log = b"FFFFFFFF000301\nFFFFFFFF000201\n00000001000201\n";
    summarized(log, &[[1, 2, 0x1_0000_0000], [0, 1, 0xFFFF_FFFF]]);
}

#[test]
fn equal_cases() {
    let log = b"00000002000401\n00000002000301\n00000002000201\n";
    summarized(log, &[[0, 1, 2], [1, 1, 2], [2, 1, 2]]);
    let log = b"000000010001\n00000001000301\n00000002000201\n00000001000301\n";
    summarized(log, &[[1, 2, 2], [2, 1, 2], [0, 1, 1]]);
}

/// As many frames as a log can have, no two of one variant.
#[test]
fn all_different() {
    let frame = |cases: u32, variant: usize| {
        let digits = [variant % 16, variant / 16 % 16, variant / 256];
        let [a, b, c] = [0, 1, 2].map(|k| format!("{:02X}", k + 2).repeat(digits[k]));
        format!("{cases:08X}00{a}{b}{c}01\n")
    };
    let rising = 0..MOST_FRAMES;
    let equal: String = rising.clone().map(|line| frame(1, line)).collect();
    let lines: Vec<_> = rising.clone().map(|line| [line as u64, 1, 1]).collect();
    summarized(equal.as_bytes(), &lines);
    let growing: String = rising.map(|line| frame(line as u32 + 1, line)).collect();
    let entry = |[line, frames, _]: &[u64; 3]| [*line, *frames, line + 1];
    let falling: Vec<_> = lines.iter().rev().map(entry).collect();
    summarized(growing.as_bytes(), &falling);
}

/// Room is for whole entries, and what is beyond those that were written stays.
#[test]
fn lengths_of_buffers() {
    let kind = RefusalKind::BufferTooSmall;
    for words in 0..6 {
        let refused = (Err(Refusal { kind, value: 0 }), vec![OLD; words]);
        assert_eq!(summary(TWO, words), refused);
    }
    for words in [6, 7, 8, 9, 10, 11, 12, 3 * MOST_FRAMES] {
        let (answer, entries) = summary(TWO, words);
        assert_eq!(answer, Ok(2));
        assert_eq!(entries[..6], TWO_ENTRIES);
        assert_eq!(entries[6..], vec![OLD; words - 6]);
    }
}

#[test]
fn entries_are_read() {
    let variants: Vec<_> = Variant::from_entries(&TWO_ENTRIES).collect();
    let expected = [
        Variant {
            first_line: 0,
            frames: 3,
            cases: 6,
        },
        Variant {
            first_line: 1,
            frames: 1,
            cases: 4,
        },
    ];
    assert_eq!(variants, expected);
    for words in 0..6 {
        let whole = Variant::from_entries(&TWO_ENTRIES[..words]).count();
        assert_eq!(whole, words / VARIANT_LENGTH);
    }
}
