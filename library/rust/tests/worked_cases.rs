//! The worked cases of document 01: M1 to M12 and the case of the program placelist.

use placelist::*;

/// The frames of M1 and M4.
const STRAIGHT: &[u8] = b"00000001000203040501\n";
const REPEATED: &[u8] = b"0000000100040202030301\n";

/// M11: one case that runs 0, 2, 1.
const SHORT: &[u8] = b"00000001000201\n";
const SHORT_SETTINGS: Settings = Settings {
    activities: 3,
    inputs: 2,
    outputs: 2,
    threshold: 0,
};
const SHORT_FOUND: [u32; 4] = [0x0002_0001, 0x0002_0004, 0x0006_0005, 0x0004_0001];

/// What buffers hold before a call, so that a word that was written shows.
const OLD_REJECTED: u64 = 0xDDDD_DDDD_DDDD_DDDD;
const OLD_FOUND: u32 = 0xEEEE_EEEE;

fn place(inputs: u16, outputs: u16) -> Place {
    Place { inputs, outputs }
}

/// The least and the last balance of the first trace, and the first event at which a token is
/// missing.
fn balances(activities: u8, text: &[u8], inputs: u16, outputs: u16) -> (i16, i16, Option<usize>) {
    let b = replay(activities, text, place(inputs, outputs)).unwrap();
    (b.least, b.last, b.first_missing)
}

/// M11 with these resources, from full buffers; the buffers as they were left.
fn run_short(cache: usize, list: usize, budget: u32) -> (Run, Vec<u64>, Vec<u32>) {
    let mut rejected = vec![OLD_REJECTED; cache];
    let mut found = vec![OLD_FOUND; list];
    let run = search(SHORT_SETTINGS, SHORT, budget, &mut rejected, &mut found).unwrap();
    (run, rejected, found)
}

#[test]
fn m1_to_m6_balances() {
    assert_eq!(balances(6, STRAIGHT, 0x0001, 0x0004), (0, 0, None));
    assert_eq!(balances(6, STRAIGHT, 0x0004, 0x0030), (-1, -1, Some(4)));
    assert_eq!(balances(6, STRAIGHT, 0x0030, 0x0002), (0, 1, None));
    assert_eq!(balances(6, REPEATED, 0x0004, 0x0030), (-1, 1, Some(1)));
    assert_eq!(balances(6, REPEATED, 0x0001, 0x0004), (-1, -1, Some(3)));
    assert_eq!(balances(3, SHORT, 0x0004, 0x0004), (-1, 0, Some(1)));
}

#[test]
fn m7_threshold() {
    let log = b"0000001F0002030401\n0000001B0003020401\n000000170002030501\n000000130003020501\n";
    let size = LogSize {
        frames: 4,
        cases: 100,
    };
    assert_eq!(check(6, log), Ok(size));
    let at = |threshold| judge(6, threshold, log, place(0x0001, 0x0010)).unwrap();
    let overfed = Judgement {
        fitting: 58,
        underfed: 0,
        overfed: 42,
        both: 0,
        verdict: Verdict::Overfed,
        first_underfed: None,
    };
    assert_eq!(at(419), overfed);
    let fitting = Judgement {
        verdict: Verdict::Fitting,
        ..overfed
    };
    assert_eq!(at(420), fitting);
}

#[test]
fn m8_to_m10_refusals() {
    let number = |activities, text| check(activities, text).unwrap_err().number();
    assert_eq!(number(6, b""), 6);
    assert_eq!(number(6, b"\n"), 2);
    assert_eq!(number(6, b"000000000001\n"), 2);
    assert_eq!(number(2, SHORT), 3);
    assert_eq!(number(6, b"000000010100\n"), 4);
}

#[test]
fn m11_cache_sizes() {
    for (cache, stored, replays) in [(15, 15, 19), (40, 15, 19), (1, 1, 34), (0, 0, 36)] {
        let (run, rejected, found) = run_short(cache, 6, 36);
        let expected = Run {
            end: End::Complete,
            found: 4,
            rejected: stored,
            replays,
            visits: 36,
        };
        assert_eq!(run, expected, "cache {cache}");
        assert_eq!(found[..4], SHORT_FOUND);
        assert!(found[4..].iter().all(|&word| word == OLD_FOUND));
        assert!(rejected[..stored].iter().all(|&word| word != OLD_REJECTED));
        assert!(rejected[stored..].iter().all(|&word| word == OLD_REJECTED));
    }
}

#[test]
fn m11_rejected_words() {
    let (run, rejected, _) = run_short(15, 4, 36);
    assert_eq!(run.rejected, 15);
    for word in rejected {
        let rejected = Rejected::from_word(word).unwrap();
        let judgement = judge(3, 0, SHORT, rejected.place).unwrap();
        assert_eq!(rejected.mark, judgement.verdict, "{word:X}");
        assert_eq!(rejected.word(), word);
    }
}

#[test]
fn words_that_no_search_writes() {
    let word = u64::from(place(0x0001, 0x8000).word());
    for mark in [0, 4, 0x101, 0xFFFF_FFFF] {
        assert_eq!(Rejected::from_word(word | mark << 32), None);
    }
    let mark = Verdict::Fitting;
    let place = place(0x0001, 0x8000);
    assert_eq!(Rejected { place, mark }.word(), word);
}

#[test]
fn m11_stops_early() {
    let (run, _, _) = run_short(4, 4, 4);
    assert_eq!(
        (run.end, run.replays, run.visits),
        (End::BudgetSpent, 4, 18)
    );
    let (run, _, found) = run_short(15, 0, 36);
    assert_eq!((run.end, run.replays, run.visits), (End::ListFull, 5, 19));
    assert_eq!((run.found, found.len()), (0, 0));
}

#[test]
fn ends_in_words() {
    assert_eq!(End::Complete.to_string(), "complete");
    let spent = "stopped, the budget was spent";
    assert_eq!(End::BudgetSpent.to_string(), spent);
    assert_eq!(End::ListFull.to_string(), "stopped, the list was full");
}

#[test]
fn m12_reduction() {
    let mut kept = [OLD_FOUND; 6];
    assert_eq!(reduce(&SHORT_FOUND, &mut kept), Ok(3));
    let expected = [0x0002_0001, 0x0002_0004, 0x0004_0001];
    assert_eq!(kept[..3], expected);
    assert_eq!(kept[3..], [OLD_FOUND; 3]);
    let mut text = [b'-'; 3 * LINE_BYTES + 3];
    assert_eq!(write(&kept[..3], &mut text), Ok(3 * LINE_BYTES));
    assert_eq!(&text, b"00010002\n00040002\n00010004\n---");
}

#[test]
fn program() {
    let mut output = [b'-'; MOST_OUTPUT + 1];
    let expected = b"00010002\n00050002\n00040004\n000000000C0000000F\n";
    let bytes = report(b"0303010000\n000000010001\n", &mut output).unwrap();
    assert_eq!(&output[..bytes], expected);
    assert!(output[bytes..].iter().all(|&byte| byte == b'-'));
}
