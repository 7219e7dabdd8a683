//! The cases of the written scope, on the second implementation.

use compare::model::{
    check, judge, program_text, reduce, replay, search, Balances, End, MissingToken, Place, Run,
    Settings, Verdict,
};

const ONE_TRACE: &[u8] = b"00000001000203040501\n";
const UNEVEN_TRACE: &[u8] = b"0000000100040202030301\n";
const FOUR_TRACES: &[u8] =
    b"0000001F0002030401\n0000001B0003020401\n000000170002030501\n000000130003020501\n";
const ONE_STEP: &[u8] = b"00000001000201\n";
const ONE_STEP_SETTINGS: Settings = Settings {
    activities: 3,
    inputs: 2,
    outputs: 2,
    threshold: 0,
};
const FOUND: [u32; 4] = [0x0002_0001, 0x0002_0004, 0x0006_0005, 0x0004_0001];

fn place(inputs: u16, outputs: u16) -> Place {
    Place { inputs, outputs }
}

/// Holds the replay of a trace to these figures, and the judgement of it as a log of one line.
fn assert_balances(
    activities: u8,
    text: &[u8],
    place: Place,
    (least, last): (i16, i16),
    first_missing: Option<usize>,
) {
    let balances = Balances {
        least,
        last,
        first_missing,
    };
    assert_eq!(replay(activities, text, place), Ok(balances));
    let judgement = judge(activities, 0, text, place).unwrap();
    let on_line_0 = |event| MissingToken { line: 0, event };
    assert_eq!(judgement.first_underfed, first_missing.map(on_line_0));
}

/// Runs the search of M11 and compares its counts.
fn assert_run(rejected: usize, found: usize, budget: u32, expected: Run) {
    let mut rejected = vec![u64::MAX; rejected];
    let mut words = vec![u32::MAX; found];
    let run = search(
        ONE_STEP_SETTINGS,
        ONE_STEP,
        budget,
        &mut rejected,
        &mut words,
    );
    assert_eq!(run, Ok(expected));
    assert_eq!(words[..expected.found], FOUND[..expected.found]);
    assert!(words[expected.found..].iter().all(|&word| word == u32::MAX));
    assert!(rejected[expected.rejected..]
        .iter()
        .all(|&word| word == u64::MAX));
}

#[test]
fn m1_to_m6_balances() {
    assert_balances(6, ONE_TRACE, place(0x0001, 0x0004), (0, 0), None);
    assert_balances(6, ONE_TRACE, place(0x0004, 0x0030), (-1, -1), Some(4));
    assert_balances(6, ONE_TRACE, place(0x0030, 0x0002), (0, 1), None);
    assert_balances(6, UNEVEN_TRACE, place(0x0004, 0x0030), (-1, 1), Some(1));
    assert_balances(6, UNEVEN_TRACE, place(0x0001, 0x0004), (-1, -1), Some(3));
    assert_balances(3, ONE_STEP, place(0x0004, 0x0004), (-1, 0), Some(1));
}

#[test]
fn m7_threshold() {
    for (threshold, verdict) in [(419, Verdict::Overfed), (420, Verdict::Fitting)] {
        let judgement = judge(6, threshold, FOUR_TRACES, place(0x0001, 0x0010)).unwrap();
        assert_eq!(judgement.verdict, verdict);
        assert_eq!(judgement.overfed + judgement.both, 42);
        assert_eq!(judgement.fitting + judgement.underfed, 58);
        assert_eq!(judgement.first_underfed, None);
    }
}

/// In two of the traces of M7 activity 5 stands where the others have 4.
#[test]
fn m7_underfed() {
    let first_underfed = |inputs, outputs| {
        let judgement = judge(6, 1000, FOUR_TRACES, place(inputs, outputs));
        let missing = judgement.unwrap().first_underfed?;
        Some((missing.line, missing.event))
    };
    assert_eq!(first_underfed(0x0010, 0x0002), Some((2, 4)));
    assert_eq!(first_underfed(0x0010, 0x0020), Some((2, 3)));
    assert_eq!(first_underfed(0x0004, 0x0008), Some((1, 1)));
    assert_eq!(first_underfed(0x0008, 0x0004), Some((0, 1)));
    assert_eq!(first_underfed(0x0030, 0x0002), None);
}

#[test]
fn m8_to_m10_refusals() {
    let number = |activities, text: &[u8]| check(activities, text).unwrap_err().number();
    assert_eq!(number(6, b""), 6);
    assert_eq!(number(6, b"\n"), 2);
    assert_eq!(number(6, b"000000000001\n"), 2);
    assert_eq!(number(2, b"00000001000201\n"), 3);
    assert_eq!(number(6, b"000000010100\n"), 4);
}

#[test]
fn m11_search() {
    let complete = |rejected, replays| Run {
        end: End::Complete,
        found: 4,
        rejected,
        replays,
        visits: 36,
    };
    assert_run(15, 4, 36, complete(15, 19));
    assert_run(100, 10, 36, complete(15, 19));
    assert_run(1, 4, 36, complete(1, 34));
    assert_run(0, 4, 36, complete(0, 36));
    let budget_used = Run {
        end: End::BudgetUsed,
        found: 0,
        rejected: 4,
        replays: 4,
        visits: 18,
    };
    assert_run(4, 4, 4, budget_used);
    let list_full = Run {
        end: End::ListFull,
        found: 0,
        rejected: 4,
        replays: 5,
        visits: 19,
    };
    assert_run(15, 0, 36, list_full);
}

#[test]
fn m12_reduction() {
    let mut kept = [0; 5];
    assert_eq!(reduce(&FOUND, &mut kept), Ok(3));
    assert_eq!(kept, [0x0002_0001, 0x0002_0004, 0x0004_0001, 0, 0]);
}

#[test]
fn program() {
    let output = program_text(b"0303010000\n000000010001\n");
    let expected: &[u8] = b"00010002\n00050002\n00040004\n000000000C0000000F\n";
    assert_eq!(output, expected);
}
