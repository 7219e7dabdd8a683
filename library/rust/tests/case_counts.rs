//! Case counts of eight digits, numbers of cases above 32 bits, and the most cases of a log.

use placelist::*;

/// Cases 0, 2, 1 fit this place, and cases 0, 1 overfeed it.
const PLACE: Place = Place {
    inputs: 0x0001,
    outputs: 0x0004,
};

/// That a log of cases 0, 2, 1 and of cases 0, 1 has so many of each, and that this is the least
/// threshold at which the place is not overfed.
fn counted(log: &[u8], fitting: u64, overfed: u64, threshold: u16) {
    let size = check(3, log).unwrap();
    assert_eq!(size.cases, fitting + overfed);
    let mut entries = [0; 2 * VARIANT_LENGTH];
    summarize(3, log, &mut entries).unwrap();
    let cases = Variant::from_entries(&entries).map(|variant| variant.cases);
    assert!(cases.eq([fitting.max(overfed), fitting.min(overfed)]));
    let below = Judgement {
        fitting,
        underfed: 0,
        overfed,
        both: 0,
        verdict: Verdict::Overfed,
        first_underfed: None,
    };
    assert_eq!(judge(3, threshold - 1, log, PLACE), Ok(below));
    let at = Judgement {
        verdict: Verdict::Fitting,
        ..below
    };
    assert_eq!(judge(3, threshold, log, PLACE), Ok(at));
}

#[test]
fn above_16_bits() {
    counted(b"0000FFFF000201\n000100000001\n", 65_535, 65_536, 501);
}

#[test]
fn above_32_bits() {
    let cases = u64::from(u32::MAX);
    let size = LogSize { frames: 1, cases };
    assert_eq!(check(2, b"FFFFFFFF0001\n"), Ok(size));
    counted(b"FFFFFFFF000201\nFFFFFFFF0001\n", cases, cases, 500);
}

/// Of 2^32 - 1 cases one decides.
#[test]
fn one_case_more() {
    let (more, less) = (0x8000_0000, 0x7FFF_FFFF);
    counted(b"80000000000201\n7FFFFFFF0001\n", more, less, 500);
    counted(b"7FFFFFFF000201\n800000000001\n", less, more, 501);
}

#[test]
fn as_many_cases_as_a_log_can_have() {
    for (fitting, overfed, threshold) in [
        (2048, 2048, 500),
        (2047, 2049, 501),
        (4095, 1, 1),
        (0, 4096, 1000),
    ] {
        let mut log = b"FFFFFFFF000201\n".repeat(fitting);
        log.extend(b"FFFFFFFF0001\n".repeat(overfed));
        let size = LogSize {
            frames: 4096,
            cases: 17_592_186_040_320,
        };
        assert_eq!(check(3, &log), Ok(size));
        let cases = |frames| frames as u64 * 0xFFFF_FFFF;
        counted(&log, cases(fitting), cases(overfed), threshold);
    }
}

/// What a search leaves, on a log of so many cases, twice and three times as many.
fn searched(cases: u32, threshold: u16) -> (Run, [u64; 49], [u32; 49]) {
    let (double, triple) = (2 * cases, 3 * cases);
    let log = format!("{cases:08X}000201\n{double:08X}0001\n{triple:08X}00020201\n");
    let settings = Settings {
        activities: 3,
        inputs: 3,
        outputs: 3,
        threshold,
    };
    let (mut rejected, mut found) = ([0; 49], [0; 49]);
    let run = search(settings, log.as_bytes(), 49, &mut rejected, &mut found).unwrap();
    (run, rejected, found)
}

/// Where all counts grow alike, no share of the cases moves, and so no search.
#[test]
fn shares_decide_a_search() {
    for threshold in [0, 166, 167, 333, 334, 499, 500, 666, 667, 1000] {
        let few = searched(1, threshold);
        assert_eq!(few.0.end, End::Complete);
        assert_eq!(searched(0x5555_5555, threshold), few);
    }
}

#[test]
fn program() {
    let written = |input| {
        let mut output = [0; MOST_OUTPUT];
        let bytes = report(input, &mut output).unwrap();
        output[..bytes].to_vec()
    };
    let few = written(b"0303010000\n000000010001\n");
    assert_eq!(written(b"0303010000\nFFFFFFFF0001\n"), few);
}
