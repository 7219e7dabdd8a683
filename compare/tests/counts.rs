//! Case counts at their limits, on the second implementation.

use compare::model::{check, judge, Judgement, LogSize, MissingToken, Place, Verdict};

#[test]
fn counts_have_eight_digits() {
    for (count, cases) in [
        ("00000001", 1),
        ("0000FFFF", 65_535),
        ("00010000", 65_536),
        ("12345678", 305_419_896),
        ("FFFF0000", 4_294_901_760),
        ("FFFFFFFF", 4_294_967_295),
    ] {
        let text = format!("{count}0001\n");
        let size = LogSize { frames: 1, cases };
        assert_eq!(check(2, text.as_bytes()), Ok(size), "{count}");
    }
}

#[test]
fn counts_add_up() {
    let size = |frames, cases| Ok(LogSize { frames, cases });
    let text = b"FFFFFFFF0001\n00000001000201\n";
    assert_eq!(check(3, text), size(2, 4_294_967_296));
    let most = "FFFFFFFF0001\n".repeat(4096);
    assert_eq!(check(2, most.as_bytes()), size(4096, 17_592_186_040_320));
}

/// What a longest log says of a place that its last 2,048 frames underfeed; the first has `missing`
/// cases fewer.
fn judged(missing: u64, threshold: u16) -> Judgement {
    let first = format!("{:08X}000201\n", 0xFFFF_FFFF - missing);
    let text = first + &"FFFFFFFF000201\n".repeat(2047) + &"FFFFFFFF0001\n".repeat(2048);
    let place = Place {
        inputs: 0x0004,
        outputs: 0x0002,
    };
    judge(3, threshold, text.as_bytes(), place).unwrap()
}

#[test]
fn one_case_decides_among_the_most() {
    let half = 8_796_093_020_160;
    for (missing, threshold, verdict) in [
        (0, 499, Verdict::Underfed),
        (0, 500, Verdict::Fitting),
        (1, 500, Verdict::Underfed),
        (1, 501, Verdict::Fitting),
    ] {
        let expected = Judgement {
            fitting: half - missing,
            underfed: half,
            overfed: 0,
            both: 0,
            verdict,
            first_underfed: Some(MissingToken {
                line: 2048,
                event: 1,
            }),
        };
        assert_eq!(judged(missing, threshold), expected);
    }
}
