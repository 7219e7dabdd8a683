//! The refusals of the written scope and their order, on the second implementation.

use compare::model::{
    check, judge, program_text, reduce, replay, search, summarize, write, Place, Refusal, Settings,
};

const LOG: &[u8] = b"00000001000201\n";
const PLACE: Place = Place {
    inputs: 1,
    outputs: 2,
};
const NO_PLACE: Place = Place {
    inputs: 1,
    outputs: 0,
};

fn settings(activities: u8, inputs: u8, outputs: u8, threshold: u16) -> Settings {
    Settings {
        activities,
        inputs,
        outputs,
        threshold,
    }
}

fn refused(activities: u8, text: &[u8]) -> Refusal {
    check(activities, text).unwrap_err()
}

/// A line of so many activities.
fn line(events: usize) -> String {
    format!("0000000100{}01\n", "02".repeat(events - 2))
}

#[test]
fn settings_come_first() {
    assert_eq!(refused(1, b""), Refusal::InvalidSetting);
    assert_eq!(refused(17, b""), Refusal::InvalidSetting);
    assert_eq!(replay(17, b"", NO_PLACE), Err(Refusal::InvalidSetting));
    assert_eq!(judge(3, 1001, b"", NO_PLACE), Err(Refusal::InvalidSetting));
    for settings in [
        settings(3, 0, 1, 0),
        settings(3, 4, 1, 0),
        settings(3, 1, 0, 0),
        settings(3, 1, 4, 0),
        settings(3, 1, 1, 1001),
    ] {
        let answer = search(settings, b"", 0, &mut [], &mut []);
        assert_eq!(answer, Err(Refusal::InvalidSetting));
    }
    assert!(search(settings(3, 3, 3, 1000), LOG, 0, &mut [], &mut []).is_ok());
}

#[test]
fn places_come_before_the_text() {
    let invalid = Refusal::InvalidPlace { index: 0 };
    assert_eq!(replay(3, b"", NO_PLACE), Err(invalid));
    assert_eq!(judge(3, 0, b"", NO_PLACE), Err(invalid));
    let unknown = Place {
        inputs: 8,
        outputs: 1,
    };
    assert_eq!(replay(3, b"", unknown), Err(invalid));
    assert_eq!(replay(3, b"", PLACE), Err(Refusal::EmptyLog));
}

#[test]
fn invalid_words_come_before_a_short_buffer() {
    let words = [0x0001_0001, 0x8000_8000, 0x0001_0000];
    let invalid = Refusal::InvalidPlace { index: 2 };
    assert_eq!(reduce(&words, &mut []), Err(invalid));
    assert_eq!(write(&words, &mut []), Err(invalid));
    let small = Refusal::BufferTooSmall;
    assert_eq!(reduce(&words[..2], &mut [0; 1]), Err(small));
    assert_eq!(write(&words[..2], &mut [0; 17]), Err(small));
    assert_eq!(write(&words[..2], &mut [0; 18]), Ok(18));
    assert_eq!(reduce(&[], &mut []), Ok(0));
}

#[test]
fn frames_are_malformed() {
    for text in [
        "00000001000",
        "00000001000201",
        "0000000100201\n",
        "0000000100010\n",
        "00000001000\n",
        "0000000100\n",
        "000000010\n",
        "00000001\n",
        "000000010002a1\n",
        "000000010002G1\n",
        "00000001 00201\n",
        "00000000000201\n",
        "00000000010201\n",
        "000000000099\n",
        "00000001000201\r\n",
    ] {
        let answer = refused(3, text.as_bytes());
        assert_eq!(answer, Refusal::MalformedFrame { line: 0 }, "{text:?}");
    }
    assert!(check(3, b"000000010001\n").is_ok());
    let second = refused(3, b"00000001000201\n00000001000201");
    assert_eq!(second, Refusal::MalformedFrame { line: 1 });
}

#[test]
fn codes_are_unknown_before_misplaced() {
    let unknown = Refusal::UnknownActivity { line: 0 };
    let misplaced = Refusal::MisplacedEndpoint { line: 0 };
    assert_eq!(refused(3, b"00000001010300\n"), unknown);
    assert_eq!(refused(3, b"00000001FF01\n"), unknown);
    for text in [
        "000000010202\n",
        "000000010002\n",
        "00000001000001\n",
        "00000001000101\n",
        "000000010201\n",
    ] {
        assert_eq!(refused(3, text.as_bytes()), misplaced, "{text:?}");
    }
}

#[test]
fn lines_and_logs_are_limited() {
    assert!(check(3, line(254).as_bytes()).is_ok());
    let long = line(255);
    assert_eq!(refused(3, long.as_bytes()), Refusal::TooLarge { line: 0 });
    assert_eq!(refused(2, long.as_bytes()), Refusal::TooLarge { line: 0 });
    let cut = &long.as_bytes()[..long.len() - 1];
    assert_eq!(refused(2, cut), Refusal::MalformedFrame { line: 0 });
    let most = line(2).repeat(4096);
    assert_eq!(check(2, most.as_bytes()).unwrap().frames, 4096);
    for rest in ["0", "\n", "000000010001\n"] {
        let text = most.clone() + rest;
        assert_eq!(
            refused(2, text.as_bytes()),
            Refusal::TooLarge { line: 4096 }
        );
    }
}

#[test]
fn a_short_summary_comes_after_the_text() {
    let refused = |activities, text: &[u8]| summarize(activities, text, &mut [0; 2]).unwrap_err();
    assert_eq!(refused(1, b""), Refusal::InvalidSetting);
    assert_eq!(refused(17, LOG), Refusal::InvalidSetting);
    assert_eq!(refused(3, b""), Refusal::EmptyLog);
    for (line, refusal) in [
        ("\n", Refusal::MalformedFrame { line: 1 }),
        ("00000001000301\n", Refusal::UnknownActivity { line: 1 }),
        ("000000010002\n", Refusal::MisplacedEndpoint { line: 1 }),
        (&line(255), Refusal::TooLarge { line: 1 }),
        ("000000010001\n", Refusal::BufferTooSmall),
        ("", Refusal::BufferTooSmall),
    ] {
        assert_eq!(refused(3, &[LOG, line.as_bytes()].concat()), refusal);
    }
    let text = line(2).repeat(4096);
    assert_eq!(refused(2, text.as_bytes()), Refusal::BufferTooSmall);
    let text = text + "0";
    assert_eq!(
        refused(2, text.as_bytes()),
        Refusal::TooLarge { line: 4096 }
    );
    assert_eq!(summarize(3, LOG, &mut [0; 3]), Ok(1));
}

#[test]
fn program_refuses_in_order() {
    let refusal = |input: &[u8]| String::from_utf8(program_text(input)).unwrap();
    assert_eq!(refusal(&[b'0'; 65_537]), "FF0500000000\n");
    assert_eq!(refusal(&[b'0'; 65_536]), "FF0100000000\n");
    assert_eq!(refusal(b""), "FF0100000000\n");
    assert_eq!(refusal(b"030301000a\n"), "FF0100000000\n");
    assert_eq!(refusal(b"03030100000\n"), "FF0100000000\n");
    assert_eq!(refusal(b"03030103E9\n"), "FF0100000000\n");
    assert_eq!(refusal(b"0303010000\n"), "FF0600000000\n");
    assert_eq!(
        refusal(b"0303010000\n000000010001\n000000010301\n"),
        "FF0300000001\n"
    );
}
