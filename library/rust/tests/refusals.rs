//! Every refusal, its value, the order of the checks, and that a refusal leaves every buffer as it
//! was.

use placelist::RefusalKind::*;
use placelist::*;

const LOG: &[u8] = b"00000001000201\n";
const PLACE: Place = Place {
    inputs: 0x0001,
    outputs: 0x0002,
};
const SETTINGS: Settings = Settings {
    activities: 3,
    inputs: 2,
    outputs: 2,
    threshold: 0,
};

fn refusal(kind: RefusalKind, value: u64) -> Refusal {
    Refusal { kind, value }
}

/// That a search with these settings and this text gives this refusal and leaves both buffers.
fn search_refused(settings: Settings, text: &[u8], expected: Refusal) {
    let mut rejected = [7; 5];
    let mut found = [9; 5];
    let answer = search(settings, text, 100, &mut rejected, &mut found);
    assert_eq!(answer, Err(expected), "{settings:?}");
    assert_eq!((rejected, found), ([7; 5], [9; 5]));
}

/// That a summary of this text gives this refusal, also where it has no room, and leaves the
/// buffer.
fn summary_refused(activities: u8, text: &[u8], expected: Refusal) {
    for room in 0..7 {
        let mut entries = [9; 7];
        let answer = summarize(activities, text, &mut entries[..room]);
        assert_eq!((answer, entries), (Err(expected), [9; 7]));
    }
}

/// That every call that reads a log refuses this one so.
fn log_refused(activities: u8, text: &[u8], kind: RefusalKind, value: u64) {
    let expected = refusal(kind, value);
    assert_eq!(check(activities, text), Err(expected));
    assert_eq!(replay(activities, text, PLACE), Err(expected));
    assert_eq!(judge(activities, 0, text, PLACE), Err(expected));
    summary_refused(activities, text, expected);
    search_refused(
        Settings {
            activities,
            ..SETTINGS
        },
        text,
        expected,
    );
}

/// A frame of that many activities.
fn frame(activities: usize) -> Vec<u8> {
    let mut text = b"0000000100".to_vec();
    text.extend(b"02".repeat(activities - 2));
    text.extend(b"01\n");
    text
}

#[test]
fn settings() {
    for activities in [0, LEAST_ACTIVITIES - 1, MOST_ACTIVITIES + 1, 255] {
        log_refused(activities, LOG, InvalidSetting, 0);
    }
    for inputs in [0, 4] {
        search_refused(
            Settings { inputs, ..SETTINGS },
            LOG,
            refusal(InvalidSetting, 0),
        );
    }
    for outputs in [0, 4] {
        search_refused(
            Settings {
                outputs,
                ..SETTINGS
            },
            LOG,
            refusal(InvalidSetting, 0),
        );
    }
    for threshold in [MOST_THRESHOLD + 1, u16::MAX] {
        assert_eq!(
            judge(3, threshold, LOG, PLACE),
            Err(refusal(InvalidSetting, 0))
        );
        search_refused(
            Settings {
                threshold,
                ..SETTINGS
            },
            LOG,
            refusal(InvalidSetting, 0),
        );
    }
}

#[test]
fn malformed_frames() {
    log_refused(3, b"00000001000201", MalformedFrame, 0);
    log_refused(3, b"00000001000201\n00000001000201", MalformedFrame, 1);
    log_refused(3, b"00000001000201\n\n", MalformedFrame, 1);
    log_refused(3, b"0000000100201\n", MalformedFrame, 0);
    log_refused(3, b"0000000100\n", MalformedFrame, 0);
    log_refused(3, b"00000001000\n", MalformedFrame, 0);
    log_refused(3, b"0000000100010\n", MalformedFrame, 0);
    log_refused(3, b"00000000000201\n", MalformedFrame, 0);
    log_refused(16, b"0000000a000201\n", MalformedFrame, 0);
    log_refused(3, b"00000001000201\r\n", MalformedFrame, 0);
}

/// Case counts of four digits, as version 1 read them: a frame of two or three activities is too
/// short, and a longer one does not begin with 00.
#[test]
fn four_digit_case_counts() {
    log_refused(3, b"00010001\n", MalformedFrame, 0);
    log_refused(3, b"0001000201\n0001000201\n", MalformedFrame, 0);
    log_refused(4, b"000100020301\n", MisplacedEndpoint, 0);
    log_refused(6, b"0001000203040501\n", MisplacedEndpoint, 0);
}

#[test]
fn activities_and_ends() {
    log_refused(3, b"00000001000201\n00000001000301\n", UnknownActivity, 1);
    log_refused(3, b"000000010201\n", MisplacedEndpoint, 0);
    log_refused(3, b"000000010002\n", MisplacedEndpoint, 0);
    log_refused(3, b"0000000100000201\n", MisplacedEndpoint, 0);
    log_refused(3, b"0000000100010201\n", MisplacedEndpoint, 0);
}

#[test]
fn sizes() {
    let most = frame(MOST_FRAME_ACTIVITIES);
    assert_eq!(most.len(), MOST_FRAME_BYTES);
    let one = LogSize {
        frames: 1,
        cases: 1,
    };
    assert_eq!(check(3, &most), Ok(one));
    assert_eq!(check(3, b"000000010001\n"), Ok(one));
    log_refused(3, &frame(MOST_FRAME_ACTIVITIES + 1), TooLarge, 0);
    let full = LOG.repeat(MOST_FRAMES);
    let all = LogSize {
        frames: MOST_FRAMES as u64,
        cases: MOST_FRAMES as u64,
    };
    assert_eq!(check(3, &full), Ok(all));
    let mut more = full;
    more.push(b'x');
    log_refused(3, &more, TooLarge, MOST_FRAMES as u64);
}

#[test]
fn empty_log() {
    log_refused(3, b"", EmptyLog, 0);
}

#[test]
fn places() {
    for (inputs, outputs) in [(0, 2), (1, 0), (8, 2), (1, 8)] {
        let place = Place { inputs, outputs };
        assert_eq!(replay(3, LOG, place), Err(refusal(InvalidPlace, 0)));
        assert_eq!(judge(3, 0, LOG, place), Err(refusal(InvalidPlace, 0)));
        // before the text, after the settings
        assert_eq!(replay(3, b"", place), Err(refusal(InvalidPlace, 0)));
        assert_eq!(judge(1, 0, LOG, place), Err(refusal(InvalidSetting, 0)));
    }
}

#[test]
fn words() {
    let words = [0x0002_0001, 0x8000_8000, 0x0002_0000, 0x0000_0001];
    let mut kept = [9; 4];
    let mut text = [b'-'; 36];
    // before the room
    assert_eq!(
        reduce(&words, &mut kept[..1]),
        Err(refusal(InvalidPlace, 2))
    );
    assert_eq!(write(&words, &mut text[..1]), Err(refusal(InvalidPlace, 2)));
    assert_eq!((kept, text), ([9; 4], [b'-'; 36]));
}

#[test]
fn room() {
    let words = [0x0002_0001, 0x0002_0001];
    let mut kept = [9; 2];
    let mut text = [b'-'; 18];
    assert_eq!(
        reduce(&words, &mut kept[..1]),
        Err(refusal(BufferTooSmall, 0))
    );
    assert_eq!(
        write(&words, &mut text[..17]),
        Err(refusal(BufferTooSmall, 0))
    );
    assert_eq!((kept, text), ([9; 2], [b'-'; 18]));
    let mut output = [b'-'; MOST_OUTPUT];
    assert_eq!(
        report(LOG, &mut output[1..]),
        Err(refusal(BufferTooSmall, 0))
    );
    assert_eq!(output, [b'-'; MOST_OUTPUT]);
}

/// Where a log has no fault, and more variants than there are whole entries.
#[test]
fn room_for_entries() {
    let two = [LOG, b"000000010001\n"].concat();
    for room in 0..6 {
        let mut entries = [9; 6];
        let answer = summarize(3, &two, &mut entries[..room]);
        assert_eq!(answer, Err(refusal(BufferTooSmall, 0)));
        assert_eq!(entries, [9; 6]);
    }
    assert_eq!(summarize(3, &two, &mut [9; 6]), Ok(2));
}

#[test]
fn no_words_need_no_room() {
    assert_eq!(reduce(&[], &mut []), Ok(0));
    assert_eq!(write(&[], &mut []), Ok(0));
    assert_eq!(report(LOG, &mut []), Err(refusal(BufferTooSmall, 0)));
}

/// What the program writes for an input.
fn written(input: &[u8]) -> Vec<u8> {
    let mut output = [b'-'; MOST_OUTPUT + 3];
    let bytes = report(input, &mut output).unwrap();
    assert!(output[bytes..].iter().all(|&byte| byte == b'-'));
    output[..bytes].to_vec()
}

#[test]
fn program_answers_its_refusals() {
    assert_eq!(written(b""), b"FF0100000000\n");
    assert_eq!(written(b"030301000\n000000010001\n"), b"FF0100000000\n");
    assert_eq!(written(b"1103010000\n000000010001\n"), b"FF0100000000\n");
    assert_eq!(written(b"0303010000\n"), b"FF0600000000\n");
    assert_eq!(
        written(b"0303010000\n000000010001\n000000010201\n"),
        b"FF0400000001\n"
    );
    let longest = [b'0'; MOST_INPUT + 1];
    assert_eq!(written(&longest), b"FF0500000000\n");
    assert_eq!(written(&longest[1..]), b"FF0100000000\n");
}

/// The words that all languages have in common.
#[test]
fn refusals_in_words() {
    let line = |kind: &RefusalKind| {
        let refusal = refusal(*kind, 3);
        format!("{} {refusal}\n", refusal.number())
    };
    let lines: String = RefusalKind::ALL.iter().map(line).collect();
    assert_eq!(lines, include_str!("../../tests/refusals.txt"));
    let error: Box<dyn std::error::Error> = Box::new(refusal(EmptyLog, 0));
    assert_eq!(error.to_string(), "the log is empty");
}
