//! Logs: their text form, checked and decoded.

use super::Refusal;

/// The most frames of a log.
pub const MOST_FRAMES: usize = 4096;
/// The most activities of a frame.
pub const MOST_EVENTS: usize = 254;
/// The digits of a frame's case count.
pub const COUNT_DIGITS: usize = 8;

/// One decoded line: so many cases went through these activities.
#[derive(Clone, Debug, PartialEq, Eq)]
pub struct Frame {
    pub cases: u64,
    pub trace: Vec<u8>,
}

/// A decoded log.
#[derive(Clone, Debug, PartialEq, Eq)]
pub struct Log {
    pub frames: Vec<Frame>,
    pub cases: u64,
}

/// How many frames a log has, and how many cases these count.
#[derive(Clone, Copy, Debug, PartialEq, Eq)]
pub struct LogSize {
    pub frames: u64,
    pub cases: u64,
}

impl Log {
    /// Checks and decodes a log whose case counts have so many digits.
    pub fn parse(count_digits: usize, activities: u8, text: &[u8]) -> Result<Log, Refusal> {
        let mut log = Log {
            frames: Vec::new(),
            cases: 0,
        };
        for frame in frames(count_digits, activities, text)? {
            let (cases, codes) = frame?;
            let trace = codes.chunks_exact(2).map(number).map(|n| n as u8).collect();
            log.frames.push(Frame { cases, trace });
            log.cases += cases;
        }
        Ok(log)
    }
}

/// Checks a log without keeping it.
pub fn measure(count_digits: usize, activities: u8, text: &[u8]) -> Result<LogSize, Refusal> {
    let mut size = LogSize {
        frames: 0,
        cases: 0,
    };
    for frame in frames(count_digits, activities, text)? {
        let (cases, _) = frame?;
        size.frames += 1;
        size.cases += cases;
    }
    Ok(size)
}

/// The checked frames of a log: case count and digits of the activities.
pub fn frames(
    count_digits: usize,
    activities: u8,
    text: &[u8],
) -> Result<impl Iterator<Item = Result<(u64, &[u8]), Refusal>>, Refusal> {
    if text.is_empty() {
        return Err(Refusal::EmptyLog);
    }
    let lines = text.split_inclusive(|&byte| byte == b'\n').enumerate();
    Ok(lines.map(move |(index, line)| check_line(count_digits, activities, index, line)))
}

/// Checks one line, its line feed included, in the order of the scope.
fn check_line(
    count_digits: usize,
    activities: u8,
    index: usize,
    text: &[u8],
) -> Result<(u64, &[u8]), Refusal> {
    let line = index as u64;
    if index >= MOST_FRAMES {
        return Err(Refusal::TooLarge { line });
    }
    let malformed = Refusal::MalformedFrame { line };
    let digits = text.strip_suffix(b"\n").ok_or(malformed)?;
    let shortest = count_digits + 4;
    if digits.len() < shortest || digits.len() % 2 == 1 {
        return Err(malformed);
    }
    if digits.iter().any(|&byte| digit(byte).is_none()) {
        return Err(malformed);
    }
    let (count, codes) = digits.split_at(count_digits);
    let cases = number(count);
    if cases == 0 {
        return Err(malformed);
    }
    if codes.len() > 2 * MOST_EVENTS {
        return Err(Refusal::TooLarge { line });
    }
    check_codes(activities, line, codes)?;
    Ok((cases, codes))
}

/// Checks that the codes are known, begin with 00, end with 01 and have neither in between.
fn check_codes(activities: u8, line: u64, codes: &[u8]) -> Result<(), Refusal> {
    let bound = u64::from(activities);
    let last = codes.len() / 2 - 1;
    let mut misplaced = false;
    for (event, code) in codes.chunks_exact(2).map(number).enumerate() {
        if code >= bound {
            return Err(Refusal::UnknownActivity { line });
        }
        misplaced |= (code == 0) != (event == 0) || (code == 1) != (event == last);
    }
    if misplaced {
        Err(Refusal::MisplacedEndpoint { line })
    } else {
        Ok(())
    }
}

/// The value of a hexadecimal digit, upper case only.
pub fn digit(byte: u8) -> Option<u8> {
    match byte {
        b'0'..=b'9' => Some(byte - b'0'),
        b'A'..=b'F' => Some(byte - b'A' + 10),
        _ => None,
    }
}

/// The number that checked digits stand for.
pub fn number(digits: &[u8]) -> u64 {
    digits.iter().fold(0, |sum, &byte| {
        16 * sum + u64::from(digit(byte).expect("a checked digit"))
    })
}
