//! How the table writes numbers, texts and lists, and the answers buffers.

/// The most bytes that a text of the table stands for.
const MOST_TEXT: usize = 65_537;
/// The most words that a list of the table stands for.
const MOST_LIST: usize = 4159;
/// Fewer words than this are written one by one.
const LEAST_RUN: usize = 3;

/// A number of 32 bits, in digits of a base: 0 to 9 and A to F.
pub fn number(digits: &str, base: u64) -> Option<u32> {
    if digits.is_empty() {
        return None;
    }
    let mut number = 0;
    for byte in digits.bytes() {
        let digit = match byte {
            b'0'..=b'9' => byte - b'0',
            b'A'..=b'F' => byte - b'A' + 10,
            _ => return None,
        };
        if u64::from(digit) >= base {
            return None;
        }
        number = u64::from(u32::try_from(number).ok()?) * base + u64::from(digit);
    }
    u32::try_from(number).ok()
}

/// The bytes of a text: pieces with a blank between two, `3*00` for a piece three times.
pub fn text(written: &str) -> Option<Vec<u8>> {
    let mut text = Vec::new();
    for piece in written.split(' ') {
        let (times, piece) = match piece.split_once('*') {
            Some((times, piece)) => (number(times, 10)? as usize, piece),
            None => (1, piece),
        };
        let bytes: Vec<u8> = piece.bytes().map(byte_meant).collect();
        if text.len() + bytes.len() * times > MOST_TEXT {
            return None;
        }
        text.extend(bytes.repeat(times));
    }
    Some(text)
}

/// The byte that a byte of a text stands for.
fn byte_meant(byte: u8) -> u8 {
    match byte {
        b';' => b'\n',
        b'^' => b'\r',
        b'_' => b' ',
        _ => byte,
    }
}

/// The words of a list: words with a blank between two, `00010001-00010FFF` for all from one to
/// another. What is no word counts as 0, which stands for no place.
pub fn list(written: &str) -> Option<Vec<u32>> {
    let mut list = Vec::new();
    for run in written.split_terminator(' ') {
        let (first, last) = run.split_once('-').unwrap_or((run, run));
        let words = number(first, 16).unwrap_or(0)..=number(last, 16).unwrap_or(0);
        if list.len() + words.clone().count() > MOST_LIST {
            return None;
        }
        list.extend(words);
    }
    Some(list)
}

/// The words of a buffer, each after a blank: `3*0000EEEE` for equal ones, `00010001-00010003` for
/// words that are each one more than the one before.
pub fn words(buffer: &[u64], digits: usize) -> String {
    let mut written = String::new();
    let mut rest = buffer;
    while let Some(&first) = rest.first() {
        let equal = run_length(rest, 0);
        let rising = run_length(rest, 1);
        let (taken, run) = if equal >= LEAST_RUN {
            (equal, format!(" {equal}*{first:0digits$X}"))
        } else if rising >= LEAST_RUN {
            let last = rest[rising - 1];
            (rising, format!(" {first:0digits$X}-{last:0digits$X}"))
        } else {
            (1, format!(" {first:0digits$X}"))
        };
        written += &run;
        rest = &rest[taken..];
    }
    written
}

/// How many words from the first on are each so much more than the one before.
fn run_length(words: &[u64], step: u64) -> usize {
    let pairs = words.windows(2);
    1 + pairs.take_while(|pair| pair[0] + step == pair[1]).count()
}

/// The bytes of a buffer: those that a call says it wrote, then the others as runs of equal ones.
pub fn bytes(buffer: &[u8], count: usize) -> String {
    let shown = |byte: u8| if byte == b'\n' { ';' } else { char::from(byte) };
    let (front, tail) = buffer.split_at(count);
    let mut written = String::new();
    if !front.is_empty() {
        written.push(' ');
        written.extend(front.iter().copied().map(shown));
    }
    for run in tail.chunk_by(|a, b| a == b) {
        written += &format!(" {}*{}", run.len(), shown(run[0]));
    }
    written
}
