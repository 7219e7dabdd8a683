//! Zeros before the lines of a log.

/// The text with so many zeros before every line, be it faulty or a last one that has no line feed.
pub fn padded_log(zeros: usize, text: &[u8]) -> Vec<u8> {
    let mut padded = Vec::new();
    for line in text.split_inclusive(|&byte| byte == b'\n') {
        padded.extend(vec![b'0'; zeros]);
        padded.extend(line);
    }
    padded
}

/// The program's input with so many zeros before every line of its log, which the settings precede.
pub fn padded_input(zeros: usize, input: &[u8]) -> Vec<u8> {
    let feed = input.iter().position(|&byte| byte == b'\n');
    let (settings, text) = input.split_at(feed.map_or(input.len(), |feed| feed + 1));
    [settings, &padded_log(zeros, text)].concat()
}
