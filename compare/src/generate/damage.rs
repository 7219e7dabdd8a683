//! Logs that break the written form.

use crate::model::{MOST_EVENTS, MOST_FRAMES};

/// Bytes next to the digits, digits, line ends and other ones.
const BYTES: [u8; 20] = [
    0, b'\n', b'\r', b' ', b'/', b'0', b'1', b'2', b'9', b':', b'@', b'A', b'F', b'G', b'`', b'a',
    b'f', b'g', 0x80, 0xFF,
];

/// Calls `visit` with the text after each change of one byte: deleted, replaced and inserted.
pub fn each_changed_byte(text: &[u8], mut visit: impl FnMut(&[u8])) {
    for position in 0..=text.len() {
        let (before, after) = text.split_at(position);
        for byte in BYTES {
            visit(&[before, &[byte], after].concat());
        }
        if let Some((_, rest)) = after.split_first() {
            visit(before);
            visit(&[before, rest].concat());
            for byte in BYTES {
                visit(&[before, &[byte], rest].concat());
            }
        }
    }
}

/// Lines with every combination of faults, the flawless one included, for a bound of 3.
pub fn faulty_lines() -> Vec<Vec<u8>> {
    let mut lines = Vec::new();
    for faults in 0..1 << 8 {
        let has = |fault: u32| faults >> fault & 1 == 1;
        let mut line = if has(0) { "00000000" } else { "00000001" }.to_string();
        line += if has(1) { "02" } else { "00" };
        line += &"02".repeat(if has(2) { MOST_EVENTS - 1 } else { 1 });
        line += match (has(3), has(4)) {
            (false, false) => "",
            (true, false) => "03",
            (false, true) => "01",
            (true, true) => "0003",
        };
        line += "01";
        line += if has(5) { "0" } else { "" };
        line += if has(6) { "g1" } else { "" };
        line += if has(7) { "" } else { "\n" };
        lines.push(line.into_bytes());
    }
    let others = [
        "\n",
        "0\n",
        "0001\n",
        "0001000\n",
        "00010001\n",
        "000100001\n",
        "0001000201\n",
        "00010002001\n",
        "00000000\n",
        "00000001\n",
        "000000010\n",
        "0000000100\n",
        "00000001001\n",
        "000000010001\n",
        "0000000100010\n",
        "00000000FF01\n",
        "000000010100\n",
        "000000010000\n",
        "000000010101\n",
        "0000FFFF0001\n",
        "000100000001\n",
        "FFFF00000001\n",
        "FFFFFFFF0001\n",
        "ffffffff0001\n",
        "0000ffff0001\n",
        "ffff00000001\n",
        "00000001FF\n",
        "00000001FFFF\n",
        "00000001000201\r\n",
        " 00000001000201\n",
        "00000001 000201\n",
        "0000 0001000201\n",
        "+00000010001\n",
        "0x0000010001\n",
    ];
    lines.extend(others.iter().map(|line| line.as_bytes().to_vec()));
    lines
}

/// Whole logs at and beyond the limits, for a bound of 3.
pub fn faulty_logs() -> Vec<Vec<u8>> {
    let line = |events: usize| format!("0000000100{}01\n", "02".repeat(events - 2));
    let mut logs = vec![Vec::new()];
    for events in [
        2,
        3,
        MOST_EVENTS - 1,
        MOST_EVENTS,
        MOST_EVENTS + 1,
        300,
        600,
    ] {
        logs.push(line(events).into_bytes());
        logs.push(line(events).replace('\n', "0\n").into_bytes());
        logs.push(line(events).replace('\n', "").into_bytes());
        logs.push((line(2) + &line(events) + &line(3)).into_bytes());
    }
    for digits in 8..=14 {
        let short = &"00000001000101"[..digits];
        logs.push(format!("{short}\n").into_bytes());
        logs.push(format!("{}{short}\n{}", line(2), line(3)).into_bytes());
    }
    for frames in [MOST_FRAMES - 1, MOST_FRAMES, MOST_FRAMES + 1, 5000] {
        let log = line(2).repeat(frames);
        logs.push(log.trim_end().as_bytes().to_vec());
        for rest in ["", "0", "\n", "x\n", "000000010002\n", "\0"] {
            logs.push((log.clone() + rest).into_bytes());
        }
        logs.push(log.replacen("01\n", "03\n", 1).into_bytes());
    }
    logs
}
