//! Tables of measured times, as markdown.

use crate::timing::Times;

/// How the speed of a row is told.
#[derive(Clone, Copy)]
pub enum Speed {
    /// millions of these in a second
    Millions(&'static str),
    /// nanoseconds for each of these
    Nanoseconds(&'static str),
}

/// A table under way: the amounts and times of its rows.
pub struct Table {
    speed: Speed,
    rows: Vec<(usize, Times)>,
}

impl Table {
    /// Prints the head.
    pub fn new(title: &str, speed: Speed) -> Table {
        let unit = match speed {
            Speed::Millions(unit) => format!("million {unit}/s"),
            Speed::Nanoseconds(unit) => format!("ns per {unit}"),
        };
        println!("\n## {title}\n");
        println!("| Input | Proved | Rust | Proved, {unit} | Rust, {unit} | Ratio | Spread |");
        println!("|---|---|---|---|---|---|---|");
        Table {
            speed,
            rows: Vec::new(),
        }
    }

    /// Prints a row for an input of so many units.
    pub fn row(&mut self, input: &str, amount: usize, times: Times) {
        let speed = |seconds: f64| match self.speed {
            Speed::Millions(_) => amount as f64 / seconds / 1e6,
            Speed::Nanoseconds(_) => seconds * 1e9 / amount as f64,
        };
        let (fast, rust_fast) = (speed(times.proved), speed(times.rust));
        let (proved, rust) = (duration(times.proved), duration(times.rust));
        let (ratio, least, most) = (times.ratio, times.least_ratio, times.most_ratio);
        println!(
            "| {input} | {proved} | {rust} | {fast:.1} | {rust_fast:.1} | {ratio:.2} | {least:.2} to {most:.2} |"
        );
        self.rows.push((amount, times));
    }

    /// Prints how much longer the last row took than the first.
    pub fn end(self) {
        let (Some(first), Some(last)) = (self.rows.first(), self.rows.last()) else {
            return;
        };
        let grown = last.0 as f64 / first.0 as f64;
        let proved = last.1.proved / first.1.proved;
        let rust = last.1.rust / first.1.rust;
        println!();
        println!("The last input is {grown:.1} times the first: proved {proved:.1} times as long, Rust {rust:.1} times.");
    }
}

fn duration(seconds: f64) -> String {
    match seconds {
        s if s < 1e-3 => format!("{:.1} µs", s * 1e6),
        s if s < 1.0 => format!("{:.2} ms", s * 1e3),
        s => format!("{s:.2} s"),
    }
}
