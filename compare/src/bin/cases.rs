//! Reads the table of cases on standard input, and writes the answers of the second
//! implementation.
//!
//!     cases <crates/cases/stdin

use compare::cases::answer_table;
use std::io::{self, Read, Write};

fn main() -> io::Result<()> {
    let mut table = String::new();
    io::stdin().read_to_string(&mut table)?;
    io::stdout().write_all(answer_table(&table).as_bytes())
}
