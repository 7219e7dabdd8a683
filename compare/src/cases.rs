//! The table of cases, run on the second implementation: each line of `crates/cases/stdin` is
//! copied, and a call is followed by its whole answer and by every buffer as the call left it.
//! What the table and the answers look like is said in `crates/cases/src/main.rt`.

mod answers;
mod arguments;
mod calls;
mod notation;

/// What the program `cases` writes for a table.
pub fn answer_table(table: &str) -> String {
    table.lines().map(answer_line).collect()
}

/// A line and, if it is a call, the answer below it.
fn answer_line(line: &str) -> String {
    if line.is_empty() || line.starts_with('#') {
        return format!("{line}\n");
    }
    match calls::answer(line) {
        Some(answer) => format!("{line}\n{answer}"),
        None => format!("{line}\n  not a case\n"),
    }
}
