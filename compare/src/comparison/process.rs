//! The program as a process.

use std::io::{self, ErrorKind, Write};
use std::path::Path;
use std::process::{Child, ChildStdin, Command, Stdio};
use std::thread;
use std::time::Duration;

/// Every so many pieces the feeding pauses, so that the program reads what there is.
const PAUSE_EVERY: usize = 16;

/// What the program writes for an input that comes in pieces of so many bytes.
pub fn run(program: &Path, input: &[u8], piece: usize) -> Result<Vec<u8>, String> {
    let told = |error: io::Error| error.to_string();
    let mut child = Command::new(program)
        .stdin(Stdio::piped())
        .stdout(Stdio::piped())
        .stderr(Stdio::piped())
        .spawn()
        .map_err(told)?;
    let output = thread::scope(|scope| {
        let stdin = take_input(&mut child);
        let feeder = scope.spawn(move || feed(stdin, input, piece));
        let output = child.wait_with_output();
        feeder.join().expect("the feeder ends").and(output)
    });
    let output = output.map_err(told)?;
    if output.status.code().is_none() {
        return Err(format!("ended by {}", output.status));
    }
    if !output.stderr.is_empty() {
        return Err(format!("complained: {}", output.stderr.escape_ascii()));
    }
    Ok(output.stdout)
}

fn take_input(child: &mut Child) -> ChildStdin {
    child.stdin.take().expect("the input is a pipe")
}

/// Writes all pieces. The program may stop reading when it has read too much.
fn feed(mut stdin: ChildStdin, input: &[u8], piece: usize) -> io::Result<()> {
    for (index, bytes) in input.chunks(piece).enumerate() {
        match stdin.write_all(bytes) {
            Err(error) if error.kind() == ErrorKind::BrokenPipe => return Ok(()),
            other => other?,
        }
        if piece < input.len() && index % PAUSE_EVERY == 0 {
            thread::sleep(Duration::from_micros(200));
        }
    }
    Ok(())
}
