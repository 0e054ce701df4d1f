//! The listing program, from bytes to bytes.

use std::io::{self, Read, Write};
use std::path::PathBuf;
use std::process::{Child, ChildStdin, ChildStdout, Command, Stdio};
use std::sync::mpsc;
use std::thread;
use std::time::Duration;

/// What a program prints that has not ended by then is not read further.
const MOST_BYTES: u64 = 1 << 24;
/// A program that has not ended by then is stopped.
const TIME_LIMIT: Duration = Duration::from_secs(60);

/// Anything that lists, so that the comparison serves the program and mutants of the listing alike.
pub trait Lister {
    /// What is printed for an input that comes in so many pieces; `Err` says what went wrong.
    fn list(&self, input: &[u8], pieces: usize) -> Result<Vec<u8>, String>;
}

/// A program, started once for each input.
#[derive(Clone, Debug)]
pub struct Program {
    /// Where it is.
    pub path: PathBuf,
}

impl Lister for Program {
    fn list(&self, input: &[u8], pieces: usize) -> Result<Vec<u8>, String> {
        let child = Command::new(&self.path)
            .stdin(Stdio::piped())
            .stdout(Stdio::piped())
            .spawn();
        let mut child = child.map_err(|error| format!("{}: {error}", self.path.display()))?;
        let given = child.stdin.take().expect("it is piped");
        let output = child.stdout.take().expect("it is piped");
        let (sender, receiver) = mpsc::channel();
        // A program that has read enough may print before all is written.
        thread::scope(|scope| {
            scope.spawn(|| feed(given, input, pieces));
            // Nobody waits for it any more once the program is stopped.
            scope.spawn(move || sender.send(read_all(output)).unwrap_or_default());
            finish(&mut child, receiver.recv_timeout(TIME_LIMIT).ok().flatten())
        })
    }
}

/// Writes the input. A program need not take all of it.
fn feed(mut given: ChildStdin, input: &[u8], pieces: usize) {
    let length = input.len().div_ceil(pieces).max(1);
    for (number, piece) in input.chunks(length).enumerate() {
        if number > 0 {
            // So that what was written is read before.
            thread::sleep(Duration::from_millis(2));
        }
        match given.write_all(piece) {
            Err(error) if error.kind() == io::ErrorKind::BrokenPipe => return,
            written => written.expect("a pipe takes bytes"),
        }
    }
}

/// All that is printed, unless it is too much.
fn read_all(output: ChildStdout) -> Option<Vec<u8>> {
    let mut printed = Vec::new();
    let read = output.take(MOST_BYTES).read_to_end(&mut printed);
    (read.is_ok() && (printed.len() as u64) < MOST_BYTES).then_some(printed)
}

/// Waits for the end of a program that has closed its output; stops any other.
fn finish(child: &mut Child, printed: Option<Vec<u8>>) -> Result<Vec<u8>, String> {
    if printed.is_none() {
        // It may have ended by itself in the meantime.
        let _ = child.kill();
    }
    let status = child.wait().map_err(|error| error.to_string())?;
    match printed {
        Some(printed) if status.success() => Ok(printed),
        Some(printed) => Err(format!("{status} after {} bytes printed", printed.len())),
        None => Err("it did not end, or printed too much".to_string()),
    }
}
