//! A program that reads a journal from its standard input, and what it does with one.

use std::io::{Read, Write};
use std::process::{Child, ChildStdin, Command, ExitStatus, Stdio};
use std::sync::mpsc::{Receiver, channel};
use std::thread;
use std::time::{Duration, Instant};

/// How many bytes are read of what a program prints: far more than any journal's lines have.
const PRINTED_LIMIT: u64 = 1 << 26;

/// How long the pause is between two pieces, so that the program has read the one before the next is there.
const PAUSE: Duration = Duration::from_micros(200);

/// Before how many of the first pieces a pause is made: on a busy machine more would take longer than a journal may.
const PAUSED: usize = 1_000;

/// How long the pause is between two looks whether the program has ended.
const LOOK: Duration = Duration::from_millis(1);

/// A program, and how long it may take for one journal.
#[derive(Clone, Copy)]
pub struct Program<'a> {
    pub path: &'a str,
    pub limit: Duration,
}

/// What a program prints, and how it ends.
#[derive(Debug)]
pub struct Printed {
    pub output: Vec<u8>,
    pub errors: Vec<u8>,
    pub status: ExitStatus,
}

impl Program<'_> {
    /// Runs the program on a journal's bytes, which are written in pieces of so many; none where it is killed at the
    /// time limit, an error where it cannot be started.
    pub fn run(self, bytes: &[u8], piece: usize) -> Result<Option<Printed>, String> {
        let mut command = Command::new(self.path);
        command.stdin(Stdio::piped()).stdout(Stdio::piped()).stderr(Stdio::piped());
        let deadline = Instant::now() + self.limit;
        let mut child = command.spawn().map_err(|error| format!("{} cannot be started: {error}", self.path))?;
        feed(child.stdin.take(), bytes.to_vec(), piece);
        let printed = finish(&mut child, deadline);
        if printed.is_none() {
            // It may have ended by itself a moment ago: then there is nothing to kill.
            let _ = child.kill();
            let _ = child.wait();
        }
        Ok(printed)
    }
}

/// Writes the bytes on a thread of its own, as a program may print before it has read all. That it ends without
/// reading on is no failure: it may at a bad entry.
fn feed(input: Option<ChildStdin>, bytes: Vec<u8>, piece: usize) {
    let Some(mut input) = input else { return };
    thread::spawn(move || {
        for (place, piece) in bytes.chunks(piece).enumerate() {
            if (1..PAUSED).contains(&place) {
                thread::sleep(PAUSE);
            }
            if input.write_all(piece).is_err() {
                break;
            }
        }
    });
}

/// What the program prints until it ends, unless that takes longer than to the deadline.
fn finish(child: &mut Child, deadline: Instant) -> Option<Printed> {
    let (output, errors) = (collect(child.stdout.take()), collect(child.stderr.take()));
    let left = || deadline.saturating_duration_since(Instant::now());
    let output = output.recv_timeout(left()).ok()?;
    let errors = errors.recv_timeout(left()).ok()?;
    while Instant::now() < deadline {
        if let Some(status) = child.try_wait().ok()? {
            return Some(Printed { output, errors, status });
        }
        thread::sleep(LOOK);
    }
    None
}

/// Reads a pipe to its end on a thread of its own, so that the program never waits for a reader.
fn collect(pipe: Option<impl Read + Send + 'static>) -> Receiver<Vec<u8>> {
    let (sender, receiver) = channel();
    thread::spawn(move || {
        let mut bytes = Vec::new();
        let read = pipe.map(|pipe| pipe.take(PRINTED_LIMIT).read_to_end(&mut bytes));
        // Nobody receives any more where the program is killed.
        let _ = read.map(|_| sender.send(bytes));
    });
    receiver
}
