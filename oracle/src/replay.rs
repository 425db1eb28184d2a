//! Compares a program that replays journals with the judges: its output must be the reference's lines to the byte.

use crate::compare::{
    Agreed, Differing, Job, RANDOM_JOURNALS, Run, agree, compare_printed, cut_journals, first_differing,
    random_journals, table, tally,
};
use crate::explain::{explain, keep};
use crate::generate::Profile;
use crate::journal::{DOCUMENT, Entry, encode};
use crate::reference;
use crate::threads::on_threads;
use program::{Printed, Program};
use std::time::Duration;

mod program;
#[cfg(test)]
mod tests;

/// How long the program may take for one journal.
const LIMIT: Duration = Duration::from_secs(60);

/// How many bytes each of the program's two buffers has, and where at most the second reading of one ends.
const BUFFERS: [usize; 2] = [4_096, 8_192];

/// How many bytes at a time a journal is written that is written in pieces: few, and one off a buffer of the program.
const PIECES: [usize; 6] = [1, 7, BUFFERS[0] - 1, BUFFERS[0] + 1, BUFFERS[1] - 1, BUFFERS[1] + 1];

/// How many entries a journal may have to be written in pieces too. Only short ones are, and the long ones.
const SHORT: usize = 50;

/// How many entries a long journal has; its bytes are many buffers of the program, and more than a pipe holds.
const LONG: usize = 20_000;

/// The profiles that have a long journal: much traffic, and many seeds, whose bodies are the longest.
const LONG_PROFILES: [Profile; 2] = [Profile::Season, Profile::Refusals];

/// What is wrong on a journal.
enum Trouble {
    /// The judges differ among themselves.
    Judges(Differing),
    /// The program or a reading differs from the reference on these bytes.
    Bytes(String, Vec<u8>),
    /// The program cannot be started.
    Start(String),
}

impl Trouble {
    /// The trouble with a named journal, in plain words. The journal's bytes are kept.
    fn tell(self, name: &str) -> String {
        match self {
            Trouble::Judges(differing) => explain(name, &differing),
            Trouble::Bytes(text, bytes) => keep(&bytes, format!("{name} differs: {text}")),
            Trouble::Start(text) => text,
        }
    }
}

/// A journal on which the program agrees with the judges.
struct Replayed {
    run: Run,
    bytes: usize,
    in_pieces: bool,
}

/// Compares the program at a path with the judges on generated journals, and on long, cut and random ones of a number.
/// Gives a table and counts, or the first difference.
pub fn run(path: &str, jobs: &[Job], number: u64) -> Result<String, String> {
    let program = Program { path, limit: LIMIT };
    let long = LONG_PROFILES.map(|profile| Job { profile, number, length: LONG });
    let replayed = replay_generated(program, jobs)?;
    let replayed_long = replay_generated(program, &long)?;
    let cut = replay_bytes(program, "cut short", &cut_journals(number))?;
    let random = replay_bytes(program, "of random bytes", &random_journals(number, RANDOM_JOURNALS))?;
    let ends = replay_bytes(program, "around the end of a buffer", &BUFFERS.map(buffer_ends).concat())?;
    let runs: Vec<Run> = replayed.iter().map(|each| each.run).collect();
    let in_pieces = replayed.iter().chain(&replayed_long).filter(|each| each.in_pieces).count();
    let entries: u64 = replayed_long.iter().map(|each| each.run.entries).sum();
    let bytes: usize = replayed_long.iter().map(|each| each.bytes).sum();
    let mut text = table(&tally(jobs, &runs));
    text += &format!("beside them {} long journals of {entries} entries and {bytes} bytes\n", long.len());
    text += &format!("{cut} journals cut short, {random} of random bytes, {ends} around the end of a buffer\n");
    text += &format!("{in_pieces} of the journals again in pieces of {PIECES:?} bytes\n");
    Ok(text)
}

/// Replays generated journals on two threads.
fn replay_generated(program: Program, jobs: &[Job]) -> Result<Vec<Replayed>, String> {
    let outcome = on_threads(jobs, |&job| replay_job(program, job));
    outcome.map_err(|(place, trouble)| trouble.tell(&jobs[place].to_string()))
}

/// Replays byte strings on two threads and gives how many there are.
fn replay_bytes(program: Program, kind: &str, journals: &[Vec<u8>]) -> Result<usize, String> {
    let work = |bytes: &Vec<u8>| {
        compare_printed(bytes).map_err(|difference| Trouble::Bytes(difference.to_string(), bytes.clone()))?;
        replay_one(program, bytes, &reference::replay(bytes), None)
    };
    let name = |place: usize| format!("journal {} {kind}, of {} bytes,", place + 1, journals[place].len());
    let outcome = on_threads(journals, work);
    outcome.map(|done| done.len()).map_err(|(place, trouble)| trouble.tell(&name(place)))
}

/// Compares the judges on a journal, then the program with them; a short or a long journal is written in pieces too.
fn replay_job(program: Program, job: Job) -> Result<Replayed, Trouble> {
    let Agreed { run, entries, lines, .. } = agree(job).map_err(Trouble::Judges)?;
    let bytes = encode(&entries);
    replay_one(program, &bytes, &lines, None)?;
    let in_pieces = job.length <= SHORT || job.length >= LONG;
    let pieces: &[usize] = if in_pieces { &PIECES } else { &[] };
    for &piece in pieces {
        replay_one(program, &bytes, &lines, Some(piece))?;
    }
    Ok(Replayed { run, bytes: bytes.len(), in_pieces })
}

/// Runs the program on a journal, whole or in pieces of so many bytes: it prints the lines, no errors, and ends with 0.
fn replay_one(program: Program, bytes: &[u8], lines: &str, piece: Option<usize>) -> Result<(), Trouble> {
    let printed = program.run(bytes, piece.unwrap_or(usize::MAX)).map_err(Trouble::Start)?;
    let wrong = match printed {
        Some(printed) => wrongs(&printed, lines),
        None => vec![format!("it does not end within {} s", program.limit.as_secs())],
    };
    if wrong.is_empty() {
        return Ok(());
    }
    let pieces = piece.map_or(String::new(), |piece| format!(", written in pieces of {piece} bytes"));
    Err(Trouble::Bytes(format!("{} on it{pieces}\n  {}", program.path, wrong.join("\n  ")), bytes.to_vec()))
}

/// All that is wrong with what a program prints and how it ends.
fn wrongs(printed: &Printed, lines: &str) -> Vec<String> {
    let mut wrong = Vec::new();
    if printed.output != lines.as_bytes() {
        let (place, mine, wanted) = first_differing(&String::from_utf8_lossy(&printed.output), lines);
        wrong.push(format!("line {} of the program: {mine}", place + 1));
        wrong.push(format!("line {} of the reference: {wanted}", place + 1));
    }
    if !printed.status.success() {
        wrong.push(format!("it ends with {}", printed.status));
    }
    if !printed.errors.is_empty() {
        let errors = String::from_utf8_lossy(&printed.errors);
        wrong.push(format!("its standard error begins: {}", errors.lines().next().unwrap_or_default()));
    }
    wrong
}

/// Document 01's journal behind so many reports that a first buffer of so many bytes ends at each of its bytes, whole
/// and cut there.
fn buffer_ends(buffer: usize) -> Vec<Vec<u8>> {
    let document = encode(&DOCUMENT);
    let mut journals = Vec::new();
    for place in 0..=document.len() {
        let reports = vec![Entry::Report; buffer - place];
        let whole = [encode(&reports), document.clone()].concat();
        journals.extend([whole[..buffer].to_vec(), whole]);
    }
    journals
}
