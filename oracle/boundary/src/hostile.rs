//! A hostile caller: any state, any pool words, any numbers, on the C boundary and on the reference at once. All of it
//! follows from a number.

pub mod bench;
pub mod candidate;
mod mixes;
mod numbers;
mod pools;
mod tally;
pub mod watch;

use candidate::Candidate;
pub use mixes::Mix;
use oracle::threads::on_threads;
pub use tally::Tally;
use watch::Watch;

/// How many calls one run has: a run is what a thread does on its own.
const RUN: u64 = 500;

/// From how many calls on every refusal must have occurred, and every call been accepted.
const ENOUGH: u64 = 100_000;

/// One run: its place, its mix, and how many calls it has.
#[derive(Clone, Copy, Debug)]
pub struct Run {
    pub place: u64,
    pub mix: Mix,
    pub calls: u64,
}

/// The runs that have so many calls in all.
pub fn plan(calls: u64) -> Vec<Run> {
    let runs = calls.div_ceil(RUN);
    (0..runs).map(|place| Run { place, mix: Mix::of(place), calls: RUN.min(calls - place * RUN) }).collect()
}

/// Asks a candidate so many calls of a number; gives the tables, or what differs first.
pub fn run(candidate: &Candidate, number: u64, calls: u64, watch: &Watch) -> Result<String, String> {
    let runs = plan(calls);
    let work = |run: &Run| mixes::run(candidate, number, *run, watch);
    let tallies = on_threads(&runs, work).map_err(|(_, difference)| difference)?;
    let mut total = Tally::default();
    for tally in &tallies {
        total.add(tally);
    }
    let missing = if calls < ENOUGH { Vec::new() } else { total.missing() };
    let text = total.text();
    if missing.is_empty() {
        return Ok(format!("{text}\nhostile number {number}: {} calls, no difference\n", total.calls()));
    }
    Err(format!("{text}\nnumber {number} asks too little: {}\n", missing.join("; ")))
}
