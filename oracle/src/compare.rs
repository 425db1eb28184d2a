//! Runs a journal on all judges at once, call by call, and says where they first differ.

use crate::generate::{Generator, Profile};
use crate::journal::Entry;
use crate::store::{Calls, JOURNAL_POOL};
use std::fmt;

mod bench;
mod closing;
mod difference;
mod printed;
mod sweep;
mod words;

pub use bench::Bench;
pub use difference::{Difference, wording};
pub use printed::{
    RANDOM_JOURNALS, compare_printed, compare_readings, cut_journals, first_differing, lines, random_journals,
};
pub use sweep::{Found, Tally, plan, sweep, table, tally};

/// How many refusal numbers a count of them has room for, 0 for the accepted calls included.
pub const REFUSALS: usize = 12;

/// One generated journal to compare.
#[derive(Clone, Copy, Debug, PartialEq, Eq)]
pub struct Job {
    pub profile: Profile,
    pub number: u64,
    pub length: usize,
}

impl fmt::Display for Job {
    fn fmt(&self, formatter: &mut fmt::Formatter) -> fmt::Result {
        write!(formatter, "{} {} of {} entries", self.profile.name(), self.number, self.length)
    }
}

/// What a journal without a difference comes to.
#[derive(Clone, Copy, Debug, Default, PartialEq, Eq)]
pub struct Run {
    /// The journal's own entries.
    pub entries: u64,
    /// The releases behind them that give everything back.
    pub given_back: u64,
    /// How often each refusal number is answered to the journal's own entries.
    pub refusals: [u64; REFUSALS],
    /// The largest used count.
    pub used: u64,
    /// Whether everything is given back in the end, so that the store is compared with a newly seeded one.
    pub emptied: bool,
    /// Whether the journal is run again on pools that are just full.
    pub tight: bool,
}

/// A journal on which all judges agree: its entries with those that give everything back, the lines that the program
/// prints for them, and the original's lines.
#[derive(Clone, Debug)]
pub struct Agreed {
    pub run: Run,
    pub entries: Vec<Entry>,
    pub lines: String,
    pub original: String,
}

/// A difference, the entries up to it with those that give everything back, and the pool's length.
pub type Differing = (Difference, Vec<Entry>, usize);

/// Compares all judges, and a candidate where one is given, on a fixed journal.
pub fn compare(candidate: Option<Calls>, journal: &[Entry], pool_words: usize) -> Result<Run, Difference> {
    compare_listed(candidate, journal, pool_words).map_err(|differing| differing.0)
}

/// The same; a difference comes with the entries up to it.
pub fn compare_listed(candidate: Option<Calls>, journal: &[Entry], pool_words: usize) -> Result<Run, Differing> {
    drive(candidate, pool_words, |bench| {
        for &entry in journal {
            bench.step(entry)?;
        }
        bench.close()
    })
}

/// Compares all judges, and a candidate where one is given, on a generated journal. The reference's answers tell the
/// generator what is held.
pub fn compare_generated(candidate: Option<Calls>, job: Job) -> Result<Run, Differing> {
    let mut generator = Generator::new(job.profile, job.number);
    drive(candidate, generator.pool_words(), |bench| generated(bench, &mut generator, job.length))
}

/// The same, and the journal again on a pool that it fills to the last word, and on one that is a word shorter.
pub fn compare_tightly(candidate: Option<Calls>, job: Job) -> Result<Run, Differing> {
    let mut generator = Generator::new(job.profile, job.number);
    let mut entries = Vec::new();
    let run = drive(candidate, generator.pool_words(), |bench| {
        let run = generated(bench, &mut generator, job.length)?;
        entries = bench.entries().to_vec();
        Ok(run)
    })?;
    let filled = run.used as usize;
    compare_listed(candidate, &entries, filled)?;
    if filled > 1 {
        compare_listed(candidate, &entries, filled - 1)?;
    }
    Ok(Run { tight: true, ..run })
}

/// Compares all judges on a generated journal with the journal program's pool, whatever the profile, and gives what a
/// program is judged by.
pub fn agree(job: Job) -> Result<Agreed, Differing> {
    let mut generator = Generator::on_pool(job.profile, job.number, JOURNAL_POOL);
    drive(None, JOURNAL_POOL, |bench| {
        let run = generated(bench, &mut generator, job.length)?;
        let Bench { entries, lines, told, .. } = bench;
        Ok(Agreed { run, entries: entries.clone(), lines: lines.clone(), original: told.clone() })
    })
}

/// Runs so many generated entries on a bench.
fn generated(bench: &mut Bench, generator: &mut Generator, length: usize) -> Result<Run, Difference> {
    for _ in 0..length {
        let entry = generator.next();
        let answer = bench.step(entry)?;
        generator.answered(entry, &answer);
    }
    bench.close()
}

/// Sets up a bench, runs a journal on it, and hands a difference on with the entries up to it.
fn drive<Outcome>(
    candidate: Option<Calls>,
    pool_words: usize,
    journal: impl FnOnce(&mut Bench) -> Result<Outcome, Difference>,
) -> Result<Outcome, Differing> {
    let mut bench = Bench::new(candidate, pool_words).map_err(|difference| (difference, Vec::new(), pool_words))?;
    journal(&mut bench).map_err(|difference| (difference, bench.entries().to_vec(), pool_words))
}
