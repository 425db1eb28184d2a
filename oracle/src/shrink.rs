//! Makes a journal on which judges differ as small as it can.

use crate::compare::{Bench, Difference, compare_listed, wording};
use crate::frames::{FRAME, SIZES};
use crate::journal::Entry;
use crate::store::Calls;
use std::fmt;
use std::time::{Duration, Instant};

/// The pool lengths at which a first block of code 6, 5, .. 1 finds room, and that of a second 16 KiB.
const ROOMS: [usize; 7] = [1, 258, 771, 1_284, 1_413, 1_418, 1_423];

/// A journal on which judges still differ, the difference at its last entry, and the pool's length.
#[derive(Clone, Debug)]
pub struct Smallest {
    pub entries: Vec<Entry>,
    pub pool_words: usize,
    pub difference: Difference,
    /// What every judge says to the last entry.
    pub last: Vec<(&'static str, String)>,
}

impl fmt::Display for Smallest {
    fn fmt(&self, formatter: &mut fmt::Formatter) -> fmt::Result {
        writeln!(formatter, "pool {}", self.pool_words)?;
        for &entry in &self.entries {
            writeln!(formatter, "{}", wording(entry))?;
        }
        if !self.last.is_empty() {
            writeln!(formatter, "to the last entry")?;
        }
        for (judge, words) in &self.last {
            writeln!(formatter, "  {judge}: {words}")?;
        }
        write!(formatter, "{}", self.difference)
    }
}

/// The smallest journal found within a time that differs like the given one; none if the given one does not differ.
pub fn shrink(candidate: Option<Calls>, entries: &[Entry], pool_words: usize, limit: Duration) -> Option<Smallest> {
    let (difference, entries, pool_words) = compare_listed(candidate, entries, pool_words).err()?;
    let deadline = Instant::now() + limit;
    let mut search = Search { candidate, entries, pool_words, difference, deadline };
    while search.remove_chunks() | search.simplify_entries() | search.shift_all() | search.shorten_pool() {}
    let last = search.last_answers();
    let Search { entries, pool_words, difference, .. } = search;
    Some(Smallest { entries, pool_words, difference, last })
}

/// The smallest journal so far, and when to stop.
struct Search {
    candidate: Option<Calls>,
    entries: Vec<Entry>,
    pool_words: usize,
    difference: Difference,
    deadline: Instant,
}

impl Search {
    /// Takes a journal over if judges differ on it and it is smaller up to the difference.
    fn attempt(&mut self, entries: &[Entry], pool_words: usize) -> bool {
        if Instant::now() >= self.deadline {
            return false;
        }
        let Err((difference, entries, pool_words)) = compare_listed(self.candidate, entries, pool_words) else {
            return false;
        };
        if weight(&entries, pool_words) >= weight(&self.entries, self.pool_words) {
            return false;
        }
        (self.difference, self.entries, self.pool_words) = (difference, entries, pool_words);
        true
    }

    /// Leaves out runs of entries: halves first, then ever shorter ones, at last single entries.
    fn remove_chunks(&mut self) -> bool {
        let mut smaller = false;
        let mut chunk = self.entries.len().div_ceil(2);
        while chunk > 0 {
            let mut from = 0;
            while from < self.entries.len() {
                let mut rest = self.entries.clone();
                rest.drain(from..rest.len().min(from + chunk));
                if self.attempt(&rest, self.pool_words) {
                    smaller = true;
                } else {
                    from += chunk;
                }
            }
            chunk /= 2;
        }
        smaller
    }

    /// Puts a simpler entry in the place of each.
    fn simplify_entries(&mut self) -> bool {
        let mut smaller = false;
        let mut index = 0;
        while index < self.entries.len() {
            let found = simpler(self.entries[index]).into_iter().any(|entry| {
                let mut entries = self.entries.clone();
                entries[index] = entry;
                self.attempt(&entries, self.pool_words)
            });
            smaller |= found;
            index += usize::from(!found);
        }
        smaller
    }

    /// Moves all addresses down by the same distance.
    fn shift_all(&mut self) -> bool {
        let lowest = self.entries.iter().filter_map(|&entry| match entry {
            Entry::Seed { start, .. } => Some(start),
            Entry::Release { base, .. } => Some(base),
            _ => None,
        });
        let lowest = lowest.min().unwrap_or(0);
        let distances: Vec<u64> = SIZES.iter().map(|size| lowest / size * size).collect();
        distances.into_iter().filter(|&distance| distance > 0).any(|distance| {
            let entries: Vec<Entry> = self.entries.iter().map(|&entry| shifted(entry, distance)).collect();
            self.attempt(&entries, self.pool_words)
        })
    }

    fn shorten_pool(&mut self) -> bool {
        let length = self.pool_words;
        let halves = [length / 2, length - length / 4, length - length.min(100), length.saturating_sub(1)];
        let shorter = ROOMS.into_iter().chain(halves).filter(|&words| words < length);
        shorter.into_iter().any(|words| self.attempt(&self.entries.clone(), words))
    }

    /// What every judge says to the last entry, where they agree on all before it.
    fn last_answers(&self) -> Vec<(&'static str, String)> {
        let Some((&last, earlier)) = self.entries.split_last() else { return Vec::new() };
        let Ok(mut bench) = Bench::new(self.candidate, self.pool_words) else { return Vec::new() };
        if earlier.iter().any(|&entry| bench.step(entry).is_err()) {
            return Vec::new();
        }
        bench.ask_all(last)
    }
}

/// By what a journal is smaller than another: fewer entries, smaller numbers in them, a shorter pool.
fn weight(entries: &[Entry], pool_words: usize) -> (usize, u128, usize) {
    let numbers = entries.iter().map(|&entry| match entry {
        Entry::Seed { start, end } => u128::from(start) + u128::from(end),
        Entry::Acquire { code } => u128::from(code),
        Entry::Release { base, code } => u128::from(base) + u128::from(code),
        Entry::Report => 0,
    });
    (entries.len(), numbers.sum(), pool_words)
}

/// Entries that are simpler than one, the simplest first.
fn simpler(entry: Entry) -> Vec<Entry> {
    match entry {
        Entry::Seed { start, end } => simpler_seeds(start, end),
        Entry::Acquire { code } => (0..code.min(7)).map(|code| Entry::Acquire { code }).collect(),
        Entry::Release { base, code } => {
            let mut entries: Vec<Entry> = (0..code.min(7)).map(|code| Entry::Release { base, code }).collect();
            if base > 0 {
                entries.push(Entry::Release { base: 0, code });
            }
            entries
        }
        Entry::Report => Vec::new(),
    }
}

/// Seeds of a shorter region at the same start, or of one as long at 0.
fn simpler_seeds(start: u64, end: u64) -> Vec<Entry> {
    let Some(length) = end.checked_sub(start).filter(|&length| length > 0) else { return Vec::new() };
    let half = length / 2 / FRAME * FRAME;
    let lengths = SIZES.into_iter().chain([half, length - length.min(FRAME)]);
    let shorter = lengths.filter(|&shorter| 0 < shorter && shorter < length);
    let mut entries: Vec<Entry> = shorter.map(|shorter| Entry::Seed { start, end: start + shorter }).collect();
    if start > 0 {
        entries.push(Entry::Seed { start: 0, end: length });
    }
    entries
}

/// An entry whose addresses are lower by a distance.
fn shifted(entry: Entry, distance: u64) -> Entry {
    match entry {
        Entry::Seed { start, end } => {
            Entry::Seed { start: start.saturating_sub(distance), end: end.saturating_sub(distance) }
        }
        Entry::Release { base, code } => Entry::Release { base: base.saturating_sub(distance), code },
        other => other,
    }
}
