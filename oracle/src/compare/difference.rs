//! Where judges differ, in plain words.

use crate::frames;
use crate::journal::Entry;
use crate::original;
use crate::store::{Answer, REGIONS, State};
use std::fmt;

/// The first thing in which judges differ on a journal.
#[derive(Clone, Debug, PartialEq, Eq)]
pub struct Difference {
    /// The number of the last entry that is run, counted from 1; 0 where none is.
    pub number: usize,
    /// That entry.
    pub entry: Option<Entry>,
    /// What is compared.
    pub matter: String,
    /// The judges that differ, and what each says.
    pub said: Vec<(&'static str, String)>,
}

impl fmt::Display for Difference {
    fn fmt(&self, formatter: &mut fmt::Formatter) -> fmt::Result {
        match self.entry {
            Some(entry) => write!(formatter, "entry {}, {}: {}", self.number, wording(entry), self.matter)?,
            None => write!(formatter, "before the first entry: {}", self.matter)?,
        }
        for (judge, words) in &self.said {
            write!(formatter, "\n  {judge}: {words}")?;
        }
        Ok(())
    }
}

/// An entry as a line of text, addresses in base 16, sizes by code.
pub fn wording(entry: Entry) -> String {
    entry.line(|code| code.to_string())
}

/// A refusal number and results.
pub fn refusal_and_results(refusal: u64, results: &[u64]) -> String {
    let mut words = format!("refusal {refusal}");
    if !results.is_empty() {
        words += ", results";
    }
    for result in results {
        words += &format!(" {result}");
    }
    words
}

/// A refusal number and results of a call.
pub fn of_answer(answer: &Answer) -> String {
    refusal_and_results(answer.refusal, &answer.results)
}

/// What the store over frames says.
pub fn of_frames(told: &frames::Told) -> String {
    refusal_and_results(told.refusal, &told.results)
}

/// What the original says.
pub fn of_original(told: original::Told) -> String {
    match told {
        original::Told::Answered { refusal, base } => format!("refusal {refusal}, base {base}"),
        original::Told::Panicked => "an assert fails".to_string(),
        original::Told::Outside => "outside its calls".to_string(),
    }
}

/// A state: the used count, and each region place that is not zero.
pub fn of_state(state: State) -> String {
    let mut words = format!("used {}", state.used);
    for place in 0..REGIONS {
        let (start, end) = (state.starts[place], state.ends[place]);
        if (start, end) != (0, 0) {
            words += &format!(", region {} {start:#x} to {end:#x}", place + 1);
        }
    }
    words
}

/// The first word of the one that differs from that of the other, and how many do.
pub fn of_words(one: &[u32], other: &[u32]) -> String {
    let differing = || (0..one.len()).filter(|&place| one.get(place) != other.get(place));
    match differing().next() {
        Some(first) => format!("word {first} is {} ({} words differ)", one[first], differing().count()),
        None => format!("{} words", one.len()),
    }
}

/// Ranges of bytes, a start and an end each.
pub fn of_ranges(ranges: &[(u64, u64)]) -> String {
    let words: Vec<String> = ranges.iter().map(|range| format!("{:#x} to {:#x}", range.0, range.1)).collect();
    if words.is_empty() { "none".to_string() } else { words.join(", ") }
}
