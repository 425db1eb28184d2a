//! The printed lines of a journal: the reference's program reads the bytes by itself, and here the lines come from
//! the entries that `journal` reads.

use super::Difference;
use super::bench::Bench;
use crate::generate::dice::Dice;
use crate::generate::{Profile, record};
use crate::guard::guarded;
use crate::journal::{Entry, decode, encode};
use crate::reference;
use crate::store::{Answer, Calls, JOURNAL_POOL};

/// How many entries the journal has that is read after every cut.
const CUT_ENTRIES: usize = 16;

/// How many bytes the random journals have at most.
const RANDOM_BYTES: u64 = 64;

/// How many random journals there are of each length.
pub const RANDOM_JOURNALS: u64 = 8;

/// The line of an entry.
pub fn line(number: usize, entry: Entry, answer: &Answer) -> String {
    let mut line = format!("{number} {} {}", entry.name(), answer.refusal);
    for result in &answer.results {
        line += &format!(" {result}");
    }
    line + "\n"
}

/// The lines that a store's answers to a journal make.
pub fn lines(calls: Calls, bytes: &[u8]) -> String {
    let (entries, bad) = decode(bytes);
    let mut pool = vec![0; JOURNAL_POOL];
    let mut state = (calls.fresh)(&mut pool).state;
    let mut lines = format!("pool {JOURNAL_POOL}\n");
    for (index, &entry) in entries.iter().enumerate() {
        let answer = calls.answer(state, &mut pool, entry);
        lines += &line(index + 1, entry, &answer);
        state = answer.state;
    }
    if let Some(bad) = bad {
        lines += &format!("{} bad {}\n", entries.len() + 1, bad.refusal());
    }
    lines
}

impl Bench {
    /// The journal's bytes give its entries back, and the reference's program prints the lines of the answers.
    pub(super) fn compare_lines(&self) -> Result<(), Difference> {
        let bytes = encode(&self.entries);
        let (entries, bad) = decode(&bytes);
        let same = entries == self.entries && bad.is_none();
        let said = || vec![("journal", format!("{} entries, ended by {bad:?}", entries.len()))];
        self.expect(same, "reading what is written", said)?;
        let printed = guarded(|| reference::replay(&bytes)).map_err(|text| self.panicked("reference", text))?;
        let said = || differing_lines(&printed, &self.lines);
        self.expect(printed == self.lines, "the printed lines", said)
    }
}

/// The number of the first line in which two texts differ, counted from 0, and what each has there.
pub fn first_differing(one: &str, other: &str) -> (usize, String, String) {
    let lines = |text| str::split_inclusive(text, '\n');
    let same = lines(one).zip(lines(other)).take_while(|pair| pair.0 == pair.1).count();
    let of = |text| lines(text).nth(same).map_or("no more lines".to_string(), |line| format!("{line:?}"));
    (same, of(one), of(other))
}

/// The first line in which the reference's program and the answers differ.
fn differing_lines(printed: &str, answers: &str) -> Vec<(&'static str, String)> {
    let (_, printed, answers) = first_differing(printed, answers);
    vec![("reference's program", printed), ("lines of the answers", answers)]
}

/// The reference's program prints for any bytes what the entries read from them make.
pub fn compare_printed(bytes: &[u8]) -> Result<(), Difference> {
    let difference = |matter: &str, said| {
        let (entries, _) = decode(bytes);
        let entry = entries.last().copied();
        Difference { number: entries.len(), entry, matter: matter.to_string(), said }
    };
    let panicked = |text| difference("a judge panics", vec![("reference", text)]);
    let printed = guarded(|| reference::replay(bytes)).map_err(panicked)?;
    let answers = guarded(|| lines(reference::CALLS, bytes)).map_err(panicked)?;
    if printed == answers { Ok(()) } else { Err(difference("the printed lines", differing_lines(&printed, &answers))) }
}

/// Compares the two readings on every cut of a journal of each profile, and on random bytes of every length. Gives
/// how many were read; a difference comes with its bytes.
pub fn compare_readings(number: u64) -> Result<u64, (Difference, Vec<u8>)> {
    let mut read = 0;
    for bytes in cut_journals(number).into_iter().chain(random_journals(number, RANDOM_JOURNALS)) {
        compare_printed(&bytes).map_err(|difference| (difference, bytes))?;
        read += 1;
    }
    Ok(read)
}

/// Every cut of a journal of each profile.
pub fn cut_journals(number: u64) -> Vec<Vec<u8>> {
    let mut cuts = Vec::new();
    for &profile in Profile::ALL {
        let bytes = encode(&record(profile, number, CUT_ENTRIES, reference::CALLS).1);
        cuts.extend((0..=bytes.len()).map(|length| bytes[..length].to_vec()));
    }
    cuts
}

/// Random bytes, so many journals of every length; in half of the journals most bytes are kinds, so that more than the
/// first entry is read.
pub fn random_journals(number: u64, count: u64) -> Vec<Vec<u8>> {
    let mut dice = Dice::new(number, RANDOM_BYTES);
    let mut journals = Vec::new();
    for length in 0..=RANDOM_BYTES {
        for journal in 0..count {
            let kinds = journal % 2 == 0;
            let bytes = (0..length).map(|_| if kinds && dice.chance(4, 5) { dice.below(6) } else { dice.below(256) });
            journals.push(bytes.map(|byte| byte as u8).collect());
        }
    }
    journals
}
