//! Journals of every profile on pools that are roomy, that just fit, and that run dry; and one that opens much.

use super::Ask;
use super::writer::Writer;
use crate::frames::SIZES;
use crate::generate::dice::Dice;
use crate::generate::{Profile, record};
use crate::journal::Entry;
use crate::reference::CALLS;
use crate::store::{Call, POOL_LIMIT};
use std::thread;

/// How many entries journals have, by their number. Five lengths, as the generator turns on numbers by 2, 3 and 4.
const LENGTHS: [usize; 5] = [150, 600, 300, 1_200, 50];

/// How many journals of each profile the mass has.
const JOURNALS: u64 = 70;

/// How many entries a journal has whose calls get a line.
const SAMPLE: usize = 240;

/// How many entries a journal has that runs on a pool of the limit's length.
const ON_THE_LONGEST: usize = 40;

/// After how many entries the store is checked.
const CHECKED: usize = 12;

/// A journal, and the pool that it runs on.
struct Journal {
    name: String,
    entries: Vec<Entry>,
    pool_words: usize,
    words: (u32, u32),
}

/// One journal of each profile, each call with a line.
pub fn write_sample(writer: &mut Writer) {
    for &profile in Profile::ALL {
        write(writer, &journal(profile, 0, SAMPLE), true);
    }
}

/// All others: the mass, one of each profile on the longest pool, and one that opens much.
pub fn write_mass(writer: &mut Writer) {
    let journals: Vec<Vec<Journal>> = thread::scope(|scope| {
        let of_one = |&profile: &Profile| scope.spawn(move || mass_of(profile));
        let threads: Vec<_> = Profile::ALL.iter().map(of_one).collect();
        threads.into_iter().map(|thread| thread.join().expect("journals")).collect()
    });
    for journal in journals.iter().flatten() {
        write(writer, journal, false);
    }
    write(writer, &opening_much(), false);
}

fn mass_of(profile: Profile) -> Vec<Journal> {
    let length = |number: u64| LENGTHS[(number % LENGTHS.len() as u64) as usize];
    let mut journals: Vec<Journal> = (1..=JOURNALS).map(|number| journal(profile, number, length(number))).collect();
    let mut long = journal(profile, JOURNALS + 1, ON_THE_LONGEST);
    long.pool_words = POOL_LIMIT;
    long.name = format!("{} {}, the longest pool", profile.name(), JOURNALS + 1);
    journals.push(long);
    journals
}

/// A journal of the generator; by its number on the generator's pool, on one that it fills to the last word, or on a
/// shorter one.
fn journal(profile: Profile, number: u64, length: usize) -> Journal {
    let (roomy, entries, state) = record(profile, number, length, CALLS);
    let mut dice = Dice::new(number, 600 + profile as u64);
    let used = state.used;
    let pool_words = match number % 4 {
        1 => used as usize,
        2 => used.saturating_sub(1).max(1) as usize,
        3 => dice.between(used / 2 + 1, used) as usize,
        _ => roomy,
    };
    let any = dice.roll();
    let words = match dice.below(4) {
        0 => (0, 0),
        1 => (0xdead_beef, 0),
        _ => (any as u32, (any >> 32) as u32),
    };
    Journal { name: format!("{} {number}, {pool_words} words", profile.name()), entries, pool_words, words }
}

/// A held block of 1 GiB, of which one frame of each 2 MiB comes back, then acquires and releases.
fn opening_much() -> Journal {
    let base = SIZES[3];
    let held = [Entry::Seed { start: base, end: 2 * base }, Entry::Acquire { code: 4 }];
    let frame = |place: u64| Entry::Release { base: base + place * SIZES[2] + place * SIZES[0], code: 1 };
    let frames = (0..512).map(frame);
    let again = (0..60).flat_map(|_| [Entry::Acquire { code: 1 }, Entry::Acquire { code: 2 }, Entry::Report]);
    let entries = held.into_iter().chain(frames).chain(again).collect();
    Journal { name: "opening much".to_string(), entries, pool_words: POOL_LIMIT, words: (7, 11) }
}

/// Fresh, the entries with checks between, a report and a check.
fn write(writer: &mut Writer, journal: &Journal, loud: bool) {
    writer.begin(&journal.name, loud, journal.pool_words, journal.words);
    writer.ask(Ask::Fresh);
    for (place, &entry) in journal.entries.iter().enumerate() {
        writer.ask(Ask::Other(entry.into()));
        if place % CHECKED == CHECKED - 1 {
            writer.ask(Ask::Check);
        }
    }
    writer.ask(Ask::Other(Call::Report));
    writer.ask(Ask::Check);
    writer.end();
}
