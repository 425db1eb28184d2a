//! Base stores and damaged ones for a list (`calls`), each with its verdict, and most with calls beside it. `times` has
//! stores whose check is timed.

use super::Damaged;
use super::calls_on;
use super::kinds::KINDS;
use super::sources::{LENGTH, Library, Source};
use crate::calls::writer::{MOST_CHANGES, Writer};
use crate::generate::Profile;
use crate::generate::dice::Dice;
use crate::journal::{Entry, acquire, release, seed};
use crate::reference::{CALLS, new_node, pack};
use crate::store::{JOURNAL_POOL, State};

#[cfg(test)]
mod tests;
mod times;

pub use times::{by_program, list as times_list, table as times_table};

/// Masks that change one field of a word: max, token, level, link; and one for token and max together.
const MASKS: [u32; 12] = [1, 2, 4, 7, 8, 9, 16, 32, 64, 128, 256, 131_072];

/// How many base stores come from journals of one profile.
const FROM_ONE_PROFILE: usize = 5;

/// How many damaged stores of all kinds a base store gets.
const DAMAGES: usize = 152;

/// How many damaged stores it gets by kinds that often leave it sound.
const HARMLESS_DAMAGES: usize = 24;

/// How many words on each side of used are swept.
const AROUND: usize = 32;

/// Codes of the new nodes that lie behind used, so that a block appended there changes few words; 0 stands for any
/// words, and for few of them.
const BEHIND: [usize; 6] = [2, 0, 4, 2, 3, 5];

/// How many new nodes lie behind used.
const SPARE: usize = 700;

/// How many words of any kind lie there instead.
const ANY_SPARE: usize = 24;

/// How many word changes a damage may have at first, so that the list stays short.
const FEW_CHANGES: usize = 24;

/// After how many throws of the dice it may have more.
const FEW_THROWS: usize = 18;

/// A kind that fits few stores; each gets two more of it.
const RARE: &str = "token two levels below a token";

/// Kinds that often leave a store sound.
const HARMLESS: [&str; 8] = [
    "token taken, maxima follow",
    "node opened",
    "touching region added",
    "region split in two",
    "regions reordered",
    "pool cut to used",
    "pool longer",
    "words from used on changed",
];

/// The kinds that make a pool of their own; they fit only a base store that is much like it.
const POOLS: [&str; 4] =
    ["pool of 771 words", "pool of 771 words, swept", "pool of 1,284 words", "pool of 1,284 words with a cycle"];

/// How many damaged stores each of these pools gets besides its sweeps.
const POOL_DAMAGES: usize = 56;

/// How often dice are thrown anew where a damage does not apply, or does not fit into a record.
const THROWS: usize = 36;

/// How many damaged stores in turn are asked the same questions.
const SAME_QUESTIONS: usize = 4;

/// Of so many sweeps and groups of damaged stores one is asked nothing.
const UNASKED: u64 = 3;

/// Writes all base stores and damaged ones.
pub fn write(writer: &mut Writer) {
    write_document(writer);
    for name in POOLS {
        write_pool(writer, name);
    }
    for (number, (name, mut store)) in journal_stores().into_iter().enumerate() {
        let used = store.pool.len();
        append_spare(&mut store, number);
        writer.base(&name, &store);
        write_damages(writer, &store, number);
        write_questions(writer, &store, number as u64);
        write_sweep_around(writer, &store, used, number);
        writer.end();
    }
}

/// One call of each kind for the stores that follow, or none, by a number.
fn write_questions(writer: &mut Writer, store: &Damaged, number: u64) {
    let asked = calls_on(store, number, 700);
    writer.questions(if number % UNASKED == UNASKED - 1 { &[] } else { &asked });
}

/// The store that the document's journal leaves, and single-field damage of every word.
fn write_document(writer: &mut Writer) {
    let store = document();
    let words = store.pool.len();
    writer.base("the document's journal", &store);
    for (number, mask) in MASKS.into_iter().enumerate() {
        write_questions(writer, &store, number as u64);
        writer.sweep(mask, 0, words);
    }
    writer.end();
}

/// What the document's journal leaves on a pool that is used whole.
fn document() -> Damaged {
    let base = 2_147_483_648;
    let seeded = [seed(base, base + 24_576), acquire(1), acquire(2), acquire(1)];
    let entries = seeded.into_iter().chain([release(base, 1), release(base, 1), Entry::Report]);
    let mut pool = vec![0; JOURNAL_POOL];
    let mut state = (CALLS.fresh)(&mut pool).state;
    for entry in entries {
        state = CALLS.answer(state, &mut pool, entry).state;
    }
    pool.truncate(state.used as usize);
    Damaged { state, pool, what: String::new() }
}

/// A pool made by the kind of that name, swept, and damaged.
fn write_pool(writer: &mut Writer, name: &str) {
    let mut store = Damaged { state: State::default(), pool: Vec::new(), what: String::new() };
    store.damage((kind(name), 1));
    let words = store.pool.len();
    writer.base(name, &store);
    writer.sweep(8, 0, words);
    write_questions(writer, &store, 0);
    writer.sweep(128, 0, words);
    let all: Vec<usize> = (0..KINDS.len()).collect();
    let mut dice = Dice::new(words as u64, kind(name) as u64);
    for turn in 0..POOL_DAMAGES {
        write_damage(writer, &store, kind(POOLS[turn % POOLS.len()]), &all, &mut dice);
    }
    writer.end();
}

/// The place of the kind of that name.
fn kind(name: &str) -> usize {
    KINDS.iter().position(|kind| kind.0 == name).expect("a kind of damage")
}

/// The fresh store, and small ones from journals of all profiles and of large blocks, with their names.
fn journal_stores() -> Vec<(String, Damaged)> {
    let state = State { used: 1, ..State::default() };
    let fresh = Damaged { state, pool: vec![pack(new_node(6))], what: String::new() };
    let profiles = Profile::ALL.iter().copied().map(Some).chain([None]);
    let others = profiles.flat_map(|profile| stores_of(profile, &mut Library::default()));
    [("fresh".to_string(), fresh)].into_iter().chain(others).collect()
}

/// The first journals of a profile that leave more than the root.
fn stores_of(profile: Option<Profile>, library: &mut Library) -> Vec<(String, Damaged)> {
    let mut stores = Vec::new();
    let mut journal = 0;
    while stores.len() < FROM_ONE_PROFILE {
        journal += 1;
        let source = Source { profile, journal };
        let wished = Dice::new(journal, 300).between(6, LENGTH as u64) as usize;
        let length = library.small(source, wished);
        let (state, pool) = library.store(source, length);
        if state.used > 1 {
            let name = format!("{}, {length} entries", source.name());
            stores.push((name, Damaged { state, pool, what: String::new() }));
        }
    }
    stores
}

/// Words behind used, in runs.
fn append_spare(store: &mut Damaged, number: usize) {
    let code = BEHIND[number % BEHIND.len()];
    if code > 0 {
        store.pool.resize(store.pool.len() + SPARE, pack(new_node(code)));
        return;
    }
    let mut dice = Dice::new(number as u64, 400);
    let end = store.pool.len() + ANY_SPARE;
    while store.pool.len() < end {
        let run = (dice.between(1, 8) as usize).min(end - store.pool.len());
        store.pool.resize(store.pool.len() + run, dice.roll() as u32);
    }
}

/// Damages of all kinds in turn, the next base store going on where this one ends; then rare and harmless ones.
fn write_damages(writer: &mut Writer, base: &Damaged, number: usize) {
    let all: Vec<usize> = (0..KINDS.len()).collect();
    let mut dice = Dice::new(number as u64, 500);
    for turn in number * DAMAGES..(number + 1) * DAMAGES {
        if turn % SAME_QUESTIONS == 0 {
            write_questions(writer, base, (turn / SAME_QUESTIONS) as u64);
        }
        write_damage(writer, base, all[turn % all.len()], &all, &mut dice);
    }
    for _ in 0..2 {
        write_damage(writer, base, kind(RARE), &all, &mut dice);
    }
    let harmless = HARMLESS.map(kind);
    for turn in 0..HARMLESS_DAMAGES {
        write_questions(writer, base, (number * HARMLESS_DAMAGES + turn) as u64);
        write_damage(writer, base, harmless[turn % harmless.len()], &harmless, &mut dice);
    }
}

/// One damage of a kind, often with others behind it; nothing where no throw of the dice makes one that fits.
fn write_damage(writer: &mut Writer, base: &Damaged, first: usize, others: &[usize], dice: &mut Dice) {
    for throw in 0..THROWS {
        let changes = if throw < FEW_THROWS { FEW_CHANGES } else { MOST_CHANGES };
        let mut store = base.clone();
        let mut kinds = Vec::new();
        for turn in 0..dice.pick(&[1, 1, 1, 2, 2, 3]) {
            let kind = if turn == 0 { first } else { dice.pick(others) };
            if store.damage((kind, dice.roll())) {
                kinds.push(kind);
            }
        }
        if kinds.first() == Some(&first) && writer.damaged(&store, &kinds, changes) {
            return;
        }
    }
}

/// One change of each of the last words that are used and of the first that are not.
fn write_sweep_around(writer: &mut Writer, store: &Damaged, used: usize, number: usize) {
    let first = used.saturating_sub(AROUND);
    let end = (used + AROUND).min(store.pool.len());
    writer.sweep(MASKS[number % MASKS.len()], first, end - first);
}
