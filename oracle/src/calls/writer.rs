//! The bytes of a list.

use super::{Ask, SPARE};
use crate::damage::Damaged;
use crate::store::{Call, State};
use std::collections::BTreeMap;

/// The field that stands for the pool's length, behind used, the starts and the ends.
pub const LENGTH: usize = 17;

/// How many word changes a damaged store has at most.
pub const MOST_CHANGES: usize = 255;

/// The longest pool of a damaged store.
const LONGEST: usize = 400_000;

/// A list in the making, the base store that its next damages change, and what it holds.
#[derive(Default)]
pub struct Writer {
    pub bytes: Vec<u8>,
    base: (State, Vec<u32>),
    /// Whether damaged stores are asked questions at the moment.
    asking: bool,
    /// Whether calls get a line at the moment.
    loud: bool,
    /// How many damaged stores there are.
    pub damaged: u64,
    /// How many damaged stores have a kind of damage as their last, so that no other hides it, by its place in the table.
    pub kinds: BTreeMap<usize, u64>,
    /// How many calls there are, and how many of them get a line.
    pub calls: u64,
    pub lines: u64,
}

/// What turns the base store into a damaged one: masks by their places, and by their fields.
struct Difference {
    words: Vec<(u64, u64)>,
    fields: Vec<(u64, u64)>,
}

impl Writer {
    /// A base store with its name.
    pub fn base(&mut self, name: &str, store: &Damaged) {
        self.base = (store.state, store.pool.clone());
        (self.asking, self.loud) = (false, false);
        self.name(1, name);
        self.number(store.pool.len() as u64);
        self.numbers(&fields(store.state));
        let runs: Vec<&[u32]> = store.pool.chunk_by(|one, next| one == next).collect();
        self.number(runs.len() as u64);
        for run in runs {
            self.numbers(&[run.len() as u64, u64::from(run[0])]);
        }
        self.calls += 1;
    }

    /// A damaged store and the kinds of its damages; no, and nothing is written, where it takes more word changes than
    /// given, or no record can hold it.
    pub fn damaged(&mut self, store: &Damaged, kinds: &[usize], changes: usize) -> bool {
        let Some(difference) = self.difference(store, changes.min(MOST_CHANGES)) else { return false };
        self.bytes.push(2);
        self.numbers(&[difference.words.len() as u64, difference.fields.len() as u64]);
        for (place, mask) in difference.words.into_iter().chain(difference.fields) {
            self.numbers(&[place, mask]);
        }
        self.judged(1);
        if let Some(&last) = kinds.last() {
            *self.kinds.entry(last).or_default() += 1;
        }
        true
    }

    /// A change of each of so many words by a mask, one after the other.
    pub fn sweep(&mut self, mask: u32, first: usize, count: usize) {
        self.bytes.push(3);
        self.numbers(&[u64::from(mask), first as u64, count as u64]);
        self.judged(count as u64);
    }

    fn judged(&mut self, stores: u64) {
        self.damaged += stores;
        self.calls += if self.asking { 6 * stores } else { stores };
    }

    /// The base store, checked so often.
    pub fn repetition(&mut self, times: u32) {
        self.bytes.push(4);
        self.number(u64::from(times));
    }

    /// What damaged stores are asked from here on: a seed, an acquire and a release, or nothing.
    pub fn questions(&mut self, calls: &[Call]) {
        self.asking = !calls.is_empty();
        self.bytes.push(5);
        self.number(u64::from(self.asking));
        let (mut seeded, mut code, mut released) = ((0, 0), 0, (0, 0));
        for &call in calls {
            match call {
                Call::Seed { start, end } => seeded = (start, end),
                Call::Acquire { code: wanted } => code = wanted,
                Call::Release { base, code } => released = (base, code),
                Call::Report => {}
            }
        }
        self.address(seeded.0);
        self.address(seeded.1);
        self.number(code);
        self.address(released.0);
        self.number(released.1);
    }

    /// A journal on a pool of so many words, which grow by a step from the first on.
    pub fn begin(&mut self, name: &str, loud: bool, length: usize, (first, step): (u32, u32)) {
        self.loud = loud;
        self.name(6, name);
        self.numbers(&[u64::from(loud), length as u64, u64::from(first), u64::from(step)]);
    }

    /// A field changed by a mask.
    pub fn field(&mut self, field: usize, mask: u64) {
        self.bytes.push(7);
        self.numbers(&[field as u64, mask]);
    }

    /// A word of the pool set.
    pub fn word(&mut self, place: usize, word: u32) {
        self.bytes.push(8);
        self.numbers(&[place as u64, u64::from(word)]);
    }

    /// The end of a store or a journal.
    pub fn end(&mut self) {
        self.bytes.push(9);
    }

    /// A call.
    pub(super) fn ask(&mut self, ask: Ask) {
        self.calls += 1;
        self.lines += u64::from(self.loud);
        match ask {
            Ask::Fresh => self.bytes.push(10),
            Ask::Check => self.bytes.push(15),
            Ask::Other(Call::Report) => self.bytes.push(14),
            Ask::Other(Call::Seed { start, end }) => {
                self.bytes.push(11);
                self.address(start);
                self.address(end);
            }
            Ask::Other(Call::Acquire { code }) => {
                self.bytes.push(12);
                self.number(code);
            }
            Ask::Other(Call::Release { base, code }) => {
                self.bytes.push(13);
                self.address(base);
                self.number(code);
            }
        }
    }

    /// The difference from the base store, if it takes so few word changes and a record can hold it. Words behind the
    /// base store's pool may be any: the array has there what earlier stores left, so that none of them may be used.
    fn difference(&self, store: &Damaged, changes: usize) -> Option<Difference> {
        let (state, pool) = &self.base;
        if store.live() > pool.len() || store.pool.len() > LONGEST {
            return None;
        }
        let masks = pool.iter().zip(&store.pool).map(|(before, after)| u64::from(before ^ after));
        let words: Vec<(u64, u64)> = (0..).zip(masks).filter(|&(_, mask)| mask != 0).collect();
        let masks = fields(*state).into_iter().zip(fields(store.state)).map(|(before, after)| before ^ after);
        let masks = masks.chain([(pool.len() ^ store.pool.len()) as u64]);
        let fields: Vec<(u64, u64)> = (0..=LENGTH as u64).zip(masks).filter(|&(_, mask)| mask != 0).collect();
        let in_reach = words.last().is_none_or(|&(place, _)| place < SPARE as u64);
        (in_reach && words.len() <= changes).then_some(Difference { words, fields })
    }

    fn name(&mut self, kind: u8, name: &str) {
        self.bytes.push(kind);
        self.number(name.len() as u64);
        self.bytes.extend(name.bytes());
    }

    fn number(&mut self, number: u64) {
        let mut rest = number;
        while rest >= 128 {
            self.bytes.push((rest % 128) as u8 + 128);
            rest /= 128;
        }
        self.bytes.push(rest as u8);
    }

    fn numbers(&mut self, numbers: &[u64]) {
        for &number in numbers {
            self.number(number);
        }
    }

    fn address(&mut self, address: u64) {
        self.number(address.rotate_right(12));
    }
}

/// Used, the starts and the ends.
fn fields(state: State) -> Vec<u64> {
    [state.used].into_iter().chain(state.starts).chain(state.ends).collect()
}
