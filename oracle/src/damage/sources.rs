//! Sound stores to damage: what a journal of the reference leaves after some of its entries.

use crate::frames::{END, SIZES};
use crate::generate::dice::Dice;
use crate::generate::{Profile, record};
use crate::journal::Entry;
use crate::reference::CALLS;
use crate::store::State;

/// How many entries a journal has.
pub const LENGTH: usize = 40;

/// The used count up to which a store is small.
const SMALL: u64 = 3_000;

/// A journal: one of a profile, or one of few and large blocks, which open little.
#[derive(Clone, Copy, Debug, PartialEq, Eq)]
pub struct Source {
    pub profile: Option<Profile>,
    pub journal: u64,
}

impl Source {
    /// The source that dice fall on.
    pub fn of(dice: &mut Dice) -> Source {
        let profile = dice.chance(1, 2).then(|| dice.pick(Profile::ALL));
        Source { profile, journal: dice.below(1 << 20) }
    }

    pub fn name(self) -> String {
        let profile = self.profile.map_or("large-blocks", Profile::name);
        format!("journal {profile} {}", self.journal)
    }

    fn entries(self) -> Vec<Entry> {
        match self.profile {
            Some(profile) => record(profile, self.journal, LENGTH, CALLS).1,
            None => large_blocks(self.journal),
        }
    }
}

/// What the reference leaves: a state, and the words in use.
type Store = (State, Vec<u32>);

/// The stores after each entry of the journal that was asked for last.
#[derive(Default)]
pub struct Library {
    source: Option<Source>,
    stores: Vec<Store>,
}

impl Library {
    /// The store after so many entries of a journal.
    pub fn store(&mut self, source: Source, length: usize) -> Store {
        if self.source != Some(source) {
            self.stores = stores(&source.entries());
            self.source = Some(source);
        }
        self.stores[length.min(self.stores.len() - 1)].clone()
    }

    /// A length at which the store is small, below the length given if need be.
    pub fn small(&mut self, source: Source, length: usize) -> usize {
        let mut length = length;
        while self.store(source, length).0.used > SMALL {
            length /= 2;
        }
        length
    }
}

/// The fresh store, and the store after each entry, on a pool that no journal fills.
fn stores(entries: &[Entry]) -> Vec<Store> {
    let mut pool = vec![0; 32_768];
    let mut state = (CALLS.fresh)(&mut pool).state;
    let mut stores = vec![(state, pool[..1].to_vec())];
    for &entry in entries {
        state = CALLS.answer(state, &mut pool, entry).state;
        stores.push((state, pool[..state.used as usize].to_vec()));
    }
    stores
}

/// A journal of a few regions made of blocks of one large size, with acquires and releases of that size and above.
fn large_blocks(number: u64) -> Vec<Entry> {
    let mut dice = Dice::new(number, 100);
    let grain = dice.pick(&[6, 5, 5, 5, 5, 4, 4, 3]);
    let bytes = SIZES[grain as usize - 1];
    let mut pool = vec![0; 32_768];
    let mut state = (CALLS.fresh)(&mut pool).state;
    let mut held = Vec::new();
    let mut entries = Vec::new();
    for turn in 0..LENGTH {
        let entry = if turn == 0 || dice.chance(1, 6) {
            let start = if dice.chance(1, 2) { 0 } else { dice.below(END / bytes) * bytes };
            Entry::Seed { start, end: start + bytes * dice.between(1, 3) }
        } else if held.is_empty() || dice.chance(1, 2) {
            Entry::Acquire { code: dice.between(grain.max(2) - 1, (grain + 1).min(6)) as u8 }
        } else {
            let place = dice.below(held.len() as u64) as usize;
            let (base, code) = held.swap_remove(place);
            Entry::Release { base, code }
        };
        let answer = CALLS.answer(state, &mut pool, entry);
        if let (Entry::Acquire { code }, 0) = (entry, answer.refusal) {
            held.push((answer.results[0], code));
        }
        state = answer.state;
        entries.push(entry);
    }
    entries
}
