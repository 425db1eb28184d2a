//! A generator of journals from a profile and a number. The same two give the same journal, as long as the store
//! answers the same: what a store says of each entry decides what the generator believes to be held.

use crate::journal::Entry;
use crate::store::{Answer, Calls, JOURNAL_POOL, State};
use dice::Dice;
use ledger::{Ledger, Page};
use std::collections::VecDeque;

pub mod dice;
mod ledger;
mod plans;
pub(crate) mod room;
mod seeds;
#[cfg(test)]
mod tests;
mod wrong;

/// What a journal is about. Each also asks a report and throws in a wrong entry now and then.
#[derive(Clone, Copy, Debug, PartialEq, Eq)]
pub enum Profile {
    /// One or two regions of 1 to 40 frames, dense acquires and releases of codes 1 and 2.
    FewFrames,
    /// Fill with small pages, release every k-th, ask for larger ones.
    Fragmenting,
    /// Guests that each take a handful of pages of mixed codes and later give all back, in some order.
    Season,
    /// Regions that touch inside one block of 16 KiB to 512 GiB, seeded in any order; pages that straddle them.
    Touching,
    /// One block of 2 MiB to 128 TiB that a last seed or a last release completes over several levels.
    Cascades,
    /// 0, 2^47, 2^63 and 2^64 − 1, and a byte, a page or a block around each, in every argument; codes 0 to 255.
    Limits,
    /// Half the entries are refused on purpose, each of 1 to 8 chosen alike, amid valid traffic.
    Refusals,
    /// Pools of 1 to 4,000 words, and scattered regions whose openings need room; on a longer pool, wide regions.
    DryPools,
    /// Releases of a part of an acquired page, and of several pages joined.
    PartsAndJoins,
}

impl Profile {
    /// Every profile.
    pub const ALL: &[Profile] = &[
        Profile::FewFrames,
        Profile::Fragmenting,
        Profile::Season,
        Profile::Touching,
        Profile::Cascades,
        Profile::Limits,
        Profile::Refusals,
        Profile::DryPools,
        Profile::PartsAndJoins,
    ];

    /// Its name on a command line.
    pub fn name(self) -> &'static str {
        match self {
            Profile::FewFrames => "few-frames",
            Profile::Fragmenting => "fragmenting",
            Profile::Season => "season",
            Profile::Touching => "touching",
            Profile::Cascades => "cascades",
            Profile::Limits => "limits",
            Profile::Refusals => "refusals",
            Profile::DryPools => "dry-pools",
            Profile::PartsAndJoins => "parts-and-joins",
        }
    }

    /// The profile of that name.
    pub fn from_name(name: &str) -> Option<Profile> {
        Profile::ALL.iter().copied().find(|profile| profile.name() == name)
    }

    /// The refusals that occur over some twenty journals of 300 entries.
    pub fn promises(self) -> &'static [u64] {
        match self {
            Profile::Touching | Profile::Refusals => &[1, 2, 3, 4, 5, 6, 7, 8],
            Profile::DryPools => &[1, 2, 3, 4, 6, 7, 8, 9],
            _ => &[1, 2, 3, 4, 6, 7, 8],
        }
    }
}

/// What a profile with phases does at the moment.
#[derive(Clone, Copy, Debug, PartialEq, Eq)]
enum Phase {
    Fill,
    Thin,
    Ask,
    Drain,
}

/// A journal in the making.
#[derive(Clone, Debug)]
pub struct Generator {
    profile: Profile,
    number: u64,
    dice: Dice,
    pool_words: usize,
    /// What the accepted entries come to.
    ledger: Ledger,
    /// The entries that come next.
    planned: VecDeque<Entry>,
    /// The regions that are still to be seeded.
    waiting: VecDeque<(u64, u64)>,
    phase: Phase,
    /// The code that fills a region up.
    fill: u8,
    /// Whether the last acquire of that code was refused.
    full: bool,
    /// The blocks that seeds complete piece by piece.
    scenes: Vec<Page>,
    /// The pages of each guest, the last one to start at the end.
    guests: Vec<Vec<Page>>,
    /// How many guests a season reaches.
    guest_limit: u64,
    /// How many acquires of ten entries the traffic has at the moment.
    tilt: u64,
}

impl Generator {
    /// The journal of a profile and a number.
    pub fn new(profile: Profile, number: u64) -> Generator {
        let mut generator = Generator::unprepared(profile, number);
        generator.choose_pool();
        generator.prepare();
        generator
    }

    /// The same on a pool of a given length in place of the profile's own.
    pub fn on_pool(profile: Profile, number: u64, pool_words: usize) -> Generator {
        let mut generator = Generator { pool_words, ..Generator::unprepared(profile, number) };
        generator.prepare();
        generator
    }

    fn unprepared(profile: Profile, number: u64) -> Generator {
        Generator {
            profile,
            number,
            dice: Dice::new(number, profile as u64),
            pool_words: JOURNAL_POOL,
            ledger: Ledger::default(),
            planned: VecDeque::new(),
            waiting: VecDeque::new(),
            phase: Phase::Fill,
            fill: 1,
            full: false,
            scenes: Vec::new(),
            guests: Vec::new(),
            guest_limit: 0,
            tilt: 7,
        }
    }

    /// The length of the pool that the journal runs on.
    pub fn pool_words(&self) -> usize {
        self.pool_words
    }

    /// The next entry.
    #[allow(clippy::should_implement_trait)]
    pub fn next(&mut self) -> Entry {
        if self.dice.chance(1, 25) {
            return Entry::Report;
        }
        if self.dice.chance(1, 25) {
            return self.wrong();
        }
        if self.planned.is_empty() {
            self.plan();
        }
        self.planned.pop_front().unwrap_or(Entry::Report)
    }

    /// Learns what the store says of an entry.
    pub fn answered(&mut self, entry: Entry, answer: &Answer) {
        if entry == (Entry::Acquire { code: self.fill }) {
            self.full = answer.refusal != 0;
        }
        if answer.refusal != 0 {
            return;
        }
        match entry {
            Entry::Seed { start, end } => self.ledger.seeded(start, end),
            Entry::Acquire { code } => {
                let page = Page { base: answer.results.first().copied().unwrap_or(0), code };
                if page.valid() {
                    self.ledger.acquired(page);
                    if let Some(guest) = self.guests.last_mut() {
                        guest.push(page);
                    }
                }
            }
            Entry::Release { base, code } => self.ledger.released(Page { base, code }),
            Entry::Report => {}
        }
    }
}

/// Runs a store on the journal of a profile and a number, and gives the pool's length, the entries, and the state they
/// leave.
pub fn record(profile: Profile, number: u64, length: usize, calls: Calls) -> (usize, Vec<Entry>, State) {
    let mut generator = Generator::new(profile, number);
    let mut pool = vec![0; generator.pool_words()];
    let mut state = (calls.fresh)(&mut pool).state;
    let mut entries = Vec::new();
    for _ in 0..length {
        let entry = generator.next();
        let answer = calls.answer(state, &mut pool, entry);
        generator.answered(entry, &answer);
        state = answer.state;
        entries.push(entry);
    }
    (pool.len(), entries, state)
}
