//! What a run is about.

use super::bench::Bench;
use super::candidate::Candidate;
use super::numbers::{any, ask};
use super::pools::{self, Store};
use super::watch::Watch;
use super::{Run, Tally};
use crate::ask::Ask;
use oracle::damage::{Library, Recipe};
use oracle::generate::dice::Dice;
use oracle::generate::{Generator, Profile};
use oracle::store::{POOL_LIMIT, REGIONS, State};

/// What a run is about.
#[derive(Clone, Copy, Debug, PartialEq, Eq)]
pub enum Mix {
    /// A sound store that calls lead on from fresh.
    InUse,
    /// A sound store with one damage or a few.
    Damaged,
    /// Any state over any words; some are sound.
    Random,
    /// The state of one store over the pool of another.
    Foreign,
    /// Pools of as many words as the limit, and a word less or more.
    AtTheLimit,
    /// Lengths above the limit where no such words are.
    NoWords,
}

/// How many stores a source has before another one is taken.
const FROM_ONE_SOURCE: u64 = 64;

/// One run in so many is at the limit: such pools take long to compare.
const SELDOM: u64 = 500;

impl Mix {
    /// Every mix, in the order of the table.
    pub const ALL: [Mix; 6] = [Mix::InUse, Mix::Damaged, Mix::Random, Mix::Foreign, Mix::AtTheLimit, Mix::NoWords];

    /// The mix of a run at a place.
    pub fn of(place: u64) -> Mix {
        match place % 25 {
            _ if place % SELDOM == 20 => Mix::AtTheLimit,
            0..=9 => Mix::InUse,
            10..=15 => Mix::Damaged,
            16..=19 => Mix::Random,
            20..=23 => Mix::Foreign,
            _ => Mix::NoWords,
        }
    }

    /// Its name in the table.
    pub fn name(self) -> &'static str {
        match self {
            Mix::InUse => "in use",
            Mix::Damaged => "damaged",
            Mix::Random => "random",
            Mix::Foreign => "foreign",
            Mix::AtTheLimit => "at the limit",
            Mix::NoWords => "no words",
        }
    }
}

/// Makes the calls of a run; gives what was counted, or what differs.
pub fn run(candidate: &Candidate, number: u64, run: Run, watch: &Watch) -> Result<Tally, String> {
    let mut bench = Bench::new(candidate, number, run, watch);
    let outcome = match run.mix {
        Mix::InUse => in_use(&mut bench),
        Mix::Damaged => damaged(&mut bench, number, run.place),
        Mix::Foreign => foreign(&mut bench),
        Mix::AtTheLimit => at_the_limit(&mut bench),
        Mix::NoWords if candidate.any_length => no_words(&mut bench),
        Mix::Random | Mix::NoWords => random(&mut bench),
    };
    let tally = bench.close();
    outcome.map(|()| tally)
}

/// Some calls with any numbers on the store that is there, then perhaps fresh.
fn asks(bench: &mut Bench, most: u64) -> Result<(), String> {
    for _ in 0..bench.dice.between(1, most) {
        if bench.spent() {
            return Ok(());
        }
        let next = ask(&mut bench.dice, bench.state);
        bench.ask(next)?;
    }
    if bench.dice.chance(1, 8) && !bench.spent() {
        bench.ask(Ask::Fresh)?;
    }
    Ok(())
}

/// Lives of stores, one after the other, some in the pool that another one leaves.
fn in_use(bench: &mut Bench) -> Result<(), String> {
    while !bench.spent() {
        if bench.length() == 0 || bench.dice.chance(2, 3) {
            let length = pools::length(&mut bench.dice);
            let words = pools::words(&mut bench.dice, length);
            bench.put(State::default(), &words);
        }
        let calls = bench.dice.between(20, 250);
        life(bench, calls)?;
    }
    Ok(())
}

/// A store from fresh on: a journal's entries, and calls with any numbers between them.
fn life(bench: &mut Bench, calls: u64) -> Result<(), String> {
    bench.ask(Ask::Fresh)?;
    let mut generator = Generator::new(bench.dice.pick(Profile::ALL), bench.dice.below(1 << 20));
    for _ in 0..calls {
        if bench.spent() {
            return Ok(());
        }
        let next = match bench.dice.below(10) {
            0 => Ask::Check,
            1 | 2 => ask(&mut bench.dice, bench.state),
            _ => generator.next().into(),
        };
        let answer = bench.ask(next)?;
        if let Some(entry) = next.entry() {
            generator.answered(entry, &answer);
        }
    }
    Ok(())
}

/// Stores that the judges damage, and a few calls on each.
fn damaged(bench: &mut Bench, number: u64, place: u64) -> Result<(), String> {
    let mut library = Library::default();
    let mut index = place * 2 * FROM_ONE_SOURCE;
    while !bench.spent() {
        let store = Recipe::of(number, index, &mut library).make(&mut library);
        index += 1;
        bench.put(store.state, &store.pool);
        asks(bench, 8)?;
    }
    Ok(())
}

/// Random stores, and a few calls on each.
fn random(bench: &mut Bench) -> Result<(), String> {
    while !bench.spent() {
        let (state, pool) = random_store(&mut bench.dice);
        bench.put(state, &pool);
        asks(bench, 8)?;
    }
    Ok(())
}

/// Any state over any words. Up to every second one is sound or nearly so: a root alone, or opened nodes that offer nothing.
fn random_store(dice: &mut Dice) -> Store {
    let most = dice.pick(&[3, 300, 2_000, 5_000]);
    let length = dice.below(most) as usize;
    let mut pool = pools::words(dice, length);
    let mut state = pools::state(dice, length);
    match dice.below(8) {
        // a root that offers nothing, or all; the regions may still be anything
        0 if length > 0 => (state.used, pool[0]) = (1, dice.pick(&[96, 110, 108, 102])),
        1 if length > 0 => {
            (state.used, pool[0]) = (1, 96);
            pools::seed_regions(dice, &mut state);
        }
        2 | 3 => {
            let (opened, words) = pools::opened(dice, length);
            state = opened;
            pool.resize(length.max(words.len()), 0);
            pool[..words.len()].copy_from_slice(&words);
        }
        _ => {}
    }
    (state, pool)
}

/// The state of one store over the pool of another: of another journal, or of the same one at another time.
fn foreign(bench: &mut Bench) -> Result<(), String> {
    while !bench.spent() {
        let (own, other) = (pools::grown(&mut bench.dice), pools::grown(&mut bench.dice));
        for _ in 0..FROM_ONE_SOURCE {
            if bench.spent() {
                return Ok(());
            }
            let states = if bench.dice.chance(2, 3) { &own } else { &other };
            let (state, pool) = mixed(&mut bench.dice, states, &own);
            bench.put(state, &pool);
            asks(bench, 6)?;
        }
    }
    Ok(())
}

/// A state of some stores over a pool of some, often the one an entry later; now and then a number of it is another.
fn mixed(dice: &mut Dice, states: &[Store], pools: &[Store]) -> Store {
    let time = dice.below(states.len() as u64) as usize;
    let any_time = dice.below(pools.len() as u64) as usize;
    let mut state = states[time].0;
    let mut pool = pools[dice.pick(&[any_time, (time + 1).min(pools.len() - 1)])].1.clone();
    if dice.chance(1, 4) {
        state.used = pool.len() as u64;
    }
    if dice.chance(1, 4) {
        change_a_number(&mut state, any(dice), dice.below(2 * REGIONS as u64 + 1) as usize);
    }
    let spare = dice.pick(&[0, 1, 5, 130, 1_000]);
    pool.extend((0..spare).map(|_| dice.roll() as u32));
    (state, pool)
}

/// Gives a state another number at one of its fields.
fn change_a_number(state: &mut State, number: u64, field: usize) {
    match field {
        0 => state.used = number,
        _ if field <= REGIONS => state.starts[field - 1] = number,
        _ => state.ends[field - 1 - REGIONS] = number,
    }
}

/// A pool at the limit that is used to its end; then pools whose length is the limit, a word less, or a word more.
fn at_the_limit(bench: &mut Bench) -> Result<(), String> {
    let (state, mut pool) = pools::opened(&mut bench.dice, POOL_LIMIT);
    pool.resize(POOL_LIMIT, 0);
    bench.put(state, &pool);
    asks(bench, 12)?;
    for length in [POOL_LIMIT, POOL_LIMIT + 1, POOL_LIMIT - 1].into_iter().cycle() {
        if bench.spent() {
            break;
        }
        let words = pools::words(&mut bench.dice, length);
        bench.put(State::default(), &words);
        life(bench, 60)?;
    }
    Ok(())
}

/// A length above the limit, up to the most words that addresses have room for, and numbers that are no length at all.
fn long(dice: &mut Dice) -> usize {
    let least = POOL_LIMIT as u64 + 1;
    let any = dice.roll() >> dice.between(2, 43);
    let length = dice.pick(&[least, least + 1, 1 << 32, 1 << 61, (1 << 62) - 1, 1 << 62, u64::MAX, any, any, any]);
    length.max(least) as usize
}

/// Calls whose length is above the limit, and no such words are there.
fn no_words(bench: &mut Bench) -> Result<(), String> {
    while !bench.spent() {
        let length = bench.dice.below(17) as usize;
        let pool = pools::words(&mut bench.dice, length);
        let words = long(&mut bench.dice);
        let state = pools::state(&mut bench.dice, words);
        bench.put(state, &pool);
        let next = ask(&mut bench.dice, state);
        let next = if bench.dice.chance(1, 6) { Ask::Fresh } else { next };
        let nowhere = bench.dice.chance(1, 2);
        bench.ask_above_the_limit(next, words, nowhere)?;
    }
    Ok(())
}
