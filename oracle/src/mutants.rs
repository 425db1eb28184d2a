//! Wrong stores, each the reference with one edit of the folder `mutants`, run beside the reference: journals of every
//! profile, then damaged stores. Whoever is not caught shows what the journals and the damages do not test.

use crate::damage::{Library, Recipe, calls_on};
use crate::generate::{Profile, record};
use crate::guard::guarded;
use crate::reference::CALLS;
use crate::store::{Answer, Call, Calls, POOL_LIMIT, State};

#[cfg(not(test))]
#[allow(dead_code, unused, clippy::all)]
mod edited {
    include!(concat!(env!("OUT_DIR"), "/mutants.rs"));
}

/// The library's own tests do without the mutants, which take long to compile; `tests/mutants.rs` runs them.
#[cfg(test)]
mod edited {
    pub const ALL: &[(&str, &str, Option<&str>, crate::store::Calls)] = &[];
}
#[cfg(test)]
mod tests;

pub use edited::ALL;

/// How many journals of a profile a mutant must get through. A call that fills a pool exactly is rare.
fn journals(profile: Profile) -> u64 {
    if profile == Profile::DryPools { 12 } else { 4 }
}

/// How many entries each has.
const ENTRIES: usize = 120;

/// How many damaged stores a mutant must get through.
const DAMAGED: u64 = 5_000;

/// The number of the run that damages them.
const NUMBER: u64 = 1;

/// What a pool holds before fresh.
const GARBAGE: u32 = 0xdead_beef;

/// What the reference answers to a call, and the pool words that it changes.
struct Step {
    call: Call,
    answer: Answer,
    changes: Vec<(usize, u32)>,
}

/// A journal with the reference's answers.
struct Trace {
    profile: Profile,
    number: u64,
    pool_words: usize,
    steps: Vec<Step>,
}

/// A damaged store with the reference's verdict and answers, each given to the store as it is.
struct Case {
    index: u64,
    state: State,
    pool: Vec<u32>,
    what: String,
    sound: bool,
    steps: Vec<Step>,
}

/// Runs every mutant; gives a table, or the mutants whose verdict is not the expected one.
pub fn run() -> Result<String, String> {
    let traces = traces();
    let cases = cases(DAMAGED);
    let mut text = String::new();
    let mut wrong = Vec::new();
    let (mut caught, mut by_journals) = (0, 0);
    for &(name, what, equivalent, calls) in ALL {
        let in_journals = caught_by_journals(calls, &traces);
        let found = in_journals.clone().or_else(|| caught_by_length(calls)).or_else(|| caught_by_damage(calls, &cases));
        let told = match (&found, equivalent) {
            (Some(found), _) => found.clone(),
            (None, Some(_)) => "not caught, equivalent".to_string(),
            (None, None) => "NOT CAUGHT".to_string(),
        };
        let alone = if in_journals.is_some() { "journals" } else { "-" };
        text += &format!("{name:<40} {alone:<9} {told}\n    {what}\n");
        if found.is_some() == equivalent.is_some() {
            wrong.push(name);
        }
        caught += usize::from(found.is_some());
        by_journals += usize::from(in_journals.is_some());
    }
    text += &format!("\n{} mutants: {caught} caught, {by_journals} of them by journals alone, ", ALL.len());
    text += &format!("{} equivalent\n", ALL.iter().filter(|mutant| mutant.2.is_some()).count());
    if wrong.is_empty() { Ok(text) } else { Err(format!("{text}not as expected: {}\n", wrong.join(", "))) }
}

/// The reference's step on a store, whose pool takes the changes.
fn step(state: State, pool: &mut [u32], call: Call) -> Step {
    let before = pool.to_vec();
    let answer = CALLS.answer(state, pool, call);
    let changed = (0..pool.len()).filter(|&place| pool[place] != before[place]);
    let changes = changed.map(|place| (place, pool[place])).collect();
    Step { call, answer, changes }
}

/// Journals of every profile, the first of each before the second of any.
fn traces() -> Vec<Trace> {
    let mut traces = Vec::new();
    let most = Profile::ALL.iter().map(|&profile| journals(profile)).max().unwrap_or(0);
    for number in 0..most {
        for &profile in Profile::ALL.iter().filter(|&&profile| number < journals(profile)) {
            let (pool_words, entries, _) = record(profile, number, ENTRIES, CALLS);
            let mut pool = vec![GARBAGE; pool_words];
            let mut state = (CALLS.fresh)(&mut pool).state;
            let mut steps = Vec::new();
            for entry in entries {
                let step = step(state, &mut pool, entry.into());
                state = step.answer.state;
                steps.push(step);
            }
            traces.push(Trace { profile, number, pool_words, steps });
        }
    }
    traces
}

/// Damaged stores.
fn cases(stores: u64) -> Vec<Case> {
    let mut library = Library::default();
    let mut cases = Vec::new();
    for index in 0..stores {
        let store = Recipe::of(NUMBER, index, &mut library).make(&mut library);
        let sound = (CALLS.check)(store.state, &store.pool);
        let asked = calls_on(&store, NUMBER, index);
        let steps = asked.map(|call| step(store.state, &mut store.pool.clone(), call));
        let (state, pool, what) = (store.state, store.pool, store.what);
        cases.push(Case { index, state, pool, what, sound, steps: steps.into() });
    }
    cases
}

/// What a call gives, or nothing where it panics.
fn quietly<T>(call: impl FnOnce() -> T) -> Option<T> {
    guarded(call).ok()
}

/// Why a mutant's answer is not the reference's, if it is not.
fn difference(step: &Step, answer: Option<Answer>, same_words: bool) -> Option<&'static str> {
    match answer {
        None => Some("panics"),
        Some(answer) if answer.refusal != step.answer.refusal => Some("refusal"),
        Some(answer) if answer.results != step.answer.results => Some("results"),
        Some(answer) if answer.state != step.answer.state => Some("state"),
        Some(_) => (!same_words).then_some("pool words"),
    }
}

/// The first entry of a journal at which the mutant differs, if any.
fn caught_by_journals(calls: Calls, traces: &[Trace]) -> Option<String> {
    traces.iter().find_map(|trace| {
        let told = |entry: usize, why: &str| format!("{} {} entry {entry}: {why}", trace.profile.name(), trace.number);
        let mut expected = vec![GARBAGE; trace.pool_words];
        let mut state = (CALLS.fresh)(&mut expected).state;
        let mut pool = vec![GARBAGE; trace.pool_words];
        let fresh = quietly(|| (calls.fresh)(&mut pool));
        if fresh.is_none_or(|fresh| fresh.state != state) || pool != expected {
            return Some(told(0, "fresh"));
        }
        for (number, step) in trace.steps.iter().enumerate() {
            let answer = quietly(|| calls.answer(state, &mut pool, step.call));
            for &(place, word) in &step.changes {
                expected[place] = word;
            }
            if let Some(why) = difference(step, answer, pool == expected) {
                return Some(told(number + 1, why));
            }
            state = step.answer.state;
        }
        None
    })
}

/// The first length of a pool at which the mutant's fresh differs, or its check of a fresh store, if any.
fn caught_by_length(calls: Calls) -> Option<String> {
    [0, 1, 2, POOL_LIMIT, POOL_LIMIT + 1].into_iter().find_map(|length| {
        let (mut expected, mut pool) = (vec![GARBAGE; length], vec![GARBAGE; length]);
        let right = (CALLS.fresh)(&mut expected);
        if quietly(|| (calls.fresh)(&mut pool)) != Some(right) || pool != expected {
            return Some(format!("fresh of {length} words"));
        }
        let state = State { used: 1, ..State::default() };
        pool.iter_mut().take(1).for_each(|root| *root = 96);
        let differs = quietly(|| (calls.check)(state, &pool)) != Some((CALLS.check)(state, &pool));
        differs.then(|| format!("check of {length} words"))
    })
}

/// The first damaged store on which the mutant differs, if any.
fn caught_by_damage(calls: Calls, cases: &[Case]) -> Option<String> {
    cases.iter().find_map(|case| {
        let told = |why: &str| format!("damage {NUMBER} store {}: {why} ({})", case.index, case.what);
        if quietly(|| (calls.check)(case.state, &case.pool)) != Some(case.sound) {
            return Some(told("check"));
        }
        for step in &case.steps {
            let mut pool = case.pool.clone();
            let answer = quietly(|| calls.answer(case.state, &mut pool, step.call));
            let mut expected = case.pool.clone();
            for &(place, word) in &step.changes {
                expected[place] = word;
            }
            if let Some(why) = difference(step, answer, pool == expected) {
                return Some(told(&format!("{:?}: {why}", step.call)));
            }
        }
        None
    })
}
