//! A call with its numbers, and who answers it.

use oracle::journal::Entry;
use oracle::reference;
use oracle::room::room_for;
use oracle::store::{Answer, Calls, State};

/// A call on a store, with any numbers.
#[derive(Clone, Copy, Debug, PartialEq, Eq)]
pub enum Ask {
    Fresh,
    Seed { start: u64, end: u64 },
    Acquire { code: u64 },
    Release { base: u64, code: u64 },
    Report,
    Check,
    RoomFor { start: u64, end: u64 },
}

/// The calls' names, in the order of `Ask::kind`.
pub const NAMES: [&str; 7] = ["fresh", "seed", "acquire", "release", "report", "check", "room_for"];

impl Ask {
    /// Which call it is.
    pub fn kind(self) -> usize {
        match self {
            Ask::Fresh => 0,
            Ask::Seed { .. } => 1,
            Ask::Acquire { .. } => 2,
            Ask::Release { .. } => 3,
            Ask::Report => 4,
            Ask::Check => 5,
            Ask::RoomFor { .. } => 6,
        }
    }

    /// Its name in the header, less the prefix.
    pub fn name(self) -> &'static str {
        NAMES[self.kind()]
    }

    /// How many results its answer has: for check the one number that it is, for room_for the words.
    pub fn results(self) -> usize {
        match self {
            Ask::Fresh | Ask::Seed { .. } | Ask::Release { .. } => 0,
            Ask::Check | Ask::RoomFor { .. } => 1,
            Ask::Acquire { .. } => 2,
            Ask::Report => 4,
        }
    }

    /// The journal's entry of this call, if there is one.
    pub fn entry(self) -> Option<Entry> {
        match self {
            Ask::Seed { start, end } => Some(Entry::Seed { start, end }),
            Ask::Acquire { code } => u8::try_from(code).ok().map(|code| Entry::Acquire { code }),
            Ask::Release { base, code } => u8::try_from(code).ok().map(|code| Entry::Release { base, code }),
            Ask::Report => Some(Entry::Report),
            Ask::Fresh | Ask::Check | Ask::RoomFor { .. } => None,
        }
    }
}

impl From<Entry> for Ask {
    fn from(entry: Entry) -> Ask {
        match entry {
            Entry::Seed { start, end } => Ask::Seed { start, end },
            Entry::Acquire { code } => Ask::Acquire { code: u64::from(code) },
            Entry::Release { base, code } => Ask::Release { base, code: u64::from(code) },
            Entry::Report => Ask::Report,
        }
    }
}

/// What a table of functions answers.
pub fn answer_of(calls: Calls, ask: Ask, state: State, pool: &mut [u32]) -> Answer {
    match ask {
        Ask::Fresh => (calls.fresh)(pool),
        Ask::Seed { start, end } => (calls.seed)(state, pool, start, end),
        Ask::Acquire { code } => (calls.acquire)(state, pool, code),
        Ask::Release { base, code } => (calls.release)(state, pool, base, code),
        Ask::Report => (calls.report)(state, pool),
        Ask::Check => Answer { refusal: 0, state, results: vec![u64::from((calls.check)(state, pool))] },
        Ask::RoomFor { start, end } => {
            let (refusal, words) = room_for(state, start, end);
            Answer { refusal, state, results: vec![words] }
        }
    }
}

/// What document 01 says.
pub fn right_answer(ask: Ask, state: State, pool: &mut [u32]) -> Answer {
    answer_of(reference::CALLS, ask, state, pool)
}

/// What document 01 says of a pool above the limit, whose words need not be there: fresh is refused with 11, check says
/// no, and every other call is refused with 10, as the state is not sound.
pub fn above_the_limit(ask: Ask, state: State) -> Answer {
    let results = vec![0; ask.results()];
    match ask {
        Ask::Fresh => Answer { refusal: 11, state: State::default(), results },
        Ask::Check => Answer { refusal: 0, state, results },
        Ask::RoomFor { start, end } => {
            let (refusal, words) = room_for(state, start, end);
            Answer { refusal, state, results: vec![words] }
        }
        _ => Answer { refusal: 10, state, results },
    }
}
