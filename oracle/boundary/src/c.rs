//! `include/page_store.h` as Rust declares it, and the proved store as a table of functions.

use crate::ask::Ask;
use oracle::store::{Answer, Calls, REGIONS, State};

/// `page_store_state`.
#[repr(C)]
#[derive(Clone, Copy)]
pub struct StoreState {
    pub(crate) used: u64,
    pub(crate) starts: [u64; REGIONS],
    pub(crate) ends: [u64; REGIONS],
}

/// `page_store_done`.
#[repr(C)]
pub(crate) struct Done {
    pub(crate) refusal: u64,
    pub(crate) state: StoreState,
}

/// `page_store_dealt`.
#[repr(C)]
pub(crate) struct Dealt {
    pub(crate) refusal: u64,
    pub(crate) state: StoreState,
    pub(crate) base: u64,
    pub(crate) probes: u64,
}

/// `page_store_reported`.
#[repr(C)]
pub(crate) struct Reported {
    pub(crate) refusal: u64,
    pub(crate) state: StoreState,
    pub(crate) seeded: u64,
    pub(crate) free: u64,
    pub(crate) largest: u64,
    pub(crate) used: u64,
}

/// `page_store_room`.
#[repr(C)]
pub(crate) struct Room {
    refusal: u64,
    words: u64,
}

// The sizes that the header states.
const _: () = assert!(size_of::<StoreState>() == 8 * (1 + 2 * REGIONS));
const _: () = assert!(size_of::<Done>() == 8 + size_of::<StoreState>());
const _: () = assert!(size_of::<Dealt>() == 24 + size_of::<StoreState>());
const _: () = assert!(size_of::<Reported>() == 40 + size_of::<StoreState>());
const _: () = assert!(size_of::<Room>() == 16);

unsafe extern "C" {
    pub(crate) fn page_store_fresh(pool: *mut u32, words: usize) -> Done;
    pub(crate) fn page_store_seed(state: StoreState, pool: *mut u32, words: usize, start: u64, end: u64) -> Done;
    pub(crate) fn page_store_acquire(state: StoreState, pool: *mut u32, words: usize, code: u64) -> Dealt;
    pub(crate) fn page_store_release(state: StoreState, pool: *mut u32, words: usize, base: u64, code: u64) -> Done;
    pub(crate) fn page_store_report(state: StoreState, pool: *const u32, words: usize) -> Reported;
    pub(crate) fn page_store_check(state: StoreState, pool: *const u32, words: usize) -> u64;
    pub(crate) fn page_store_room_for(state: StoreState, start: u64, end: u64) -> Room;
}

impl From<State> for StoreState {
    fn from(state: State) -> StoreState {
        StoreState { used: state.used, starts: state.starts, ends: state.ends }
    }
}

impl From<StoreState> for State {
    fn from(state: StoreState) -> State {
        State { used: state.used, starts: state.starts, ends: state.ends }
    }
}

impl From<Done> for Answer {
    fn from(done: Done) -> Answer {
        Answer { refusal: done.refusal, state: done.state.into(), results: Vec::new() }
    }
}

impl From<Dealt> for Answer {
    fn from(dealt: Dealt) -> Answer {
        Answer { refusal: dealt.refusal, state: dealt.state.into(), results: vec![dealt.base, dealt.probes] }
    }
}

impl From<Reported> for Answer {
    fn from(told: Reported) -> Answer {
        let results = vec![told.seeded, told.free, told.largest, told.used];
        Answer { refusal: told.refusal, state: told.state.into(), results }
    }
}

/// What the proved store answers to any call, as the header's functions are called.
///
/// # Safety
///
/// As the header says: the pointer is aligned, and so many words are there to be read and written. The hostile caller
/// also passes lengths above the limit where no such words are. That is outside of what the header promises: it tests
/// that the length is looked at before any word.
pub unsafe fn answer(ask: Ask, state: State, pool: *mut u32, words: usize) -> Answer {
    let given = StoreState::from(state);
    // SAFETY: what the header asks of a caller is asked of this function's caller
    unsafe {
        match ask {
            Ask::Fresh => page_store_fresh(pool, words).into(),
            Ask::Seed { start, end } => page_store_seed(given, pool, words, start, end).into(),
            Ask::Acquire { code } => page_store_acquire(given, pool, words, code).into(),
            Ask::Release { base, code } => page_store_release(given, pool, words, base, code).into(),
            Ask::Report => page_store_report(given, pool, words).into(),
            Ask::Check => Answer { refusal: 0, state, results: vec![page_store_check(given, pool, words)] },
            Ask::RoomFor { start, end } => {
                let room = page_store_room_for(given, start, end);
                Answer { refusal: room.refusal, state, results: vec![room.words] }
            }
        }
    }
}

/// The answer on a slice of words.
fn on_slice(ask: Ask, state: State, pool: &mut [u32]) -> Answer {
    // SAFETY: a slice's pointer is aligned, and its words are there
    unsafe { answer(ask, state, pool.as_mut_ptr(), pool.len()) }
}

/// The proved store's six calls, as the reference has them.
pub const CALLS: Calls = Calls {
    fresh: |pool| on_slice(Ask::Fresh, State::default(), pool),
    seed: |state, pool, start, end| on_slice(Ask::Seed { start, end }, state, pool),
    acquire: |state, pool, code| on_slice(Ask::Acquire { code }, state, pool),
    release: |state, pool, base, code| on_slice(Ask::Release { base, code }, state, pool),
    report: |state, pool| on_slice(Ask::Report, state, pool),
    // SAFETY: a slice's pointer is aligned, and its words are there; check writes none
    check: |state, pool| unsafe { page_store_check(state.into(), pool.as_ptr(), pool.len()) == 1 },
};
