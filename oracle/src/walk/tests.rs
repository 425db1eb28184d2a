use super::*;
use crate::journal::Entry;
use crate::reference::{self, CALLS};

/// What both judges say, if they agree.
fn verdict(state: State, pool: &[u32]) -> bool {
    let walked = sound(state, pool);
    assert_eq!(walked, reference::sound(state, pool), "{:?}", reference::unsound_because(state, pool));
    walked
}

/// The store after some entries, each of which leaves it sound.
fn after(words: usize, entries: &[Entry]) -> (State, Vec<u32>) {
    let mut pool = vec![0xdead_beef; words];
    let mut state = (CALLS.fresh)(&mut pool).state;
    for &entry in entries {
        assert!(verdict(state, &pool), "before {entry:?}");
        state = CALLS.answer(state, &mut pool, entry).state;
    }
    assert!(verdict(state, &pool));
    (state, pool)
}

const GIB2: u64 = 2_147_483_648;

/// The document's journal.
fn journal() -> Vec<Entry> {
    let release = Entry::Release { base: GIB2, code: 1 };
    let acquires = [1, 2, 1].map(|code| Entry::Acquire { code });
    [&[Entry::Seed { start: GIB2, end: GIB2 + 24_576 }], &acquires[..], &[release, release, Entry::Report]].concat()
}

#[test]
fn the_cases_of_the_document_are_sound() {
    let whole = Entry::Seed { start: 0, end: END };
    let last = Entry::Seed { start: END - FRAME, end: END };
    let one = Entry::Acquire { code: 1 };
    assert_eq!(after(16_384, &journal()).0.used, 1_423);
    assert_eq!(after(1, &[whole]).1[0], 110);
    assert_eq!(after(1, &[whole, Entry::Acquire { code: 6 }, one]).0.used, 1);
    assert_eq!(after(1_418, &[last, one]).0.used, 1_418);
    for words in [1_412, 1_413] {
        let block = Entry::Seed { start: GIB2, end: GIB2 + 16_384 };
        let release = |page: u64| Entry::Release { base: GIB2 + page * FRAME, code: 1 };
        after(words + 5, &[block, one, one, one, one, release(2), release(0), release(3), release(1)]);
        after(words, &[block, one]);
    }
}

#[test]
fn the_pool_of_771_words_is_not_sound() {
    let mut pool = vec![80; 258];
    (pool[0], pool[1], pool[80]) = (224, 0, 32_976);
    pool.resize(771, 64);
    let state = State { used: 771, ..State::default() };
    let walk = Walk { state, live: &pool };
    let root = Node { place: 0, code: 6, base: 0, covered: false };
    assert_eq!(walk.node(root, 0), Some(770), "the walk alone does not see it");
    assert!(!sweep(&pool));
    assert!(!verdict(state, &pool));
}

/// The count alone, or the sweep alone, would let these through; the last one needs each header below its place.
#[test]
fn pools_that_the_sweep_or_the_count_passes_are_not_sound() {
    let mut pool = vec![80; 258];
    (pool[0], pool[1], pool[64], pool[80]) = (224, 0, 80 + 128 * 258, 80 + 128 * 257);
    pool.resize(771, 64);
    assert!(sweep(&pool));
    assert!(!verdict(State { used: 771, ..State::default() }, &pool));
    pool.resize(1_284, 64);
    (pool[771], pool[772]) = (772, 80 + 128 * 771);
    let state = State { used: 1_284, ..State::default() };
    let walk = Walk { state, live: &pool };
    assert_eq!(walk.node(Node { place: 0, code: 6, base: 0, covered: false }, 0), Some(1_283));
    assert!(!verdict(state, &pool));
}

#[test]
fn an_unreachable_cycle_is_seen_by_the_walk_or_the_sweep() {
    let mut pool = vec![96, 2, 32 + 128, 16, 16, 16];
    let state = State { used: 6, ..State::default() };
    assert!(!verdict(state, &pool));
    pool[0] = 96 + 128;
    assert!(!verdict(state, &pool));
}

#[test]
fn used_and_the_pool_have_limits() {
    let (state, pool) = after(16_384, &journal());
    let used = state.used;
    for wrong in [0, 1, used - 1, used + 1, 16_385, used + (1 << 32), u64::MAX] {
        assert!(!verdict(State { used: wrong, ..state }, &pool), "used {wrong}");
    }
    assert!(verdict(state, &pool[..used as usize]));
    assert!(!verdict(state, &pool[..used as usize - 1]));
    assert!(!verdict(state, &[]) && !verdict(State::default(), &[]) && !verdict(State::default(), &pool));
    let fresh = State { used: 1, ..State::default() };
    assert!(verdict(fresh, &[96]) && !verdict(fresh, &[]));
    assert!(verdict(fresh, &vec![96; POOL_LIMIT]) && !verdict(fresh, &vec![96; POOL_LIMIT + 1]));
}

#[test]
fn regions_keep_their_rules() {
    let (state, pool) = after(16_384, &journal());
    let with = |place: usize, start: u64, end: u64| {
        let mut changed = state;
        (changed.starts[place], changed.ends[place]) = (start, end);
        verdict(changed, &pool)
    };
    assert!(with(1, 0, FRAME) && with(1, GIB2 + 24_576, END) && with(0, 0, END));
    assert!(!with(0, 0, 0) && !with(0, GIB2 + FRAME, END) && !with(0, GIB2, GIB2 + 20_480));
    assert!(!with(1, 1, FRAME) && !with(1, 0, 4_095) && !with(1, FRAME, FRAME) && !with(1, FRAME, 0));
    assert!(!with(1, END, END + FRAME) && !with(1, FRAME, u64::MAX - 4_095) && !with(1, 0, END));
    assert!(!with(2, 0, FRAME) && !with(7, FRAME, 0) && !with(1, GIB2 + 20_480, GIB2 + 28_672));
}

#[test]
fn every_word_of_the_journal_matters() {
    let (state, pool) = after(1_500, &journal());
    for place in 0..pool.len() {
        for bit in [0, 3, 4, 6, 7, 15, 31] {
            let mut changed = pool.clone();
            changed[place] ^= 1 << bit;
            assert_eq!(sound(state, &changed), place >= state.used as usize, "bit {bit} of word {place}");
        }
    }
}
