//! The stores in which calls are measured, on both sides. On the proved side each call checks the whole store, so the
//! many calls that lead to a large one would take minutes: its words are written down as those calls leave them.

use super::sides::{Proved, Side};
use oracle::original::bare::Bare;
use oracle::reference::{BYTES, FAN_OUT, FRAME, ROOT, Word, new_node, pack};
use oracle::store::{POOL_LIMIT, State};

/// Where all regions start: two blocks of 1 GiB lie before.
pub const START: u64 = 2_147_483_648;

const KIB_4: u64 = BYTES[1];
const MIB_2: u64 = BYTES[3];
const GIB_1: u64 = BYTES[4];

/// How a store comes about.
#[derive(Clone, Copy)]
pub enum Way {
    /// A region of so many bytes, so many pages of 4 KiB dealt from its start on, every second of them given back.
    Dealt { bytes: u64, pages: u64 },
    /// A region of 1 GiB, all dealt in 2 MiB, then 4 KiB given back: the first of the 2 MiB of this number.
    Child(u64),
}

/// A store, its short name, and what it is.
#[derive(Clone, Copy)]
pub struct Store {
    pub name: &'static str,
    pub what: &'static str,
    pub way: Way,
}

const fn dealt(name: &'static str, what: &'static str, bytes: u64, pages: u64) -> Store {
    Store { name, what, way: Way::Dealt { bytes, pages } }
}

const fn child(name: &'static str, number: u64) -> Store {
    Store { name, what: "1 GiB all dealt in 2 MiB, but for 4 KiB", way: Way::Child(number) }
}

/// Stores from little to much used.
pub const STORES: [Store; 8] = [
    dealt("24K", "24 KiB seeded", 6 * KIB_4, 0),
    dealt("1G-free", "1 GiB seeded, nothing held", GIB_1, 0),
    dealt("1G-held", "1 GiB, one page of 4 KiB held", GIB_1, 1),
    dealt("2M", "2 MiB dealt in 4 KiB, every second given back", MIB_2, 512),
    dealt("1G-16384", "1 GiB, its first 39 MiB so", GIB_1, 10_016),
    dealt("64M", "64 MiB so", 32 * MIB_2, 16_384),
    dealt("1G-100000", "1 GiB, its first 256 MiB so", GIB_1, 65_660),
    dealt("1G-395012", "1 GiB, all of it so", GIB_1, 262_144),
];

/// Stores that differ in how far the lowest free page lies.
pub const CHILDREN: [Store; 4] =
    [child("child-0", 0), child("child-100", 100), child("child-300", 300), child("child-511", 511)];

/// The store of a name.
pub fn named(name: &str) -> Option<Store> {
    STORES.iter().chain(&CHILDREN).find(|store| store.name == name).copied()
}

impl Store {
    /// The proved side, on a pool of the most words.
    pub fn proved(&self) -> Proved {
        let proved = match self.way {
            Way::Dealt { bytes, pages } => written(bytes, pages),
            Way::Child(number) => {
                let mut proved = Proved::new(POOL_LIMIT);
                give_back_one(&mut proved, number);
                proved
            }
        };
        assert!(proved.check(), "store {} is not sound", self.name);
        assert_eq!(proved.report().map(|report| report.0), Some(self.free()), "free bytes of store {}", self.name);
        proved
    }

    /// The Rust's side.
    pub fn rust(&self) -> Bare {
        let mut rust = Bare::new();
        match self.way {
            Way::Dealt { bytes, pages } => deal(&mut rust, bytes, pages),
            Way::Child(number) => give_back_one(&mut rust, number),
        }
        rust
    }

    /// How many bytes are free.
    fn free(&self) -> u64 {
        match self.way {
            Way::Dealt { bytes, pages } => bytes - pages.div_ceil(2) * KIB_4,
            Way::Child(_) => KIB_4,
        }
    }
}

/// Seeds, deals pages of 4 KiB and takes every second back, by calls.
fn deal(side: &mut impl Side, bytes: u64, pages: u64) {
    assert_eq!(side.seed(START, START + bytes), 0, "a seed of {bytes} bytes");
    for page in 0..pages {
        assert_eq!(side.acquire(1), (0, START + page * KIB_4), "page {page} of {pages}");
    }
    for page in (1..pages).step_by(2) {
        assert_eq!(side.release(START + page * KIB_4, 1), 0, "page {page} of {pages} given back");
    }
}

/// Seeds 1 GiB, deals it in 2 MiB, and takes back the first 4 KiB of one of them, by calls.
fn give_back_one(side: &mut impl Side, number: u64) {
    assert_eq!(side.seed(START, START + GIB_1), 0, "a seed of 1 GiB");
    for page in 0..GIB_1 / MIB_2 {
        assert_eq!(side.acquire(3), (0, START + page * MIB_2), "page {page} of 2 MiB");
    }
    assert_eq!(side.release(START + number * MIB_2, 1), 0, "4 KiB of page {number} given back");
}

/// The store that `deal` leaves, written down: a node is opened at the first call that needs it, which is the order of
/// a walk that looks at a node before its children and at those in the order of their addresses.
fn written(bytes: u64, pages: u64) -> Proved {
    let mut words = Words { pool: vec![0], end: START + bytes, dealt: START + pages * KIB_4 };
    words.node(0, ROOT, 0);
    let mut state = State { used: words.pool.len() as u64, ..State::default() };
    (state.starts[0], state.ends[0]) = (START, START + bytes);
    words.pool.resize(POOL_LIMIT, 0);
    Proved::over(state.into(), words.pool)
}

/// The words written so far, where the region ends, and where what was dealt ends.
struct Words {
    pool: Vec<u32>,
    end: u64,
    dealt: u64,
}

impl Words {
    /// Writes the word of a node, and what is below; gives the node's max.
    fn node(&mut self, place: usize, code: usize, base: u64) -> usize {
        let to = base + BYTES[code];
        let apart = to <= START || self.end <= base;
        let whole = START <= base && to <= self.end;
        let given_back = code == FRAME && (base - START.min(base)) / KIB_4 % 2 == 1;
        let token = whole && (self.dealt <= base || given_back);
        let opened = !apart && !token && code != FRAME;
        let link = if opened { self.pool.len() } else { 0 };
        let max = if opened { self.block(place, code, base) } else { code * usize::from(token) };
        self.pool[place] = pack(Word { max, token, link, ..new_node(code) });
        max
    }

    /// Writes the child block of a node; gives the largest max in it.
    fn block(&mut self, parent: usize, code: usize, base: u64) -> usize {
        let first = self.pool.len() + 1;
        self.pool.push(parent as u32);
        self.pool.resize(first + FAN_OUT[code], 0);
        let children = 0..FAN_OUT[code];
        let each = BYTES[code - 1];
        children.map(|child| self.node(first + child, code - 1, base + child as u64 * each)).max().unwrap_or(0)
    }
}

#[cfg(test)]
mod tests {
    use super::*;

    /// Words and used counts are those of document 01 by the reference's calls.
    #[test]
    fn written_stores_are_what_the_reference_leaves() {
        use oracle::reference::CALLS;
        for (bytes, pages) in [(6 * KIB_4, 0), (GIB_1, 0), (GIB_1, 1), (2 * MIB_2, 7), (2 * MIB_2, 516)] {
            let mut pool = vec![0; 4_000];
            let fresh = (CALLS.fresh)(&mut pool);
            let mut state = (CALLS.seed)(fresh.state, &mut pool, START, START + bytes).state;
            for _ in 0..pages {
                state = (CALLS.acquire)(state, &mut pool, 1).state;
            }
            for page in (1..pages).step_by(2) {
                state = (CALLS.release)(state, &mut pool, START + page * KIB_4, 1).state;
            }
            let made = written(bytes, pages);
            let used = state.used as usize;
            assert_eq!(
                (made.state.used, made.state.starts),
                (state.used, state.starts),
                "{bytes} bytes, {pages} pages"
            );
            assert!(made.pool[..used] == pool[..used], "words of {bytes} bytes, {pages} pages");
        }
    }

    #[test]
    fn used_words_are_those_worked_out_by_hand() {
        // 1,284 words for root, 512 GiB, 1 GiB and the path; 129 for each 2 MiB opened; 5 for each 16 KiB.
        let used: Vec<u64> = STORES.iter().map(|store| store.proved().state.used).collect();
        assert_eq!(used, [1_418, 771, 1_418, 2_053, 16_384, 25_892, 100_000, 395_012]);
        assert!(CHILDREN.iter().all(|store| store.proved().state.used == 1_418));
    }

    /// But for the largest, which takes long without optimisation; every measurement tests it too.
    #[test]
    fn both_sides_stand_alike() {
        for store in STORES.iter().filter(|store| store.name != "1G-395012").chain(&CHILDREN) {
            let (proved, rust) = (store.proved(), store.rust());
            let largest = proved.report().map(|report| report.1);
            assert_eq!((proved.state.used, largest), (rust.opened_words(), Some(rust.largest())), "{}", store.name);
        }
    }
}
