//! Times of calls: both sides in turn, in blocks of many calls.

use super::sides::{Proved, Side};
use super::stores::Store;
use oracle::original::bare::Bare;
use oracle::store::POOL_LIMIT;
use std::hint::black_box;
use std::time::{Duration, Instant};

/// How many blocks each figure is the median of, at least.
pub const BLOCKS: usize = 31;

/// How long a block of calls lasts, unless one call lasts longer: short, so that what disturbs one spares others.
const BLOCK: Duration = Duration::from_micros(500);

/// How long a store is measured, where more than the least number of blocks fit in.
const MEASURING: Duration = Duration::from_millis(500);

/// Nanoseconds of a call, one number for each block.
#[derive(Default)]
pub struct Times(Vec<f64>);

impl Times {
    fn push(&mut self, time: f64) {
        self.0.push(time);
    }

    pub fn low(&self) -> f64 {
        self.0.iter().copied().fold(f64::INFINITY, f64::min)
    }

    pub fn high(&self) -> f64 {
        self.0.iter().copied().fold(0.0, f64::max)
    }

    pub fn median(&self) -> f64 {
        median(self.0.clone())
    }

    /// The median of what each block takes more than the other's of the same round: the two stand side by side, so that
    /// what slows the machine down for a while falls out.
    pub fn less(&self, other: &Times) -> f64 {
        median(self.0.iter().zip(&other.0).map(|(ours, theirs)| ours - theirs).collect())
    }

    /// The median of how many times as long each block takes as the other's of the same round.
    pub fn to(&self, other: &Times) -> f64 {
        median(self.0.iter().zip(&other.0).map(|(ours, theirs)| ours / theirs).collect())
    }
}

/// The middle one of the numbers.
fn median(mut numbers: Vec<f64>) -> f64 {
    numbers.sort_by(f64::total_cmp);
    numbers.get(numbers.len() / 2).copied().unwrap_or(f64::NAN)
}

/// An acquire and the release of what it dealt.
#[derive(Default)]
pub struct Pair {
    pub acquire: Times,
    pub release: Times,
}

impl Pair {
    fn push(&mut self, (acquire, release): (f64, f64)) {
        self.acquire.push(acquire);
        self.release.push(release);
    }
}

/// A store on both sides: the proved one on a pool of the most words and on one that is used whole.
pub struct Sides {
    pub long: Proved,
    pub full: Proved,
    pub rust: Bare,
}

/// What was measured in one store with one size.
#[derive(Default)]
pub struct Measured {
    pub used: u64,
    pub probes: u64,
    pub proved: Pair,
    /// In the store that the acquire meets.
    pub check: Times,
    /// In the store that the release meets, with the page dealt.
    pub held_check: Times,
    pub full: Pair,
    pub full_check: Times,
    pub rust: Pair,
    pub report: Times,
    /// A walk over the Rust's whole tree.
    pub walk: Times,
}

/// Nanoseconds that one of so many takes.
fn each(all: Duration, times: u32) -> f64 {
    all.as_nanos() as f64 / f64::from(times)
}

/// Deals a page and takes it back so many times: the base must be the same each time, on whichever side. The first time
/// is not counted: the other side had the caches.
fn pairs(side: &mut impl Side, code: u64, base: u64, times: u32) -> (f64, f64) {
    let (mut dealing, mut taking) = (Duration::ZERO, Duration::ZERO);
    for time in 0..=times {
        let began = Instant::now();
        let dealt = side.acquire(black_box(code));
        let between = Instant::now();
        let refusal = side.release(black_box(base), code);
        let ended = Instant::now();
        assert_eq!((dealt, refusal), ((0, base), 0), "refusal and base of an acquire, and the refusal of its release");
        if time > 0 {
            dealing += between - began;
            taking += ended - between;
        }
    }
    (each(dealing, times), each(taking, times))
}

/// Makes a call so many times, and once before that is not counted.
fn singles(times: u32, mut call: impl FnMut()) -> f64 {
    call();
    let began = Instant::now();
    for _ in 0..times {
        call();
    }
    each(began.elapsed(), times)
}

/// Checks so many times.
fn checks(proved: &Proved, times: u32) -> f64 {
    singles(times, || assert!(black_box(proved).check(), "the store is sound"))
}

/// How many calls make a block, where one takes so many nanoseconds.
fn calls_in_block(one: f64) -> u32 {
    (BLOCK.as_nanos() as f64 / one.max(1.0)).ceil() as u32
}

/// Makes both sides of a store, with a pair of calls made on each, so that what 4 KiB need is opened.
pub fn sides(store: &Store) -> Sides {
    let (mut long, mut rust) = (store.proved(), store.rust());
    let (refusal, base) = long.acquire(1);
    assert_eq!((refusal, long.release(base, 1)), (0, 0), "4 KiB of store {} are dealt and taken back", store.name);
    pairs(&mut rust, 1, base, 1);
    assert_eq!(long.state.used, rust.opened_words(), "both sides of store {} have opened as much", store.name);
    let full = Proved::over(long.state, long.pool[..long.state.used as usize].to_vec());
    Sides { long, full, rust }
}

/// Measures a store on both sides with pages of one size.
pub fn measure(Sides { long, full, rust }: &mut Sides, code: u64) -> Measured {
    let (refusal, base) = long.acquire(code);
    assert_eq!((refusal, long.release(base, code)), (0, 0), "a page of code {code} is dealt and taken back");
    let (ours, theirs) = (pairs(long, code, base, 3), pairs(rust, code, base, 3));
    let [our_pairs, their_pairs, asked] = [ours.0 + ours.1, theirs.0 + theirs.1, ours.0].map(calls_in_block);
    let used = long.state.used;
    let mut measured = Measured { used, probes: long.probes, ..Measured::default() };
    let began = Instant::now();
    while measured.check.0.len() < BLOCKS || began.elapsed() < MEASURING {
        measured.proved.push(pairs(long, code, base, our_pairs));
        measured.check.push(checks(long, asked));
        assert_eq!(long.acquire(code), (0, base), "the same page");
        measured.held_check.push(checks(long, asked));
        assert_eq!(long.release(base, code), 0, "it is taken back");
        measured.rust.push(pairs(rust, code, base, their_pairs));
        measured.full.push(pairs(full, code, base, our_pairs));
        measured.full_check.push(checks(full, asked));
        measured.report.push(singles(asked, || assert!(black_box(&*long).report().is_some(), "not refused")));
        measured.walk.push(singles(asked, || assert_eq!(black_box(&*rust).opened_words(), used, "the same tree")));
    }
    measured
}

/// A seed into a new store, on both sides: nanoseconds of each, and the words then used. Making the new store, and
/// giving up the Rust's, is not counted.
pub fn measure_seed(start: u64, end: u64) -> (Times, Times, u64) {
    let mut proved = Proved::new(POOL_LIMIT);
    let mut opened = 0;
    let mut ours = || {
        assert_eq!(proved.fresh(), 0, "a new store");
        seed_once(&mut proved, start, end)
    };
    let mut theirs = || {
        let mut rust = Bare::new();
        let took = seed_once(&mut rust, start, end);
        opened = rust.opened_words();
        took
    };
    let [our_seeds, their_seeds] = [seeds(3, &mut ours), seeds(3, &mut theirs)].map(calls_in_block);
    let mut times = (Times::default(), Times::default());
    let began = Instant::now();
    while times.0.0.len() < BLOCKS || began.elapsed() < MEASURING {
        times.0.push(seeds(our_seeds, &mut ours));
        times.1.push(seeds(their_seeds, &mut theirs));
    }
    assert_eq!(proved.state.used, opened, "both sides have opened as much");
    (times.0, times.1, opened)
}

/// A block of seeds; the first is not counted.
fn seeds(times: u32, mut seed: impl FnMut() -> Duration) -> f64 {
    seed();
    each((0..times).map(|_| seed()).sum(), times)
}

fn seed_once(side: &mut impl Side, start: u64, end: u64) -> Duration {
    let began = Instant::now();
    let refusal = side.seed(black_box(start), end);
    let took = began.elapsed();
    assert_eq!(refusal, 0, "a seed from {start} to {end}");
    took
}

/// Nanoseconds that reading the clock adds to an acquire's and to a release's time.
pub fn clock() -> f64 {
    let mut times = Times::default();
    for _ in 0..BLOCKS {
        times.push(singles(10_000, || _ = black_box(Instant::now())));
    }
    times.median()
}

#[cfg(test)]
mod tests {
    use super::*;

    #[test]
    fn the_median_is_the_middle_one() {
        let times = Times(vec![9.0, 1.0, 4.0]);
        assert_eq!((times.low(), times.median(), times.high()), (1.0, 4.0, 9.0));
    }

    #[test]
    fn blocks_are_held_against_those_of_their_round() {
        let (ours, theirs) = (Times(vec![10.0, 30.0, 21.0]), Times(vec![5.0, 20.0, 20.0]));
        assert_eq!((ours.less(&theirs), ours.to(&theirs)), (5.0, 1.5));
    }

    #[test]
    fn a_block_has_one_call_at_least() {
        assert_eq!(calls_in_block(5_000_000.0), 1);
        assert_eq!(calls_in_block(1_000.0), 500);
    }

    #[test]
    #[should_panic(expected = "refusal and base")]
    fn another_base_is_seen() {
        let mut proved = Proved::new(2_000);
        assert_eq!(proved.seed(0, 8_192), 0);
        pairs(&mut proved, 1, 4_096, 1);
    }
}
