//! One thing, so many times, for a tool that counts instructions.

use super::sides::{Proved, Side};
use super::stores::{Store, named};
use super::tables::SEEDS;
use super::timing::sides;
use oracle::original::bare::Bare;
use oracle::store::POOL_LIMIT;
use std::hint::black_box;

/// Makes the calls that a text names: `proved`, `pair`, `full` or `rust`, a colon, and a store or, with `proved` and
/// `rust`, a seed. On a store 4 KiB are dealt and taken back; `proved` also checks it and asks a report, `pair` does not,
/// nor `full`, which is on a pool that is used whole.
pub fn count(what: &str, times: u32) -> Result<(), String> {
    let wrong =
        || format!("{what} is not proved:, pair:, full: or rust: and the name of a store or of a seed (speed --list)");
    let (side, name) = what.split_once(':').ok_or_else(wrong)?;
    let seed = SEEDS.iter().find(|seed| seed.name == name);
    match (side, seed, named(name)) {
        ("proved", Some(seed), _) => seed_proved(seed.start, seed.end, times),
        ("rust", Some(seed), _) => seed_rust(seed.start, seed.end, times),
        ("proved", _, Some(store)) => proved(store, times),
        ("pair", _, Some(store)) => pairs(&mut store.proved(), times),
        ("full", _, Some(store)) => pairs(&mut sides(&store).full, times),
        ("rust", _, Some(store)) => pairs(&mut store.rust(), times),
        _ => return Err(wrong()),
    }
    Ok(())
}

/// Of each store an acquire, its release, a check and a report.
fn proved(store: Store, times: u32) {
    let mut proved = store.proved();
    pairs(&mut proved, times);
    for _ in 0..times {
        assert!(black_box(&proved).check() && black_box(&proved).report().is_some(), "store {} is sound", store.name);
    }
}

fn pairs(side: &mut impl Side, times: u32) {
    // what the first pair opens stays opened
    for _ in 0..=times {
        let (refusal, base) = side.acquire(black_box(1));
        assert_eq!((refusal, side.release(base, 1)), (0, 0), "refusals of an acquire and of its release");
    }
}

fn seed_proved(start: u64, end: u64, times: u32) {
    let mut proved = Proved::new(POOL_LIMIT);
    for _ in 0..times {
        assert_eq!((proved.fresh(), proved.seed(start, end)), (0, 0), "a seed from {start} to {end}");
    }
}

fn seed_rust(start: u64, end: u64, times: u32) {
    for _ in 0..times {
        assert_eq!(black_box(Bare::new()).seed(start, end), 0, "a seed from {start} to {end}");
    }
}
