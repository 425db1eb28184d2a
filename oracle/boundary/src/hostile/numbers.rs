//! Numbers of all magnitudes, and calls with them.

use crate::ask::Ask;
use oracle::frames::{END, FRAME, SIZES};
use oracle::generate::dice::Dice;
use oracle::store::{POOL_LIMIT, REGIONS, State};

/// Codes that are none, some of them one once they are cut.
const BAD_CODES: [u64; 8] = [0, 7, 255, 256, 257, (1 << 32) + 1, u64::MAX, 1 << 63];

/// A number at a limit, or a byte, a page or a block off.
fn at_a_limit(dice: &mut Dice) -> u64 {
    let limit = dice.pick(&[0, END, END, 1 << 63, u64::MAX, 1 << 32, POOL_LIMIT as u64]);
    let block = dice.pick(&SIZES);
    let distance = dice.pick(&[0, 0, 0, 1, FRAME, FRAME, FRAME + 1, block]);
    if dice.chance(1, 2) { limit.wrapping_add(distance) } else { limit.wrapping_sub(distance) }
}

/// Any number, of any magnitude.
pub fn any(dice: &mut Dice) -> u64 {
    match dice.below(6) {
        0 => dice.roll(),
        1 | 2 => dice.roll() >> dice.below(64),
        3 => dice.below(20_000),
        _ => at_a_limit(dice),
    }
}

/// A code, every third time none of the six.
fn code(dice: &mut Dice) -> u64 {
    let good = dice.between(1, 6);
    match dice.below(9) {
        0 => dice.pick(&BAD_CODES),
        1 => dice.pick(&[good + 256, good + (1 << 32), good + (1 << 63), good.wrapping_neg()]),
        2 => any(dice),
        3 | 4 => dice.between(1, 2),
        _ => good,
    }
}

/// An address in a region of the state, at one of its ends, or any number, aligned or not.
fn address(dice: &mut Dice, state: State) -> u64 {
    let place = dice.below(REGIONS as u64 / 2) as usize;
    let (start, end) = (state.starts[place], state.ends[place]);
    match dice.below(8) {
        0 => dice.pick(&[start, end, start.wrapping_sub(FRAME), end.wrapping_sub(FRAME)]),
        1 => any(dice),
        2 => at_a_limit(dice),
        3 => dice.below(END / FRAME) * FRAME,
        _ if start < end => start + dice.below(end - start) / FRAME * FRAME,
        _ => dice.below(END),
    }
}

/// Start and end of a region to seed.
fn region(dice: &mut Dice, state: State) -> (u64, u64) {
    let start = address(dice, state);
    let block = dice.pick(&SIZES);
    let frames = dice.between(1, 40) * FRAME;
    match dice.below(8) {
        0 => (start, address(dice, state)),
        1 => (any(dice), any(dice)),
        2 => (start, start),
        3 => (start - start % block, (start - start % block).wrapping_add(block)),
        _ => (start - start % FRAME, (start - start % FRAME).wrapping_add(frames)),
    }
}

/// A release of a block around some address; every fourth time it is not aligned to its size.
fn release(dice: &mut Dice, state: State) -> Ask {
    let (base, code) = (address(dice, state), code(dice));
    let size = (1..=6).contains(&code).then(|| SIZES[code as usize - 1]);
    match size {
        Some(bytes) if dice.chance(3, 4) => Ask::Release { base: base - base % bytes, code },
        _ => Ask::Release { base, code },
    }
}

/// Any call but fresh on a store of the state.
pub fn ask(dice: &mut Dice, state: State) -> Ask {
    let (start, end) = region(dice, state);
    match dice.below(13) {
        0..=2 => Ask::Seed { start, end },
        3..=5 => Ask::Acquire { code: code(dice) },
        6..=9 => release(dice, state),
        10 => Ask::Report,
        11 => Ask::Check,
        _ => Ask::RoomFor { start, end },
    }
}
