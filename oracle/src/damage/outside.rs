//! Damages of the regions and of the pool's length.

use super::Damaged;
use crate::frames::{END, FRAME};
use crate::generate::dice::Dice;
use crate::store::{POOL_LIMIT, REGIONS, State};

/// Some region place that is not zero.
fn filled(store: &Damaged, dice: &mut Dice) -> Option<usize> {
    let places: Vec<usize> = (0..REGIONS).filter(|&place| region(store, place) != (0, 0)).collect();
    (!places.is_empty()).then(|| dice.pick(&places))
}

/// The first region place that is zero.
fn unused(store: &Damaged) -> Option<usize> {
    (0..REGIONS).find(|&place| region(store, place) == (0, 0))
}

fn region(store: &Damaged, place: usize) -> (u64, u64) {
    (store.state.starts[place], store.state.ends[place])
}

fn set(store: &mut Damaged, place: usize, (start, end): (u64, u64)) {
    store.state.starts[place] = start;
    store.state.ends[place] = end;
}

/// Gives a filled place what the edit makes of it.
fn edit(store: &mut Damaged, dice: &mut Dice, edit: impl Fn(u64, u64, &mut Dice) -> (u64, u64)) -> bool {
    let Some(place) = filled(store, dice) else { return false };
    let (start, end) = region(store, place);
    let edited = edit(start, end, dice);
    set(store, place, edited);
    edited != (start, end)
}

/// Puts a region into the first unused place.
fn add(store: &mut Damaged, region: (u64, u64)) -> bool {
    let Some(place) = unused(store) else { return false };
    set(store, place, region);
    true
}

pub fn unaligned(store: &mut Damaged, dice: &mut Dice) -> bool {
    edit(store, dice, |start, end, dice| {
        let bytes = dice.pick(&[1, 2_048, 4_095, 8]);
        let either =
            [(start.wrapping_add(bytes), end), (start, end.wrapping_add(bytes)), (start, end.wrapping_sub(bytes))];
        dice.pick(&either)
    })
}

pub fn unaligned_added(store: &mut Damaged, dice: &mut Dice) -> bool {
    let start = dice.below(END / FRAME) * FRAME;
    let bytes = dice.pick(&[1, 2_048, 4_095]);
    let both = [(start + bytes, start + FRAME), (start, start + bytes), (start + bytes, start + bytes + FRAME)];
    add(store, dice.pick(&both))
}

pub fn empty(store: &mut Damaged, dice: &mut Dice) -> bool {
    edit(store, dice, |start, end, dice| dice.pick(&[(start, start), (end, end), (start, 0)]))
}

pub fn empty_added(store: &mut Damaged, dice: &mut Dice) -> bool {
    let start = dice.between(1, END / FRAME) * FRAME;
    add(store, dice.pick(&[(start, start), (start, 0), (start, start - FRAME)]))
}

pub fn ends_swapped(store: &mut Damaged, dice: &mut Dice) -> bool {
    edit(store, dice, |start, end, _| (end, start))
}

pub fn past_the_top(store: &mut Damaged, dice: &mut Dice) -> bool {
    let past = dice.pick(&[END + FRAME, END * 2, 1 << 63, u64::MAX - FRAME + 1]);
    if dice.chance(1, 2) {
        edit(store, dice, |start, _, _| (start, past))
    } else {
        add(store, dice.pick(&[(END, END + FRAME), (past - FRAME, past), (END - FRAME, past)]))
    }
}

pub fn overlapping(store: &mut Damaged, dice: &mut Dice) -> bool {
    let Some(place) = filled(store, dice) else { return false };
    let (start, end) = region(store, place);
    let before = start.saturating_sub(FRAME);
    let behind = end.wrapping_add(FRAME);
    let last = end.saturating_sub(FRAME);
    add(
        store,
        dice.pick(&[(start, end), (before, start.wrapping_add(FRAME)), (last, behind), (before, behind), (0, END)]),
    )
}

/// A region goes, and its place stays zero or takes the region behind it.
pub fn removed(store: &mut Damaged, dice: &mut Dice) -> bool {
    let Some(place) = filled(store, dice) else { return false };
    set(store, place, (0, 0));
    if dice.chance(2, 3) {
        for place in place..REGIONS - 1 {
            let behind = region(store, place + 1);
            set(store, place, behind);
        }
        set(store, REGIONS - 1, (0, 0));
    }
    true
}

/// A region moves to a place further on.
pub fn gap_in_the_places(store: &mut Damaged, dice: &mut Dice) -> bool {
    let (Some(place), Some(unused)) = (filled(store, dice), unused(store)) else { return false };
    let further = dice.between(unused as u64, REGIONS as u64 - 1) as usize;
    let moved = region(store, place);
    set(store, place, (0, 0));
    set(store, further, moved);
    true
}

/// A region behind a zero place.
pub fn behind_a_zero_place(store: &mut Damaged, dice: &mut Dice) -> bool {
    let Some(unused) = unused(store) else { return false };
    if unused + 1 >= REGIONS {
        return false;
    }
    let place = dice.between(unused as u64 + 1, REGIONS as u64 - 1) as usize;
    let start = dice.below(END / FRAME) * FRAME;
    set(store, place, (start, start + FRAME));
    true
}

/// Only the start or only the end of a region.
pub fn half_a_place(store: &mut Damaged, dice: &mut Dice) -> bool {
    let Some(unused) = unused(store) else { return false };
    let place = dice.between(unused as u64, REGIONS as u64 - 1) as usize;
    let number = dice.pick(&[FRAME, 1, END, u64::MAX, 1 << 32]);
    set(store, place, dice.pick(&[(number, 0), (0, number)]));
    true
}

pub fn shrunk(store: &mut Damaged, dice: &mut Dice) -> bool {
    edit(store, dice, |start, end, dice| {
        let bytes = dice.between(1, 5) * FRAME;
        let half = end.saturating_sub(start) / 2 / FRAME * FRAME;
        let less =
            [(start.wrapping_add(bytes), end), (start, end.wrapping_sub(bytes)), (start, end.wrapping_sub(half))];
        dice.pick(&less)
    })
}

pub fn grown(store: &mut Damaged, dice: &mut Dice) -> bool {
    edit(store, dice, |start, end, dice| {
        let bytes = dice.between(1, 5) * FRAME;
        dice.pick(&[(start.saturating_sub(bytes), end), (start, end.wrapping_add(bytes)), (0, end), (start, END)])
    })
}

/// A region more that touches another one.
pub fn touching(store: &mut Damaged, dice: &mut Dice) -> bool {
    let Some(place) = filled(store, dice) else { return false };
    let (start, end) = region(store, place);
    let bytes = dice.between(1, 5) * FRAME;
    add(store, dice.pick(&[(end, end.wrapping_add(bytes)), (start.wrapping_sub(bytes), start)]))
}

/// One region becomes two that touch.
pub fn split(store: &mut Damaged, dice: &mut Dice) -> bool {
    let (Some(place), Some(unused)) = (filled(store, dice), unused(store)) else { return false };
    let (start, end) = region(store, place);
    if end.saturating_sub(start) < 2 * FRAME {
        return false;
    }
    let middle = start + dice.between(1, (end - start) / FRAME - 1) * FRAME;
    set(store, place, (start, middle));
    set(store, unused, (middle, end));
    true
}

/// One region becomes two that leave some frames between them out.
pub fn hole(store: &mut Damaged, dice: &mut Dice) -> bool {
    let (Some(place), Some(unused)) = (filled(store, dice), unused(store)) else { return false };
    let (start, end) = region(store, place);
    if end.saturating_sub(start) < 3 * FRAME {
        return false;
    }
    let frames = (end - start) / FRAME;
    let from = dice.between(1, frames - 2);
    let to = if dice.chance(1, 2) { from + 1 } else { dice.between(from + 1, frames - 1) };
    set(store, place, (start, start + from * FRAME));
    set(store, unused, (start + to * FRAME, end));
    true
}

pub fn reordered(store: &mut Damaged, dice: &mut Dice) -> bool {
    let (Some(one), Some(two)) = (filled(store, dice), filled(store, dice)) else { return false };
    store.state.starts.swap(one, two);
    store.state.ends.swap(one, two);
    one != two
}

/// One region of all addresses.
pub fn all_addresses(store: &mut Damaged, _: &mut Dice) -> bool {
    store.state = State { used: store.state.used, ..State::default() };
    store.state.ends[0] = END;
    true
}

pub fn state_of_zeros(store: &mut Damaged, _: &mut Dice) -> bool {
    store.state = State::default();
    true
}

pub fn cut_to_used(store: &mut Damaged, _: &mut Dice) -> bool {
    store.pool.truncate(store.live());
    true
}

pub fn cut_below_used(store: &mut Damaged, dice: &mut Dice) -> bool {
    let live = store.live();
    if live == 0 {
        return false;
    }
    let any = dice.below(live as u64) as usize;
    store.pool.truncate(dice.pick(&[live - 1, live / 2, any]));
    true
}

pub fn longer(store: &mut Damaged, dice: &mut Dice) -> bool {
    let words = store.pool.len() + dice.between(1, 2_000) as usize;
    store.pool.resize(words, dice.roll() as u32);
    true
}

/// Words that no block has.
pub fn behind_used(store: &mut Damaged, dice: &mut Dice) -> bool {
    let live = store.live();
    for word in store.pool.iter_mut().skip(live) {
        *word = dice.roll() as u32;
    }
    live < store.pool.len()
}

pub fn empty_pool(store: &mut Damaged, dice: &mut Dice) -> bool {
    store.pool.clear();
    store.state.used = dice.pick(&[0, 1, store.state.used]);
    true
}

/// Rare, as it is large.
pub fn above_the_limit(store: &mut Damaged, dice: &mut Dice) -> bool {
    if dice.chance(19, 20) {
        return false;
    }
    store.pool.resize(POOL_LIMIT + dice.pick(&[0, 0, 1, 5]), 0);
    true
}
