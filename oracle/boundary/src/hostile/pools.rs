//! States and pools to ask about: random ones, sound ones that no calls lead to, and those that a journal leaves.

use super::numbers::any;
use oracle::frames::{END, FRAME, SIZES};
use oracle::generate::dice::Dice;
use oracle::generate::{Generator, Profile};
use oracle::reference::{CALLS, FAN_OUT, ROOT, Word, new_node, pack, unpack};
use oracle::store::{REGIONS, State};

/// A state and the words in use.
pub type Store = (State, Vec<u32>);

/// The shortest pools in which a block of code 1, 2, .. 6 can be stored.
const ROOMS: [u64; 6] = [1_418, 1_413, 1_284, 771, 258, 1];

/// The pool that journals grow in.
const GROWN: usize = 4_000;

/// How many entries a grown journal has.
const ENTRIES: usize = 40;

/// The length of a pool in use: often one that runs dry, seldom a long one.
pub fn length(dice: &mut Dice) -> usize {
    let length = match dice.below(20) {
        0..=2 => dice.between(1, 1_412),
        3..=5 => (dice.pick(&ROOMS) + 5 * dice.below(12)).saturating_sub(dice.below(2)).max(1),
        6..=13 => dice.between(1_413, 3_000),
        14..=18 => dice.between(3_000, 6_000),
        _ => dice.between(6_000, 20_000),
    };
    length as usize
}

/// Words of one kind: any numbers, words that look like nodes, or all the same.
pub fn words(dice: &mut Dice, length: usize) -> Vec<u32> {
    let same = dice.pick(&[0, u32::MAX, 96, 80, 16]);
    let kind = dice.below(4);
    let word = |dice: &mut Dice| match kind {
        0 | 1 => dice.roll() as u32,
        2 => node(dice, length as u64),
        _ => same,
    };
    (0..length).map(|_| word(dice)).collect()
}

/// A word that looks like a node's.
fn node(dice: &mut Dice, length: u64) -> u32 {
    let link = if dice.chance(1, 4) { dice.below(length + 2) as usize } else { 0 };
    let level = dice.below(8) as usize;
    let token = dice.chance(1, 8);
    let max = if token { level } else { dice.pick(&[0, 0, 0, 1, level, 7]) };
    pack(Word { max, token, level, link })
}

/// A state of any numbers, some of them equal, zero, or right for the length.
pub fn state(dice: &mut Dice, length: usize) -> State {
    let near = dice.below((length as u64).saturating_add(2));
    let mut state = State { used: dice.pick(&[1, length as u64, near, u64::MAX]), ..State::default() };
    if dice.chance(1, 2) {
        state.used = any(dice);
    }
    for place in 0..dice.below(REGIONS as u64 + 1) as usize {
        let (start, end) = (any(dice), any(dice));
        (state.starts[place], state.ends[place]) = dice.pick(&[(start, end), (start, start), (0, end), (start, 0)]);
    }
    state
}

/// Puts regions that share no frame into a state, in any order.
pub fn seed_regions(dice: &mut Dice, state: &mut State) {
    let count = dice.below(REGIONS as u64 + 1);
    let mut cuts: Vec<u64> = (0..2 * count).map(|_| cut(dice)).collect();
    cuts.sort();
    cuts.dedup();
    let mut regions: Vec<(u64, u64)> = cuts.chunks_exact(2).map(|pair| (pair[0], pair[1])).collect();
    dice.shuffle(&mut regions);
    (state.starts, state.ends) = ([0; REGIONS], [0; REGIONS]);
    for (place, &(start, end)) in regions.iter().enumerate() {
        (state.starts[place], state.ends[place]) = (start, end);
    }
}

/// Where a region may start or end: at a multiple of some size, or a few frames off.
fn cut(dice: &mut Dice) -> u64 {
    let bytes = dice.pick(&SIZES);
    let near = dice.below(END / bytes + 1) * bytes;
    if dice.chance(1, 2) { near } else { near.saturating_sub(dice.below(6) * FRAME) }
}

/// A sound store whose nodes are opened at random or in order until no more fits, and which offers nothing.
pub fn opened(dice: &mut Dice, length: usize) -> Store {
    let mut pool = vec![pack(new_node(ROOT))];
    let mut nodes = vec![(0, ROOT)];
    let in_order = dice.chance(1, 2);
    let mut next = 0;
    while next < nodes.len() {
        if !in_order {
            let other = next + dice.below((nodes.len() - next) as u64) as usize;
            nodes.swap(next, other);
        }
        let (place, code) = nodes[next];
        next += 1;
        let header = pool.len();
        if code == 1 || header + FAN_OUT[code] + 1 > length {
            continue;
        }
        pool[place] = pack(Word { link: header, ..unpack(pool[place]) });
        pool.push(place as u32);
        pool.extend(std::iter::repeat_n(pack(new_node(code - 1)), FAN_OUT[code]));
        nodes.extend((header + 1..pool.len()).map(|child| (child, code - 1)));
    }
    let mut state = State { used: pool.len() as u64, ..State::default() };
    seed_regions(dice, &mut state);
    (state, pool)
}

/// What the reference leaves after each of a journal's entries.
pub fn grown(dice: &mut Dice) -> Vec<Store> {
    let mut generator = Generator::new(dice.pick(Profile::ALL), dice.below(1 << 20));
    let mut pool = vec![0; GROWN];
    let mut state = (CALLS.fresh)(&mut pool).state;
    let mut stores = vec![(state, pool[..1].to_vec())];
    for _ in 0..ENTRIES {
        let entry = generator.next();
        let answer = CALLS.answer(state, &mut pool, entry);
        generator.answered(entry, &answer);
        state = answer.state;
        stores.push((state, pool[..state.used as usize].to_vec()));
    }
    stores
}
