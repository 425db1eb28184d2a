use super::*;
use crate::generate::dice::Dice;
use crate::reference::{CALLS, block_range, fresh};

const GIB: u64 = BYTES[4];
const PAGE: u64 = BYTES[1];

/// A state of regions, and nothing else.
fn state_of(regions: &[Range]) -> State {
    let mut state = State::default();
    for (place, &(start, end)) in regions.iter().enumerate() {
        (state.starts[place], state.ends[place]) = (start, end);
    }
    state
}

/// What `room_for` says of regions, the last being the one more.
fn room_of(regions: &[Range]) -> (u64, u64) {
    let (last, others) = regions.split_last().expect("a region");
    room_for(state_of(others), last.0, last.1)
}

#[test]
fn a_gib_at_a_multiple_of_a_gib() {
    // the root, one node each of codes 6, 5 and 4, 512 of code 3 and 512 * 128 of code 2
    assert_eq!(1 + 257 + 513 + 513 + 512 * 129 + 512 * 128 * 5, 395_012);
    for start in [0, GIB, 2 * GIB, 511 * GIB, 512 * GIB, TOP - GIB] {
        assert_eq!(room_for(State::default(), start, start + GIB), (0, 395_012), "at {start}");
    }
}

#[test]
fn one_frame_and_all_frames() {
    assert_eq!(room_for(State::default(), TOP - PAGE, TOP), (0, 1_418));
    let all = 1 + 257 + 256 * (513 + 512 * (513 + 512 * (129 + 128 * 5)));
    assert_eq!(room_for(State::default(), 0, TOP), (0, all));
}

#[test]
fn refusals_in_their_order() {
    let eight: Vec<Range> = (0..8).map(|place| (place * GIB, place * GIB + PAGE)).collect();
    let full = state_of(&eight);
    let one = state_of(&eight[1..2]);
    let refused = |state, start, end| {
        let (refusal, words) = room_for(state, start, end);
        assert!(refusal == 0 || words == 0, "words {words} beside refusal {refusal}");
        refusal
    };
    let mut damaged = one;
    damaged.ends[0] += 1;
    assert_eq!(refused(damaged, 1, 0), 10);
    for (start, end) in [(1, TOP + PAGE), (0, PAGE + 1), (PAGE, PAGE), (TOP + PAGE, TOP), (u64::MAX, 0)] {
        assert_eq!(refused(full, start, end), 2, "{start} {end}");
    }
    assert_eq!(refused(full, 0, TOP + PAGE), 3);
    assert_eq!(refused(full, 0, TOP), 5);
    assert_eq!(refused(one, 0, TOP), 4);
    assert_eq!(refused(one, GIB, GIB + PAGE), 4);
    assert_eq!(refused(one, GIB - PAGE, GIB), 0);
    assert_eq!(refused(State { used: u64::MAX, ..one }, GIB + PAGE, GIB + 2 * PAGE), 0);
}

#[test]
fn unsound_regions_get_10() {
    let sound = state_of(&[(0, PAGE), (GIB, 2 * GIB)]);
    let damages: [fn(&mut State); 8] = [
        |state| state.starts[0] = 1,
        |state| state.ends[1] += 1,
        |state| state.ends[0] = 0,
        |state| state.starts[1] = 2 * GIB,
        |state| state.ends[1] = TOP + PAGE,
        |state| state.ends[0] = GIB + PAGE,
        |state| (state.starts[7], state.ends[7]) = (4 * GIB, 5 * GIB),
        |state| state.starts[2] = PAGE,
    ];
    assert_eq!(room_for(sound, 2 * GIB, 3 * GIB).0, 0);
    for (place, damage) in damages.iter().enumerate() {
        let mut state = sound;
        damage(&mut state);
        assert_eq!(room_for(state, 2 * GIB, 3 * GIB), (10, 0), "damage {place}");
    }
}

/// Up to eight regions of a few frames that share none, near each other and near where large blocks meet.
fn some_regions(dice: &mut Dice, frames: u64) -> Vec<Range> {
    let meeting = dice.pick(&[0, BYTES[3], GIB, BYTES[5], 3 * BYTES[5] + GIB]);
    let mut at = meeting.saturating_sub(dice.below(2 * frames) * PAGE);
    let mut regions = Vec::new();
    for _ in 0..dice.between(1, 8) {
        at += dice.pick(&[0, 0, 1, 2, 3, 5, 127, 600]) * PAGE;
        let end = at + dice.between(1, frames) * PAGE;
        regions.push((at, end));
        at = end;
    }
    dice.shuffle(&mut regions);
    regions
}

/// Every node of every code from the lowest address to the highest, one after the other.
fn by_brute_force(regions: &[Range]) -> u64 {
    let low = regions.iter().map(|region| region.0).min().expect("a region");
    let high = regions.iter().map(|region| region.1).max().expect("a region");
    let mut words = 1;
    for code in FRAME + 1..=ROOT {
        for node in low / BYTES[code]..=high / BYTES[code] {
            let inside =
                |&region: &Range| node * BYTES[code] < TOP && share(region, block_range(node * BYTES[code], code));
            if regions.iter().any(inside) {
                words += FAN_OUT[code] as u64 + 1;
            }
        }
    }
    words
}

#[test]
fn small_regions_against_all_nodes() {
    for number in 0..2_000 {
        let regions = some_regions(&mut Dice::new(number, 71), 700);
        assert_eq!(room_of(&regions), (0, by_brute_force(&regions)), "number {number}: {regions:?}");
    }
}

/// Seeds the regions and acquires all their frames one by one; gives used, and whether a call answers 9.
fn fill(regions: &[Range], words: u64) -> (u64, bool) {
    let mut pool = vec![0xdead_beef; words as usize];
    let mut state = fresh(&mut pool).state;
    let mut dry = false;
    for &(start, end) in regions {
        let answer = (CALLS.seed)(state, &mut pool, start, end);
        assert!([0, 9].contains(&answer.refusal), "a seed answers {}", answer.refusal);
        dry |= answer.refusal == 9;
        state = answer.state;
    }
    loop {
        let answer = (CALLS.acquire)(state, &mut pool, FRAME as u64);
        state = answer.state;
        match answer.refusal {
            0 => {}
            8 => return (state.used, dry),
            9 => return (state.used, true),
            other => panic!("an acquire answers {other}"),
        }
    }
}

#[test]
fn the_words_are_exactly_enough() {
    for number in 0..60 {
        let regions = some_regions(&mut Dice::new(number, 72), 40);
        let (refusal, words) = room_of(&regions);
        assert_eq!(refusal, 0, "number {number}: {regions:?}");
        assert_eq!(fill(&regions, words), (words, false), "number {number}: {regions:?}");
        assert!(fill(&regions, words - 1).1, "number {number}: a word less is enough: {regions:?}");
    }
}
