use super::*;
use crate::journal::{acquire, release, seed};
use std::collections::BTreeSet;

const BASE: u64 = 1 << 31;

/// Judges and applies one entry.
fn run(store: &mut Frames, entry: Entry) -> Told {
    let told = store.judge(entry);
    let before = store.clone();
    store.apply(entry);
    assert!(store.consistent());
    assert!(told.refusal == 0 || *store == before);
    told
}

fn refusal(store: &mut Frames, entry: Entry) -> u64 {
    run(store, entry).refusal
}

fn results(store: &mut Frames, entry: Entry) -> Vec<u64> {
    let told = run(store, entry);
    assert_eq!(told.refusal, 0, "{entry:?}");
    told.results
}

/// A store after entries that it all accepts.
fn after(entries: &[Entry]) -> Frames {
    let mut store = Frames::new();
    for &entry in entries {
        assert_eq!(refusal(&mut store, entry), 0, "{entry:?}");
    }
    store
}

/// All orders of four things.
fn orders() -> Vec<[usize; 4]> {
    let mut all = Vec::new();
    for number in 0..256 {
        let order = [number % 4, number / 4 % 4, number / 16 % 4, number / 64];
        if BTreeSet::from(order).len() == 4 {
            all.push(order);
        }
    }
    all
}

#[test]
fn fan_outs_multiply_to_the_frames() {
    assert_eq!([2, 3, 4, 5, 6].map(fan_out), [4, 128, 512, 512, 256]);
    assert_eq!([2, 3, 4, 5, 6].map(fan_out).iter().product::<u64>(), 1 << 35);
    assert_eq!(SIZES[5], END);
}

#[test]
fn p2_an_unseeded_store_is_out_of_pages() {
    let mut store = Frames::new();
    for code in 1..=6 {
        assert_eq!(run(&mut store, acquire(code)), Told { refusal: 8, results: vec![0, 0] });
    }
    assert_eq!(results(&mut store, Entry::Report), [0, 0, 0]);
}

#[test]
fn p3_the_whole_space_is_one_page() {
    let mut store = after(&[seed(0, END)]);
    assert_eq!(results(&mut store, Entry::Report), [END, END, 6]);
    assert_eq!(results(&mut store, acquire(6)), [0, 0]);
    for code in 1..=6 {
        assert_eq!(refusal(&mut store, acquire(code)), 8);
    }
    assert_eq!(results(&mut store, Entry::Report), [END, 0, 0]);
}

#[test]
fn p4_p5_seeds_past_the_end_and_empty() {
    let mut store = Frames::new();
    assert_eq!(refusal(&mut store, seed(0, END + 4_096)), 3);
    assert_eq!(refusal(&mut store, seed(4_096, 4_096)), 2);
}

#[test]
fn p7_the_printed_journal() {
    let mut store = Frames::new();
    assert_eq!(refusal(&mut store, seed(2_147_483_648, 2_147_508_224)), 0);
    assert_eq!(results(&mut store, acquire(1)), [2_147_483_648, 7]);
    assert_eq!(run(&mut store, acquire(2)), Told { refusal: 8, results: vec![0, 0] });
    assert_eq!(results(&mut store, acquire(1)), [2_147_487_744, 8]);
    assert_eq!(refusal(&mut store, release(2_147_483_648, 1)), 0);
    assert_eq!(refusal(&mut store, release(2_147_483_648, 1)), 7);
    assert_eq!(results(&mut store, Entry::Report), [24_576, 20_480, 1]);
}

#[test]
fn p8_four_releases_in_any_order() {
    assert_eq!(orders().len(), 24);
    for order in orders() {
        let mut store = after(&[seed(BASE, BASE + 16_384)]);
        for number in 0..4 {
            assert_eq!(results(&mut store, acquire(1)), [BASE + number * FRAME, 7 + number]);
        }
        for number in order {
            assert_eq!(refusal(&mut store, acquire(2)), 8);
            assert_eq!(refusal(&mut store, release(BASE + number as u64 * FRAME, 1)), 0);
        }
        assert_eq!(results(&mut store, acquire(2)), [BASE, 6]);
    }
}

#[test]
fn p10_the_last_frame() {
    let mut store = after(&[seed(END - FRAME, END)]);
    assert_eq!(results(&mut store, acquire(1)), [140_737_488_351_232, 1_412]);
    assert_eq!(refusal(&mut store, release(END - FRAME, 1)), 0);
}

#[test]
fn p11_p12_unseeded_frame_and_ninth_region() {
    let mut store = Frames::new();
    assert_eq!(refusal(&mut store, release(BASE, 1)), 6);
    for number in 0..8 {
        assert_eq!(refusal(&mut store, seed(2 * number * FRAME, (2 * number + 1) * FRAME)), 0);
    }
    assert_eq!(refusal(&mut store, seed(BASE, BASE + FRAME)), 5);
    assert_eq!(store.regions().len(), 8);
}

#[test]
fn seeds_are_refused_in_order() {
    let mut store = Frames::new();
    for number in 0..8 {
        let start = (2 * number + 1) * FRAME;
        for (from, to) in
            [(start + 1, start + FRAME), (start, start + FRAME + 1), (start, start), (start, start - FRAME)]
        {
            assert_eq!(refusal(&mut store, seed(from, to)), 2);
        }
        assert_eq!(refusal(&mut store, seed(1, END + FRAME)), 2, "2 before 3");
        assert_eq!(refusal(&mut store, seed(0, END + 1)), 2, "2 before 3");
        assert_eq!(refusal(&mut store, seed(END + FRAME, END + FRAME)), 2, "2 before 3");
        assert_eq!(refusal(&mut store, seed(0, END + FRAME)), 3, "3 before 4");
        assert_eq!(refusal(&mut store, seed(END, END + FRAME)), 3);
        assert_eq!(refusal(&mut store, seed(start, start + FRAME)), 0);
        assert_eq!(refusal(&mut store, seed(start, start + FRAME)), if number < 7 { 4 } else { 5 }, "5 before 4");
        assert_eq!(refusal(&mut store, seed(0, END)), if number < 7 { 4 } else { 5 }, "5 before 4");
    }
    assert_eq!(refusal(&mut store, seed(0, END + FRAME)), 3, "3 before 5");
    assert_eq!(refusal(&mut store, seed(1, FRAME)), 2, "2 before 5");
}

#[test]
fn seeds_share_frames_with_held_ones_too() {
    let mut store = after(&[seed(BASE, BASE + 2 * FRAME), acquire(1), acquire(1)]);
    assert_eq!(refusal(&mut store, seed(BASE - FRAME, BASE + FRAME)), 4);
    assert_eq!(refusal(&mut store, seed(BASE + FRAME, BASE + 3 * FRAME)), 4);
    assert_eq!(refusal(&mut store, seed(BASE - FRAME, BASE + 3 * FRAME)), 4);
    assert_eq!(refusal(&mut store, seed(BASE - FRAME, BASE)), 0);
    assert_eq!(refusal(&mut store, seed(BASE + 2 * FRAME, BASE + 3 * FRAME)), 0);
}

#[test]
fn releases_are_refused_in_order() {
    let mut store = after(&[seed(BASE, BASE + 5 * FRAME), acquire(1)]);
    assert_eq!(refusal(&mut store, release(1, 0)), 1, "1 before 2");
    assert_eq!(refusal(&mut store, release(u64::MAX, 7)), 1, "1 before 2 and 3");
    assert_eq!(refusal(&mut store, release(END + 1, 1)), 2, "2 before 3");
    assert_eq!(refusal(&mut store, release(BASE + FRAME, 2)), 2, "2 before 7");
    assert_eq!(refusal(&mut store, release(FRAME, 2)), 2, "2 before 6");
    assert_eq!(refusal(&mut store, release(END, 1)), 3);
    assert_eq!(refusal(&mut store, release(END, 6)), 3);
    assert_eq!(refusal(&mut store, release(END - SIZES[4], 5)), 6);
    assert_eq!(refusal(&mut store, release(BASE - FRAME, 1)), 6);
    assert_eq!(refusal(&mut store, release(BASE, 3)), 6, "6 before 7");
    assert_eq!(refusal(&mut store, release(BASE, 2)), 7);
    assert_eq!(refusal(&mut store, release(BASE + FRAME, 1)), 7);
    assert_eq!(refusal(&mut store, release(BASE, 1)), 0);
}

#[test]
fn one_frame_free_and_the_rest_unseeded() {
    let mut store = after(&[seed(BASE, BASE + FRAME)]);
    for code in 2..=6 {
        assert_eq!(refusal(&mut store, release(BASE - BASE % SIZES[code - 1], code as u8)), 6, "6 before 7");
    }
    assert_eq!(refusal(&mut store, release(BASE, 1)), 7);
    assert_eq!(refusal(&mut store, acquire(1)), 0);
    assert_eq!(refusal(&mut store, release(BASE, 2)), 6);
}

#[test]
fn a_frame_inside_a_larger_free_page() {
    let mut store = after(&[seed(0, END)]);
    for code in 1..=6 {
        assert_eq!(refusal(&mut store, release(0, code)), 7);
    }
    assert_eq!(refusal(&mut store, release(BASE + 5 * FRAME, 1)), 7);
    assert_eq!(refusal(&mut store, release(END - FRAME, 1)), 7);
}

#[test]
fn blocks_straddle_touching_regions() {
    for code in 2..=6 {
        let bytes = SIZES[code - 1];
        let base = END - bytes;
        for cut in [FRAME, bytes / 2, bytes - FRAME] {
            let upper_first = [seed(base + cut, END), seed(base, base + cut)];
            let mut store = after(&upper_first);
            let told = results(&mut store, acquire(code as u8));
            assert_eq!(told, [base, probes(base, code as u8)]);
            assert_eq!(results(&mut store, Entry::Report), [bytes, 0, 0]);
            assert_eq!(refusal(&mut store, release(base, code as u8)), 0);
            assert_eq!(results(&mut store, Entry::Report), [bytes, bytes, code as u64]);
        }
    }
}

#[test]
fn an_unaligned_run_holds_no_larger_block() {
    let mut store = after(&[seed(FRAME, 7 * FRAME)]);
    assert_eq!(refusal(&mut store, acquire(2)), 8);
    assert_eq!(results(&mut store, Entry::Report), [6 * FRAME, 6 * FRAME, 1]);
    assert_eq!(refusal(&mut store, seed(7 * FRAME, 8 * FRAME)), 0);
    assert_eq!(results(&mut store, acquire(2)), [4 * FRAME, 5]);
    assert_eq!(results(&mut store, acquire(1)), [FRAME, 6]);
}

#[test]
fn parts_and_joins() {
    let mut store = after(&[seed(BASE, BASE + 2 * SIZES[1]), acquire(2), acquire(1)]);
    assert_eq!(refusal(&mut store, release(BASE + 2 * FRAME, 1)), 0, "a part");
    assert_eq!(refusal(&mut store, release(BASE, 2)), 7, "the rest is held, the part is free");
    assert_eq!(results(&mut store, acquire(1)), [BASE + 2 * FRAME, 9]);
    assert_eq!(refusal(&mut store, release(BASE, 2)), 0, "two pieces joined");
    for number in 1..4 {
        assert_eq!(results(&mut store, acquire(1))[0], BASE + (number - 1) * FRAME);
    }
    assert_eq!(results(&mut store, acquire(1))[0], BASE + 3 * FRAME);
    assert_eq!(refusal(&mut store, release(BASE, 2)), 0, "four pages joined");
    assert_eq!(results(&mut store, acquire(2)), [BASE, 6]);
}

#[test]
fn one_frame_from_the_whole_space_and_back() {
    let mut store = after(&[seed(0, END), acquire(1)]);
    assert_eq!(results(&mut store, Entry::Report), [END, END - FRAME, 5]);
    for code in 1..=5u8 {
        assert_eq!(store.judge(acquire(code)).results, [SIZES[usize::from(code) - 1], 7 - u64::from(code)]);
    }
    assert_eq!(refusal(&mut store, acquire(6)), 8);
    assert_eq!(refusal(&mut store, release(0, 1)), 0);
    assert_eq!(results(&mut store, acquire(6)), [0, 0]);
}

/// Numbers at and around the limits.
fn big_numbers() -> Vec<u64> {
    let mut numbers = Vec::new();
    for middle in [0, 1 << 46, 1 << 47, 1 << 48, 1 << 63, u64::MAX] {
        for distance in [0u64, 1, 4_095, 4_096, 4_097, 16_384, 1 << 30, 1 << 39, 1 << 47] {
            numbers.push(middle.wrapping_add(distance));
            numbers.push(middle.wrapping_sub(distance));
        }
    }
    numbers
}

/// The refusal of a release on a store all of whose frames are held, in 128-bit numbers.
fn wide_release(base: u64, code: u8) -> u64 {
    let Some(bytes) = size(code).map(u128::from) else {
        return 1;
    };
    match u128::from(base) {
        wide if wide % bytes != 0 => 2,
        wide if wide + bytes > 1 << 47 => 3,
        _ => 0,
    }
}

#[test]
fn big_numbers_in_every_argument() {
    let empty = Frames::new();
    let held = after(&[seed(0, END), acquire(6)]);
    for code in 0..=255 {
        let expected = if (1..=6).contains(&code) { 8 } else { 1 };
        assert_eq!(empty.judge(acquire(code)).refusal, expected);
        for base in big_numbers() {
            assert_eq!(held.judge(release(base, code)).refusal, wide_release(base, code), "{base} {code}");
            let unseeded = if wide_release(base, code) == 0 { 6 } else { wide_release(base, code) };
            assert_eq!(empty.judge(release(base, code)).refusal, unseeded, "{base} {code}");
        }
    }
    for start in big_numbers() {
        for end in big_numbers() {
            let malformed = start % 4_096 != 0 || end % 4_096 != 0 || start >= end;
            let expected = if malformed { 2 } else { 3 * u64::from(end > 1 << 47) };
            assert_eq!(empty.judge(seed(start, end)).refusal, expected);
            let shared = if expected == 0 { 4 } else { expected };
            assert_eq!(held.judge(seed(start, end)).refusal, shared);
        }
    }
}

/// The same store with one member per frame, for low frames only.
#[derive(Default)]
struct Plain {
    regions: Vec<(u64, u64)>,
    seeded: BTreeSet<u64>,
    free: BTreeSet<u64>,
}

/// How many frames the plain store looks at.
const LOW: u64 = 1_100;

impl Plain {
    fn lowest(&self, frames: u64) -> Option<u64> {
        let whole = |first: u64| (first..first + frames).all(|frame| self.free.contains(&frame));
        (0..LOW).filter(|first| first % frames == 0).find(|&first| whole(first))
    }

    fn answer(&mut self, entry: Entry) -> Told {
        let refused = |refusal, results| Told { refusal, results };
        match entry {
            Entry::Seed { start, end } => {
                let frames: Vec<u64> = (start / FRAME..end / FRAME).collect();
                if self.regions.len() == 8 {
                    return refused(5, vec![]);
                }
                if frames.iter().any(|frame| self.seeded.contains(frame)) {
                    return refused(4, vec![]);
                }
                self.regions.push((start, end));
                self.seeded.extend(&frames);
                self.free.extend(&frames);
                refused(0, vec![])
            }
            Entry::Acquire { code } => {
                let frames = SIZES[usize::from(code) - 1] / FRAME;
                let Some(first) = self.lowest(frames) else {
                    return refused(8, vec![0, 0]);
                };
                self.free.retain(|&frame| frame < first || frame >= first + frames);
                let mut steps = vec![1, 1, first / 512 + 1, first % 512 / 4 + 1, first % 4 + 1];
                steps.truncate(6 - usize::from(code));
                refused(0, vec![first * FRAME, steps.iter().sum()])
            }
            Entry::Release { base, code } => self.release(base / FRAME, SIZES[usize::from(code) - 1] / FRAME),
            Entry::Report => {
                let largest = (1..=3u64).rev().find(|&code| self.lowest([1, 4, 512][code as usize - 1]).is_some());
                let bytes = |frames: &BTreeSet<u64>| frames.len() as u64 * FRAME;
                refused(0, vec![bytes(&self.seeded), bytes(&self.free), largest.unwrap_or(0)])
            }
        }
    }

    fn release(&mut self, first: u64, frames: u64) -> Told {
        let block: BTreeSet<u64> = (first..first + frames).collect();
        let refusal = match () {
            _ if !first.is_multiple_of(frames) => 2,
            _ if !block.is_subset(&self.seeded) => 6,
            _ if !block.is_disjoint(&self.free) => 7,
            _ => 0,
        };
        if refusal == 0 {
            self.free.extend(&block);
        }
        Told { refusal, results: vec![] }
    }
}

/// A fixed sequence of numbers that look random.
fn roll(state: &mut u64) -> u64 {
    *state = state.wrapping_mul(6_364_136_223_846_793_005).wrapping_add(1_442_695_040_888_963_407);
    *state >> 33
}

#[test]
fn ranges_agree_with_a_plain_set_of_frames() {
    for number in 0..60 {
        let mut state = number;
        let (mut store, mut plain) = (Frames::new(), Plain::default());
        for _ in 0..250 {
            let (choice, frame) = (roll(&mut state) % 20, roll(&mut state) % LOW);
            let code = [1, 1, 2, 2, 3][roll(&mut state) as usize % 5];
            let length = [1, 3, 40, 200, 520][roll(&mut state) as usize % 5];
            let entry = match choice {
                0..=1 => seed(frame / 2 * FRAME, (frame / 2 + 1 + roll(&mut state) % length) * FRAME),
                2..=9 => acquire(code),
                10..=18 => release(frame / (SIZES[usize::from(code) - 1] / FRAME) * SIZES[usize::from(code) - 1], code),
                _ => Entry::Report,
            };
            assert_eq!(run(&mut store, entry), plain.answer(entry), "journal {number}, {entry:?}");
        }
    }
}
