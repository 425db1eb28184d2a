//! The figures and rules of document 01, asked of the reference.

use oracle::journal::{Entry, encode};
use oracle::reference::*;
use oracle::store::{Answer, POOL_LIMIT, REGIONS, State};

/// Where the document's journal seeds.
const GIB2: u64 = 2_147_483_648;

/// The bytes of a frame.
const PAGE: u64 = 4_096;

/// What a pool holds before fresh.
const GARBAGE: u32 = 0xDEAD_BEEF;

/// A store under test: a pool that held garbage before fresh, and its state.
#[derive(Clone, Debug, PartialEq, Eq)]
struct Store {
    state: State,
    pool: Vec<u32>,
}

impl Store {
    /// A fresh store with a pool of that many words.
    fn new(words: usize) -> Store {
        let mut pool = vec![GARBAGE; words];
        let answer = fresh(&mut pool);
        assert_eq!((answer.refusal, answer.results.len()), (0, 0));
        Store { state: answer.state, pool }
    }

    /// Takes the state of an answer; a refusal must have changed nothing and must answer zeros.
    fn keep(&mut self, before: Store, answer: Answer) -> (u64, Vec<u64>) {
        self.state = answer.state;
        if answer.refusal != 0 {
            assert_eq!(*self, before);
            assert!(answer.results.iter().all(|&result| result == 0));
        }
        let used = self.state.used as usize;
        if answer.refusal == 0 {
            assert_eq!(self.pool[used..], before.pool[used..], "words from used on are not written");
            assert_eq!(unsound_because(self.state, &self.pool), None);
            assert!(used as u64 >= before.state.used);
        }
        (answer.refusal, answer.results)
    }

    /// Seeds; gives the refusal number.
    fn seed(&mut self, start: u64, end: u64) -> u64 {
        let before = self.clone();
        let answer = (CALLS.seed)(self.state, &mut self.pool, start, end);
        let (refusal, results) = self.keep(before, answer);
        assert_eq!(results.len(), 0);
        refusal
    }

    /// Acquires; gives the refusal number, base and probes.
    fn acquire(&mut self, code: u64) -> (u64, u64, u64) {
        let before = self.clone();
        let answer = (CALLS.acquire)(self.state, &mut self.pool, code);
        let (refusal, results) = self.keep(before, answer);
        assert_eq!(results.len(), 2);
        (refusal, results[0], results[1])
    }

    /// Releases; gives the refusal number.
    fn release(&mut self, base: u64, code: u64) -> u64 {
        let before = self.clone();
        let answer = (CALLS.release)(self.state, &mut self.pool, base, code);
        let (refusal, results) = self.keep(before, answer);
        assert_eq!(results.len(), 0);
        refusal
    }

    /// Reports; gives the refusal number and the four numbers; changes nothing.
    fn report(&mut self) -> (u64, [u64; 4]) {
        let before = self.clone();
        let answer = (CALLS.report)(self.state, &mut self.pool);
        let (refusal, results) = self.keep(before.clone(), answer);
        assert_eq!(*self, before);
        (refusal, results.try_into().expect("four numbers"))
    }
}

/// A store seeded with the ranges, all of which are accepted.
fn seeded(words: usize, ranges: &[Range]) -> Store {
    let mut store = Store::new(words);
    for &(start, end) in ranges {
        assert_eq!(store.seed(start, end), 0, "{start} to {end}");
    }
    store
}

/// All orders of the numbers.
fn orders(numbers: Vec<u64>) -> Vec<Vec<u64>> {
    if numbers.is_empty() {
        return vec![Vec::new()];
    }
    let mut all = Vec::new();
    for at in 0..numbers.len() {
        let mut rest = numbers.clone();
        let first = rest.remove(at);
        all.extend(orders(rest).into_iter().map(|order| [vec![first], order].concat()));
    }
    all
}

// ---- 'Sizes', 'State and pool words' ----

#[test]
fn the_table_of_sizes() {
    assert_eq!(BYTES[FRAME], PAGE);
    for code in FRAME + 1..=ROOT {
        assert_eq!(BYTES[code], FAN_OUT[code] as u64 * BYTES[code - 1]);
    }
    assert_eq!(TOP, 1 << 47);
    let named: Vec<Option<usize>> = (0..=7).map(code_of).collect();
    assert_eq!(named, [None, Some(1), Some(2), Some(3), Some(4), Some(5), Some(6), None]);
    assert_eq!(code_of(u64::MAX), None);
}

#[test]
fn words_pack_as_they_unpack() {
    for word in (0..=u32::MAX).step_by(65_521).chain(0..1024).chain([u32::MAX]) {
        assert_eq!(pack(unpack(word)), word);
    }
    assert_eq!(unpack(110), Word { max: 6, token: true, level: 6, link: 0 });
    assert_eq!(unpack(96), new_node(ROOT));
    for code in FRAME..=ROOT {
        assert_eq!(pack(new_node(code)) as usize, 16 * code);
    }
}

#[test]
fn fresh_writes_word_0_alone() {
    let store = Store::new(5);
    assert_eq!(store.pool, [96, GARBAGE, GARBAGE, GARBAGE, GARBAGE]);
    assert_eq!(store.state, State { used: 1, ..State::default() });
}

#[test]
fn fresh_refuses_by_length() {
    for (length, refusal) in [(0, 11), (1, 0), (2, 0), (1_048_576, 0), (1_048_577, 11), (2_097_152, 11)] {
        let mut pool = vec![GARBAGE; length];
        let answer = (CALLS.fresh)(&mut pool);
        assert_eq!(answer.refusal, refusal, "{length}");
        assert_eq!(answer.state.used, u64::from(refusal == 0));
        assert!(pool.iter().skip(1).all(|&word| word == GARBAGE));
        if refusal != 0 {
            assert_eq!(answer, Answer { refusal: 11, state: State::default(), results: vec![] });
            assert!(pool.iter().all(|&word| word == GARBAGE));
            assert!(!check(answer.state, &pool));
        }
    }
    assert!(!check(State::default(), &[96]));
    assert!(!check(State::default(), &[]));
}

// ---- 'Journal' ----

/// The journal that the document prints the output of.
fn printed_journal() -> Vec<Entry> {
    vec![
        Entry::Seed { start: GIB2, end: 2_147_508_224 },
        Entry::Acquire { code: 1 },
        Entry::Acquire { code: 2 },
        Entry::Acquire { code: 1 },
        Entry::Release { base: GIB2, code: 1 },
        Entry::Release { base: GIB2, code: 1 },
        Entry::Report,
    ]
}

#[test]
fn the_printed_journal() {
    let expected = "pool 16384\n1 seed 0\n2 acquire 0 2147483648 7\n3 acquire 8 0 0\n4 acquire 0 2147487744 8\n\
                    5 release 0\n6 release 7\n7 report 0 24576 20480 1 1423\n";
    assert_eq!(replay(&encode(&printed_journal())), expected);
}

#[test]
fn journals_that_end_early() {
    assert_eq!(replay(&[]), "pool 16384\n");
    for kind in [0, 5, 6, 12, 255] {
        assert_eq!(replay(&[kind]), "pool 16384\n1 bad 12\n");
        assert_eq!(replay(&[4, kind, 4]), "pool 16384\n1 report 0 0 0 0 1\n2 bad 12\n");
    }
    for entry in
        [Entry::Seed { start: 0, end: 1 << 47 }, Entry::Acquire { code: 6 }, Entry::Release { base: 0, code: 1 }]
    {
        let whole = encode(&[entry]);
        for length in 1..whole.len() {
            assert_eq!(replay(&whole[..length]), "pool 16384\n1 bad 13\n");
        }
        assert!(!replay(&whole).contains("bad"));
    }
    let bytes = [2, 0, 2, 7, 2, 255, 3, 0, 0, 0, 0, 0, 0, 0, 0, 7, 4];
    let expected = "pool 16384\n1 acquire 1 0 0\n2 acquire 1 0 0\n3 acquire 1 0 0\n4 release 1\n5 report 0 0 0 0 1\n";
    assert_eq!(replay(&bytes), expected);
}

#[test]
fn all_cuts_of_the_printed_journal() {
    let bytes = encode(&printed_journal());
    let whole = replay(&bytes);
    for length in 0..bytes.len() {
        let printed = replay(&bytes[..length]);
        let kept: String =
            printed.lines().filter(|line| !line.contains("bad 13")).map(|line| format!("{line}\n")).collect();
        assert!(whole.starts_with(&kept));
    }
}

// ---- 'Cases at the fences' ----

#[test]
fn p1_fan_outs_multiply_to_2_to_the_35_frames() {
    let product: usize = FAN_OUT[FRAME + 1..].iter().product();
    assert_eq!(product, 1 << 35);
    assert_eq!(product as u64 * PAGE, TOP);
}

#[test]
fn p2_an_unseeded_store_refuses_all_six_codes() {
    for words in [1, 1_423, 16_384] {
        let mut store = Store::new(words);
        for code in 1..=6 {
            assert_eq!(store.acquire(code), (8, 0, 0));
        }
    }
}

#[test]
fn p3_all_addresses() {
    for words in [1, 16_384] {
        let mut store = seeded(words, &[(0, 1 << 47)]);
        assert_eq!((store.state.used, store.pool[0]), (1, 110));
        assert_eq!(store.acquire(6), (0, 0, 0));
        assert_eq!((store.state.used, store.pool[0]), (1, 96));
        for code in 1..=6 {
            assert_eq!(store.acquire(code), (8, 0, 0));
        }
    }
}

#[test]
fn p4_p5_seeds_refused() {
    let mut store = Store::new(16_384);
    assert_eq!(store.seed(0, (1 << 47) + PAGE), 3);
    assert_eq!(store.seed(PAGE, PAGE), 2);
}

#[test]
fn p6_p7_the_journals_seed_and_acquires() {
    let mut store = seeded(16_384, &[(GIB2, GIB2 + 24_576)]);
    assert_eq!(store.state.used, 1_418);
    let view = View::read(store.state, &store.pool);
    let tokens: Vec<(u64, usize)> =
        view.nodes.iter().filter(|node| node.word().token).map(|node| (node.base, node.code)).collect();
    assert_eq!(tokens, [(GIB2, 2), (GIB2 + 16_384, 1), (GIB2 + 20_480, 1)]);
    assert_eq!(free_ranges(store.state, &store.pool), [(GIB2, GIB2 + 24_576)]);
    assert_eq!(store.acquire(1), (0, GIB2, 7));
    assert_eq!(store.acquire(2), (8, 0, 0));
    assert_eq!(store.acquire(1), (0, 2_147_487_744, 8));
    assert_eq!(store.state.used, 1_423);
    assert_eq!(free_ranges(store.state, &store.pool), [(GIB2 + 8_192, GIB2 + 24_576)]);
}

#[test]
fn p8_four_releases_in_any_order() {
    let all = orders(vec![0, 1, 2, 3]);
    assert_eq!(all.len(), 24);
    for order in all {
        let mut store = seeded(16_384, &[(GIB2, GIB2 + 16_384)]);
        for number in 0..4 {
            assert_eq!(store.acquire(1), (0, GIB2 + number * PAGE, 7 + number));
        }
        assert_eq!(store.acquire(1), (8, 0, 0));
        for number in order {
            assert_eq!(store.release(GIB2 + number * PAGE, 1), 0);
        }
        assert_eq!(store.acquire(2), (0, GIB2, 6));
    }
}

#[test]
fn p9_room_for_16_kib() {
    for words in [1, 2, 258, 771, 1_284, 1_412] {
        let mut store = Store::new(words);
        assert_eq!(store.seed(GIB2, GIB2 + 16_384), 9);
        assert!(store.pool[1..].iter().all(|&word| word == GARBAGE));
    }
    assert_eq!(seeded(1_413, &[(GIB2, GIB2 + 16_384)]).state.used, 1_413);
}

#[test]
fn p10_the_last_frame() {
    let mut store = seeded(16_384, &[((1 << 47) - PAGE, 1 << 47)]);
    assert_eq!(store.acquire(1), (0, 140_737_488_351_232, 1_412));
}

#[test]
fn p11_p12_release_unseeded_and_a_ninth_region() {
    let mut store = Store::new(16_384);
    assert_eq!(store.release(GIB2, 1), 6);
    for number in 0..8 {
        assert_eq!(store.seed(GIB2 + number * 8_192, GIB2 + number * 8_192 + PAGE), 0);
    }
    assert_eq!(store.release(GIB2 + PAGE, 1), 6);
    assert_eq!(store.seed(0, PAGE), 5);
}

#[test]
fn release_of_a_part_of_an_unopened_page() {
    for (words, refusal, used) in [(1_413, 9, 1_413), (1_417, 9, 1_413), (1_418, 0, 1_418), (16_384, 0, 1_418)] {
        let mut store = seeded(words, &[(GIB2, GIB2 + 16_384)]);
        assert_eq!(store.acquire(2), (0, GIB2, 6));
        assert_eq!(store.state.used, 1_413);
        for part in [0, 3] {
            assert_eq!(store.clone().release(GIB2 + part * PAGE, 1), refusal, "{words}");
        }
        assert_eq!(store.release(GIB2 + PAGE, 1), refusal, "{words}");
        assert_eq!(store.state.used, used);
    }
}

// ---- 'What the calls do' ----

#[test]
fn the_words_of_one_opening() {
    let mut store = seeded(300, &[(549_755_813_888, 2 * 549_755_813_888)]);
    assert_eq!(store.state.used, 258);
    assert_eq!(store.pool[..4], [5 + 96 + 128, 0, 80, 5 + 8 + 80]);
    assert!(store.pool[4..258].iter().all(|&word| word == 80));
    assert!(store.pool[258..].iter().all(|&word| word == GARBAGE));
    assert_eq!(store.acquire(5), (0, 549_755_813_888, 2));
    assert_eq!(store.pool[..4], [96 + 128, 0, 80, 80]);
}

#[test]
fn a_seed_from_0_goes_by_alignment_and_end() {
    let store = seeded(16_384, &[(PAGE, 2 * 2_097_152 + 16_384 + PAGE)]);
    let view = View::read(store.state, &store.pool);
    let mut tokens: Vec<(u64, usize)> =
        view.nodes.iter().filter(|node| node.word().token).map(|node| (node.base, node.code)).collect();
    tokens.sort();
    assert_eq!(tokens[..4], [(PAGE, 1), (2 * PAGE, 1), (3 * PAGE, 1), (4 * PAGE, 2)]);
    assert_eq!(tokens[tokens.len() - 3..], [(2_097_152, 3), (4_194_304, 2), (4_210_688, 1)]);
    assert_eq!(tokens.len(), 3 + 127 + 3);
}

#[test]
fn acquire_takes_the_first_fit_and_not_the_tightest() {
    let mut store = seeded(16_384, &[(0, 16_384), (32_768, 36_864)]);
    assert_eq!(store.acquire(1).1, 0);
    let mut store = seeded(16_384, &[(2_097_152, 4_194_304), (16_384, 20_480)]);
    assert_eq!(store.acquire(2), (0, 2_097_152, 1 + 1 + 2 + 1));
    assert_eq!(store.acquire(1), (0, 16_384, 1 + 1 + 1 + 2 + 1));
    assert_eq!(store.acquire(1), (0, 2_097_152 + 16_384, 1 + 1 + 2 + 2 + 1));
}

#[test]
fn touching_regions_merge() {
    let mut store = seeded(16_384, &[(GIB2, GIB2 + 8_192), (GIB2 + 8_192, GIB2 + 16_384)]);
    assert_eq!(store.report(), (0, [16_384, 16_384, 2, 1_418]));
    assert_eq!(free_ranges(store.state, &store.pool), [(GIB2, GIB2 + 16_384)]);
    assert_eq!(store.acquire(2), (0, GIB2, 6));
    let halves = seeded(16_384, &[(1 << 46, 1 << 47), (0, 1 << 46)]);
    assert_eq!(unpack(halves.pool[0]), Word { max: 6, token: true, level: 6, link: 1 });
    assert_eq!(halves.state.used, 258);
}

#[test]
fn merging_cascades_to_the_root() {
    let last = (1 << 47) - PAGE;
    let mut store = seeded(16_384, &[(0, last), (last, 1 << 47)]);
    assert_eq!(store.report(), (0, [1 << 47, 1 << 47, 6, 1_418]));
    assert_eq!(unpack(store.pool[0]), Word { max: 6, token: true, level: 6, link: 1 });
    assert_eq!(store.acquire(1), (0, 0, 5));
    assert_eq!(store.report(), (0, [1 << 47, last, 5, 1_418 + 513 + 513 + 129 + 5]));
    assert_eq!(store.release(0, 1), 0);
    assert_eq!(store.acquire(6), (0, 0, 0));
}

#[test]
fn a_block_across_two_touching_regions_is_released() {
    let mut store = seeded(16_384, &[(GIB2 + PAGE, GIB2 + 16_384), (GIB2 - 16_384, GIB2 + PAGE)]);
    assert_eq!(store.acquire(2), (0, GIB2 - 16_384, 1 + 2 + 512 + 128));
    assert_eq!(store.acquire(2), (0, GIB2, 6));
    assert_eq!(store.report().1[1], 0);
    assert_eq!(store.release(GIB2, 2), 0);
    assert_eq!(store.release(GIB2, 2), 7);
    assert_eq!(store.release(GIB2 + 16_384, 2), 6);
    assert_eq!(store.acquire(2), (0, GIB2, 6));
    let mut apart = seeded(16_384, &[(GIB2 + 8_192, GIB2 + 16_384), (GIB2, GIB2 + PAGE)]);
    for _ in 0..3 {
        assert_eq!(apart.acquire(1).0, 0);
    }
    assert_eq!(apart.release(GIB2, 2), 6);
}

#[test]
fn parts_and_joined_pages_are_released() {
    let mut store = seeded(16_384, &[(0, 2_097_152)]);
    assert_eq!(store.acquire(3), (0, 0, 3));
    assert_eq!(store.release(16_384, 2), 0);
    assert_eq!(store.release(16_384 + PAGE, 1), 7);
    assert_eq!(store.release(0, 3), 7);
    assert_eq!(store.acquire(1), (0, 16_384, 1 + 1 + 1 + 2 + 1));
    assert_eq!(store.acquire(1), (0, 16_384 + PAGE, 1 + 1 + 1 + 2 + 2));
    assert_eq!(store.release(16_384, 2), 7);
    assert_eq!(store.acquire(1).1, 16_384 + 2 * PAGE);
    assert_eq!(store.acquire(1).1, 16_384 + 3 * PAGE);
    assert_eq!(store.release(0, 3), 0);
    assert_eq!(store.acquire(3), (0, 0, 3));
}

#[test]
fn the_last_free_child_leaves_max_0() {
    let mut store = seeded(16_384, &[(0, PAGE)]);
    assert_eq!(store.acquire(1), (0, 0, 5));
    assert_eq!(store.report(), (0, [PAGE, 0, 0, 1_418]));
    assert!(View::read(store.state, &store.pool).nodes.iter().all(|node| node.word().max == 0));
}

// ---- 'Refusal numbers' ----

/// A sound store to damage, with free and held frames and eight regions.
fn eight_regions(words: usize) -> Store {
    let ranges: Vec<Range> = (0..8).map(|number| (number * 65_536, number * 65_536 + 16_384)).collect();
    let mut store = seeded(words, &ranges);
    assert_eq!(store.acquire(2), (0, 0, 4));
    store
}

#[test]
fn each_refusal_of_seed() {
    let mut damaged = Store::new(16_384);
    damaged.pool[0] = 97;
    assert_eq!(damaged.seed(0, PAGE), 10);
    assert_eq!(damaged.seed(1, 0), 10, "10 before 2");
    let mut store = Store::new(16_384);
    for (start, end) in [(1, PAGE), (0, 1), (0, 0), (2 * PAGE, PAGE), (PAGE - 1, 2 * PAGE), (0, PAGE + 1)] {
        assert_eq!(store.seed(start, end), 2, "{start} to {end}");
    }
    assert_eq!(store.seed(0, (1 << 47) + 1), 2, "2 before 3");
    assert_eq!(store.seed((1 << 47) + PAGE, 1 << 47), 2);
    assert_eq!(store.seed(1 << 47, (1 << 47) + PAGE), 3);
    let mut full = eight_regions(16_384);
    assert_eq!(full.seed(0, PAGE), 5, "5 before 4");
    assert_eq!(full.seed(16_384, 32_768), 5);
    assert_eq!(full.seed(0, (1 << 47) + PAGE), 3, "3 before 5");
    assert_eq!(full.seed(0, 0), 2, "2 before 5");
    let mut store = seeded(1_418, &[(8_192, 16_384)]);
    for (start, end) in [(0, 12_288), (8_192, 12_288), (12_288, 1 << 47), (0, 1 << 47)] {
        assert_eq!(store.seed(start, end), 4, "4 before 9: {start} to {end}");
    }
    assert_eq!(store.seed(0, (1 << 47) + PAGE), 3, "3 before 4");
    assert_eq!(store.seed(16_384 + PAGE, 16_384 + 2 * PAGE), 9);
    assert_eq!(store.seed(16_384, 32_768), 0);
    assert_eq!(store.seed(0, 8_192), 0);
}

#[test]
fn seed_refused_with_9_stores_no_half_region() {
    let mut store = Store::new(1_417);
    assert_eq!(store.seed(GIB2, GIB2 + 24_576), 9);
    assert_eq!(store, Store::new(1_417));
    let mut store = seeded(1_418, &[(GIB2, GIB2 + 24_576)]);
    assert_eq!(store.seed(GIB2 + 32_768, GIB2 + 65_536 + PAGE), 9);
    assert_eq!(store.seed(GIB2 + 32_768, GIB2 + 65_536), 0);
}

#[test]
fn each_refusal_of_acquire() {
    let mut damaged = Store::new(16_384);
    damaged.pool[0] = 97;
    for code in [0, 1, 6, 7, u64::MAX] {
        assert_eq!(damaged.acquire(code), (10, 0, 0), "10 before 1 and 8");
    }
    let mut store = Store::new(1);
    for code in [0, 7, 8, 257, 1 << 32, (1 << 32) + 1, u64::MAX] {
        assert_eq!(store.acquire(code), (1, 0, 0), "1 before 8");
    }
    assert_eq!(store.acquire(1), (8, 0, 0));
    let mut store = seeded(1, &[(0, 1 << 47)]);
    for code in 1..=5 {
        assert_eq!(store.acquire(code), (9, 0, 0));
    }
    assert_eq!(store.acquire(0), (1, 0, 0), "1 before 9");
    for (words, least) in [(257, 6), (258, 5), (770, 5), (771, 4), (1_284, 3), (1_413, 2), (1_418, 1)] {
        let store = seeded(words, &[(0, 1 << 47)]);
        for code in 1..=6 {
            let refusal = if code < least { 9 } else { 0 };
            assert_eq!(store.clone().acquire(code).0, refusal, "{words} words, code {code}");
        }
    }
    let mut store = seeded(1_413, &[(0, 16_384)]);
    assert_eq!(store.acquire(3), (8, 0, 0), "8 before 9");
    assert_eq!(store.acquire(1), (9, 0, 0));
}

#[test]
fn each_refusal_of_release() {
    let mut damaged = Store::new(16_384);
    damaged.pool[0] = 97;
    assert_eq!(damaged.release(0, 1), 10);
    assert_eq!(damaged.release(1, 0), 10, "10 before 1");
    let mut store = eight_regions(16_384);
    for code in [0, 7, 256, 257, u64::MAX] {
        assert_eq!(store.release(0, code), 1);
        assert_eq!(store.release(1, code), 1, "1 before 2");
        assert_eq!(store.release(1 << 47, code), 1, "1 before 3");
    }
    for code in 1..=6 {
        let bytes = BYTES[code as usize];
        assert_eq!(store.release(1, code), 2, "2 before 6");
        assert_eq!(store.release(bytes - 1, code), 2);
        assert_eq!(store.release((1 << 47) - 1, code), 2, "2 before 3");
        assert_eq!(store.release(u64::MAX, code), 2);
        assert_eq!(store.release(1 << 47, code), 3, "3 before 6");
        assert_eq!(store.release(0u64.wrapping_sub(bytes), code), 3);
        assert_eq!(store.release((1 << 47) - bytes, code), 6);
    }
    assert_eq!(store.release(65_536, 3), 2);
    assert_eq!(store.release(0, 3), 6, "6 before 7");
    assert_eq!(store.release(65_536, 2), 7);
    assert_eq!(store.release(65_536 + PAGE, 1), 7);
    assert_eq!(store.release(16_384, 1), 6);
    assert_eq!(store.release(0, 2), 0);
    assert_eq!(store.release(0, 2), 7);
    let mut tight = Store::new(1);
    assert_eq!(tight.release(0, 1), 6, "6 before 9");
    assert_eq!(tight.seed(0, 1 << 47), 0);
    assert_eq!(tight.release(0, 1), 7, "7 before 9");
    assert_eq!(tight.acquire(6), (0, 0, 0));
    assert_eq!(tight.release(0, 5), 9);
    assert_eq!(tight.release(0, 6), 0);
}

#[test]
fn a_part_of_a_block_that_is_free_refuses_the_whole() {
    let mut store = seeded(16_384, &[(0, 2_097_152)]);
    assert_eq!(store.acquire(1), (0, 0, 5));
    for code in [2, 3] {
        assert_eq!(store.release(0, code), 7);
    }
    assert_eq!(store.release(0, 4), 6);
    assert_eq!(store.release(0, 1), 0);
}

#[test]
fn refusals_of_report_and_check() {
    let mut store = eight_regions(16_384);
    assert_eq!(store.report(), (0, [8 * 16_384, 7 * 16_384, 2, 1_413]));
    assert!((CALLS.check)(store.state, &store.pool));
    store.pool[0] += 1;
    assert_eq!(store.report(), (10, [0; 4]));
    assert!(!(CALLS.check)(store.state, &store.pool));
}

#[test]
fn every_call_refuses_lengths_out_of_range() {
    for words in [0, POOL_LIMIT + 1] {
        let mut pool = vec![96; words];
        let state = State { used: 1, ..State::default() };
        assert_eq!(seed(state, &mut pool, 0, TOP), Answer { refusal: 10, state, results: vec![] });
        assert_eq!(acquire(state, &mut pool, 0), Answer { refusal: 10, state, results: vec![0; 2] });
        assert_eq!(release(state, &mut pool, 1, 0), Answer { refusal: 10, state, results: vec![] });
        assert_eq!(report(state, &mut pool), Answer { refusal: 10, state, results: vec![0; 4] });
        assert!(!check(state, &pool));
        assert!(pool.iter().all(|&word| word == 96));
    }
}

// ---- 'Sound' ----

/// The clauses that a state and pool fail.
fn failing(state: State, pool: &[u32]) -> Vec<&'static str> {
    let view = View::read(state, pool);
    CLAUSES.iter().filter(|clause| !clause.1(&view)).map(|clause| clause.0).collect()
}

/// A damaged store fails this clause and no other, and every call refuses it with 10.
fn assert_fails_only(clause: &str, state: State, pool: &[u32]) {
    assert_eq!(failing(state, pool), [clause]);
    assert_fails_first(clause, state, pool);
}

/// A damaged store fails this clause before all others, and every call refuses it with 10.
fn assert_fails_first(clause: &str, state: State, pool: &[u32]) {
    assert!(CLAUSES.iter().any(|known| known.0 == clause), "{clause}");
    assert_eq!(unsound_because(state, pool), Some(clause));
    assert!(!sound(state, pool));
    let mut store = Store { state, pool: pool.to_vec() };
    assert_eq!(store.seed(0, PAGE), 10);
    assert_eq!(store.acquire(1), (10, 0, 0));
    assert_eq!(store.release(0, 1), 10);
    assert_eq!(store.report(), (10, [0; 4]));
}

/// A state with these regions from the first place on.
fn state(used: u64, regions: &[Range]) -> State {
    let mut state = State { used, ..State::default() };
    for (place, region) in regions.iter().enumerate() {
        (state.starts[place], state.ends[place]) = *region;
    }
    state
}

/// A pool whose root is opened once: 256 children of code 5.
fn root_opened(root: u32, child: u32) -> Vec<u32> {
    [vec![root + 128, 0], vec![child; 256]].concat()
}

/// One word of a pool changed.
fn changed(pool: &[u32], place: usize, word: u32) -> Vec<u32> {
    let mut pool = pool.to_vec();
    pool[place] = word;
    pool
}

#[test]
fn unsound_by_used() {
    assert_fails_only("used is at least 1", state(0, &[]), &[96]);
    assert_fails_first("used is at least 1", state(0, &[]), &[]);
    assert_fails_first("used is at most the pool's length", state(1, &[]), &[]);
    assert_fails_first("used is at most the pool's length", state(2, &[]), &[96]);
    assert_fails_first("used is at most the pool's length", state(258, &[]), &root_opened(96, 80)[..257]);
    assert_fails_first("used is at most the pool's length", state(u64::MAX, &[]), &[96; 3]);
    let limit = "the pool's length is within its limit";
    assert_fails_only(limit, state(1, &[]), &vec![96; POOL_LIMIT + 1]);
    assert!(sound(state(1, &[]), &vec![96; POOL_LIMIT]));
}

#[test]
fn unsound_by_levels() {
    let clause = "levels match the tree";
    for level in [0, 1, 5, 7] {
        assert_fails_only(clause, state(1, &[]), &[16 * level]);
    }
    for level in [0, 4, 6, 7] {
        let mut pool = root_opened(96, 80);
        pool[257] = 16 * level;
        assert_fails_only(clause, state(258, &[]), &pool);
    }
    let store = seeded(1_500, &[(0, PAGE)]);
    assert_fails_only(clause, store.state, &changed(&store.pool, 1_417, 32));
}

#[test]
fn unsound_by_a_link_of_code_1() {
    let clause = "a node of code 1 has link 0";
    let mut store = seeded(1_419, &[(0, PAGE)]);
    assert_eq!(store.state.used, 1_418);
    assert_eq!(store.pool[1_413..1_418], [1_285, 1 + 8 + 16, 16, 16, 16]);
    // A header without children behind all others, since the fan-out of code 1 is 0.
    store.pool[1_414] += 128 * 1_418;
    store.pool[1_418] = 1_414;
    store.state.used = 1_419;
    assert_fails_only(clause, store.state, &store.pool);
}

#[test]
fn unsound_by_links_and_headers() {
    let clause = "links and headers name each other";
    let mut pool = root_opened(96, 80);
    pool[1] = 1;
    assert_fails_only(clause, state(258, &[]), &pool);
    let store = seeded(1_500, &[(0, PAGE)]);
    assert_fails_only(clause, store.state, &changed(&store.pool, 258, 3));
    // Two nodes with one block.
    let mut twice = store.clone();
    twice.pool[3] = twice.pool[2];
    assert_fails_first(clause, twice.state, &twice.pool);
    // Links out of range, and a link to its own node's block.
    for link in [1, 2, 1_418, 1_499, 1_500, (1 << 25) - 1] {
        assert_fails_first(clause, store.state, &changed(&store.pool, 3, 80 + 128 * link));
    }
}

#[test]
fn unsound_by_gap_and_overlap() {
    let clause = "the blocks fill places 1 to used - 1 with no gap and no overlap";
    assert_fails_only(clause, state(2, &[]), &[96, 0]);
    assert_fails_only(clause, state(3, &[]), &[96, 0, 0, 0]);
    // The block begins one place late.
    let mut late = root_opened(96 + 128, 80);
    late.insert(1, 0);
    assert_fails_only(clause, state(259, &[]), &late);
    // The block's last child lies past used.
    assert_eq!(unsound_because(state(257, &[]), &root_opened(96, 80)), Some(clause));
    // A block from place 257 on shares it with the root's block; the sizes still add up to used.
    let mut pool = vec![64; 771];
    pool[0] = 224;
    pool[1] = 0;
    pool[2..=257].fill(80);
    pool[80] = 32_976;
    assert!(!sound(state(771, &[]), &pool));
    assert_fails_only(clause, state(771, &[]), &pool);
    // The same overlap with used one less: no place is left over.
    assert_fails_only(clause, state(770, &[]), &pool);
    assert_fails_only(clause, state(770, &[]), &pool[..770]);
}

#[test]
fn unsound_by_a_block_before_its_parent() {
    let mut pool = vec![0; 771];
    pool[0] = 96 + 128 * 514;
    pool[1] = 515;
    pool[2..=513].fill(64);
    pool[514] = 0;
    pool[515..].fill(80);
    pool[515] = 80 + 128;
    assert_fails_only("each block lies behind its parent", state(771, &[]), &pool);
}

#[test]
fn unsound_by_tokens() {
    let clause = "a token node has max = level";
    for max in [0, 1, 5, 7] {
        assert_fails_only(clause, state(1, &[(0, TOP)]), &[96 + 8 + max]);
    }
    let below = "a token node has nothing offered below it";
    let mut pool = root_opened(96 + 8 + 6, 80);
    assert!(sound(state(258, &[(0, TOP)]), &pool));
    pool[100] = 80 + 8 + 5;
    assert_fails_only(below, state(258, &[(0, TOP)]), &pool);
    assert_fails_only(below, state(258, &[(0, TOP)]), &root_opened(96 + 8 + 6, 80 + 8 + 5));
    // Not only the children: a frame far below a free root.
    let mut store = seeded(1_500, &[(0, TOP)]);
    store.acquire(1);
    store.release(0, 1);
    assert_eq!(store.pool[0], 96 + 8 + 6 + 128);
    let mut pool = changed(&store.pool, 1_414, 16 + 8 + 1);
    let unmatched = "an opened node without token has the maximum of its children";
    assert_eq!(failing(store.state, &pool), [below, unmatched]);
    for place in [2, 259, 772, 1_285] {
        pool[place] += 1;
    }
    assert_fails_only(below, store.state, &pool);
}

#[test]
fn unsound_by_max() {
    let clause = "an unopened node without token has max 0";
    for max in 1..=7 {
        assert_fails_only(clause, state(1, &[(0, TOP)]), &[96 + max]);
    }
    assert_fails_only(clause, state(258, &[]), &changed(&root_opened(96 + 5, 80), 9, 80 + 5));
    let clause = "an opened node without token has the maximum of its children";
    for max in [1, 5, 6, 7] {
        assert_fails_only(clause, state(258, &[]), &root_opened(96 + max, 80));
    }
    let offered = changed(&root_opened(96 + 5, 80), 9, 80 + 8 + 5);
    assert!(sound(state(258, &[(0, TOP)]), &offered));
    for max in [0, 4, 6] {
        assert_fails_only(clause, state(258, &[(0, TOP)]), &changed(&offered, 0, 96 + 128 + max));
    }
    let clause = "not all children of an opened node without token have tokens";
    assert_fails_only(clause, state(258, &[(0, TOP)]), &root_opened(96 + 5, 80 + 8 + 5));
}

#[test]
fn unsound_by_regions() {
    let clause = "region places are filled from the first without a gap";
    assert_fails_only(clause, state(1, &[(0, 0), (0, PAGE)]), &[96]);
    assert_fails_only(clause, state(1, &[(0, PAGE), (0, 0), (PAGE, 2 * PAGE)]), &[96]);
    let mut last = State { used: 1, ..State::default() };
    last.ends[REGIONS - 1] = PAGE;
    assert_fails_only(clause, last, &[96]);
    let clause = "regions are page-aligned";
    assert_fails_only(clause, state(1, &[(1, PAGE)]), &[96]);
    assert_fails_only(clause, state(1, &[(0, PAGE), (PAGE, TOP - 1)]), &[96]);
    assert_fails_only(clause, state(1, &[(2_048, 2_048 + PAGE)]), &[96]);
    let clause = "regions are not empty";
    assert_fails_only(clause, state(1, &[(PAGE, PAGE)]), &[96]);
    assert_fails_only(clause, state(1, &[(2 * PAGE, PAGE)]), &[96]);
    assert_fails_only(clause, state(1, &[(0, PAGE), (PAGE, 0)]), &[96]);
    let clause = "regions end at or below 2^47";
    assert_fails_only(clause, state(1, &[(0, TOP + PAGE)]), &[96]);
    assert_fails_only(clause, state(1, &[(TOP, TOP + PAGE)]), &[96]);
    assert_fails_only(clause, state(1, &[(0, u64::MAX - 4_095)]), &[96]);
    let clause = "regions share no frame";
    assert_fails_only(clause, state(1, &[(0, 2 * PAGE), (PAGE, 3 * PAGE)]), &[96]);
    assert_fails_only(clause, state(1, &[(0, PAGE), (PAGE, 2 * PAGE), (0, PAGE)]), &[96]);
    assert_fails_only(clause, state(1, &[(PAGE, 2 * PAGE), (0, TOP)]), &[96]);
    assert!(sound(state(1, &[(PAGE, 2 * PAGE), (0, PAGE), (2 * PAGE, TOP)]), &[96]));
}

#[test]
fn unsound_by_a_token_outside_the_regions() {
    let clause = "every token's block lies in the union of the regions";
    let gap = [(0, 4 * PAGE), (5 * PAGE, TOP)];
    for regions in [&[][..], &[(0, TOP - PAGE)], &[(PAGE, TOP)], &gap] {
        assert_fails_only(clause, state(1, regions), &[96 + 8 + 6]);
    }
    let halves = [(4 * PAGE, TOP), (0, 4 * PAGE)];
    assert!(sound(state(1, &halves), &[96 + 8 + 6]));
    let store = seeded(1_500, &[(PAGE, 2 * PAGE)]);
    let mut moved = store.state;
    (moved.starts[0], moved.ends[0]) = (0, PAGE);
    assert_fails_only(clause, moved, &store.pool);
}

#[test]
fn every_clause_has_a_damaged_store_of_its_own() {
    let source = include_str!("document.rs");
    for (words, _) in CLAUSES {
        assert!(source.contains(&format!("{words:?}")), "{words}");
    }
}

#[test]
fn every_changed_word_of_a_sound_store_leaves_the_calls_total() {
    let mut store = seeded(1_500, &[(GIB2, GIB2 + 24_576)]);
    store.acquire(1);
    let mut random = Random(7);
    for place in (0..1_423).step_by(3).chain(1_400..1_423) {
        for bit in 0..32 {
            let pool = changed(&store.pool, place, store.pool[place] ^ (1 << bit));
            let mut damaged = Store { state: store.state, pool };
            let sound = check(damaged.state, &damaged.pool);
            assert_eq!(damaged.report().0, if sound { 0 } else { 10 });
            if random.below(8) == 0 {
                assert_eq!(damaged.acquire(1).0 == 10, !sound);
            }
        }
    }
    for _ in 0..2_000 {
        let mut damaged = store.clone();
        for _ in 0..=random.below(6) {
            let place = random.below(1_423) as usize;
            damaged.pool[place] = match random.below(3) {
                0 => random.next() as u32,
                1 => damaged.pool[random.below(1_423) as usize],
                _ => damaged.pool[place] % 128 + 128 * random.below(1_500) as u32,
            };
        }
        let sound = check(damaged.state, &damaged.pool);
        assert_eq!(damaged.acquire(1).0 == 10, !sound);
    }
}

// ---- Many calls ----

/// A plain generator of numbers, the same in each run.
struct Random(u64);

impl Random {
    /// The next number.
    fn next(&mut self) -> u64 {
        self.0 = self.0.wrapping_mul(6_364_136_223_846_793_005).wrapping_add(1_442_695_040_888_963_407);
        let mixed = (self.0 ^ (self.0 >> 29)).wrapping_mul(0xBF58_476D_1CE4_E5B9);
        mixed ^ (mixed >> 32)
    }

    /// The next number below a bound.
    fn below(&mut self, bound: u64) -> u64 {
        self.next() % bound
    }
}

/// The frames of ranges, as numbers.
fn frames(ranges: &[Range]) -> std::collections::BTreeSet<u64> {
    ranges.iter().flat_map(|range| range.0 / PAGE..range.1 / PAGE).collect()
}

/// One random call in a window of frames; the free frames go as a plain set of frames says.
fn one_call(store: &mut Store, window: u64, span: u64, random: &mut Random) -> (u64, u64) {
    let free_before = frames(&free_ranges(store.state, &store.pool));
    let mut free = free_before.clone();
    let kind = random.below(8);
    let refusal = match kind {
        0 => {
            let start = window + random.below(span) * PAGE;
            let end = start + random.below(40) * PAGE;
            let refusal = store.seed(start, end);
            if refusal == 0 {
                free.extend(frames(&[(start, end)]));
            }
            refusal
        }
        1..=3 => {
            let code = 1 + random.below(3) * random.below(2);
            let (refusal, base, probes) = store.acquire(code);
            if refusal == 0 {
                let taken = frames(&[block_range(base, code as usize)]);
                assert!(taken.is_subset(&free));
                assert_eq!(probes, probe_sum(base, code as usize));
                free.retain(|frame| !taken.contains(frame));
            }
            refusal
        }
        _ => {
            let code = 1 + random.below(3) * random.below(2);
            let base = (window + random.below(span) * PAGE) / BYTES[code as usize] * BYTES[code as usize];
            let given = frames(&[block_range(base, code as usize)]);
            let refusal = store.release(base, code);
            assert_eq!(refusal == 0 || refusal == 6 || refusal == 9, free.is_disjoint(&given) || refusal == 6);
            if refusal == 0 {
                free.extend(given);
            }
            refusal
        }
    };
    assert_eq!(frames(&free_ranges(store.state, &store.pool)), free);
    if refusal != 0 {
        assert_eq!(free, free_before);
    }
    (kind, refusal)
}

#[test]
fn many_calls_stay_sound_and_keep_the_free_frames() {
    let mut seen = std::collections::BTreeMap::new();
    for (number, words) in [1_418, 1_450, 1_600, 16_384, 16_384, 16_384].into_iter().enumerate() {
        let mut random = Random(number as u64 + 1);
        let mut store = Store::new(words);
        let window = [0, GIB2, TOP - 300 * PAGE][number % 3];
        for _ in 0..300 {
            let (kind, refusal) = one_call(&mut store, window, 300, &mut random);
            *seen.entry((kind.min(4), refusal)).or_insert(0) += 1;
            let held = frames(&regions(store.state)).len() - frames(&free_ranges(store.state, &store.pool)).len();
            let (refusal, [seeded, free, largest, used]) = store.report();
            assert_eq!((refusal, used), (0, store.state.used));
            assert_eq!(seeded - free, held as u64 * PAGE);
            let free = free_ranges(store.state, &store.pool);
            assert_eq!(largest, (0..=6).rev().find(|&code| code == 0 || has_free_block(&free, code)).unwrap() as u64);
        }
    }
    for expected in [(0, 0), (0, 2), (0, 4), (0, 5), (0, 9), (1, 0), (1, 8), (4, 0), (4, 6), (4, 7)] {
        assert!(seen.contains_key(&expected), "{expected:?} in {seen:?}");
    }
}

// ---- Big numbers ----

/// 0, 2^47, 2^63 and 2^64 - 1, with one page and one byte around each.
fn big_numbers() -> Vec<u64> {
    let around = |number: u64| {
        [0, 1, 2, PAGE, 2 * PAGE, 0u64.wrapping_sub(1), 0u64.wrapping_sub(PAGE)].map(|step| number.wrapping_add(step))
    };
    [0, 1 << 47, 1 << 63, u64::MAX, 1 << 32, 1 << 20].into_iter().flat_map(around).collect()
}

#[test]
fn big_numbers_in_seed() {
    for start in big_numbers() {
        for end in big_numbers() {
            let expected = if start % PAGE != 0 || end % PAGE != 0 || start >= end {
                2
            } else if u128::from(end) > 1 << 47 {
                3
            } else {
                0
            };
            assert_eq!(Store::new(16_384).seed(start, end), expected, "{start} to {end}");
        }
    }
}

#[test]
fn big_numbers_in_acquire_and_release() {
    let mut held = seeded(16_384, &[(0, PAGE), (TOP - PAGE, TOP)]);
    assert_eq!((held.acquire(1).0, held.acquire(1).0), (0, 0));
    for code in big_numbers().into_iter().chain(0..=8) {
        let known = (1..=6).contains(&code);
        assert_eq!(held.acquire(code).0, if known { 8 } else { 1 });
        for base in big_numbers() {
            let bytes = if known { BYTES[code as usize] } else { 1 };
            let block = u128::from(base)..u128::from(base) + u128::from(bytes);
            let expected = match () {
                _ if !known => 1,
                _ if base % bytes != 0 => 2,
                _ if block.end > 1 << 47 => 3,
                _ if code == 1 && [0, TOP - PAGE].contains(&base) => 0,
                _ => 6,
            };
            assert_eq!(held.clone().release(base, code), expected, "{base} {code}");
        }
    }
}

#[test]
fn big_numbers_in_the_state() {
    for number in big_numbers() {
        let mut store = Store { state: state(number, &[]), pool: vec![96, 1, 2, 3] };
        assert_eq!(sound(store.state, &store.pool), number == 1);
        assert_eq!(store.report().0, if number == 1 { 0 } else { 10 });
        for other in big_numbers() {
            for place in 0..REGIONS {
                let mut state = state(1, &[]);
                (state.starts[place], state.ends[place]) = (number, other);
                let is_region =
                    place == 0 && number % PAGE == 0 && other % PAGE == 0 && number < other && other <= 1 << 47;
                let is_sound = is_region || (number, other) == (0, 0);
                let mut store = Store { state, pool: vec![96] };
                assert_eq!(sound(state, &store.pool), is_sound, "{number} to {other}");
                let refusal = if is_sound { 0 } else { 10 };
                let seeded = if is_sound { other - number } else { 0 };
                assert_eq!((store.report().0, store.report().1[0]), (refusal, seeded));
            }
        }
    }
}

// ---- Time ----

/// A sound store that is nearly full: frames released here and there open blocks until none fits.
fn nearly_full(words: usize) -> Store {
    let mut store = seeded(words, &[(0, TOP)]);
    store.acquire(6);
    for step in [BYTES[5], BYTES[4], BYTES[3], BYTES[2]] {
        for number in 0..256 {
            store.release(number * step, 1);
        }
    }
    store
}

#[test]
#[ignore = "prints times"]
fn time_of_sound() {
    for words in [1_500, 16_384] {
        let store = nearly_full(words);
        let mut times: Vec<std::time::Duration> = (0..2_001).map(|_| time_of_one_check(&store)).collect();
        times.sort();
        println!("sound: pool {words}, used {}, least {:?}, median {:?}", store.state.used, times[0], times[1_000]);
    }
}

/// How long one check of a sound store takes.
fn time_of_one_check(store: &Store) -> std::time::Duration {
    let began = std::time::Instant::now();
    assert!(std::hint::black_box(sound(store.state, std::hint::black_box(&store.pool))));
    began.elapsed()
}
