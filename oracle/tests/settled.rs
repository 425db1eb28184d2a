//! The settled points of docs/DECISIONS.md and the differences of docs/DIFFERENCES.md: each input, and what the three
//! judges answer to it.

use oracle::frames::Frames;
use oracle::journal::{Entry, acquire, release, seed};
use oracle::original::{Original, Told};
use oracle::reference::{self, CALLS};
use oracle::store::{JOURNAL_POOL, State};

const GIB_2: u64 = 1 << 31;
const TOP: u64 = 1 << 47;
const PAGE: u64 = 4_096;

/// The judges, side by side. Frames and original know no pool and go on where the reference refuses with 5 or 9, so
/// nothing is asked behind such an entry that would show it.
struct Judges {
    pool: Vec<u32>,
    state: State,
    frames: Frames,
    original: Original,
}

impl Judges {
    fn new(pool_words: usize) -> Judges {
        let mut pool = vec![0; pool_words];
        let state = reference::fresh(&mut pool).state;
        Judges { pool, state, frames: Frames::new(), original: Original::new() }
    }

    /// What reference, original and frames answer: refusal number and results.
    fn ask(&mut self, entry: Entry) -> [String; 3] {
        let answer = CALLS.answer(self.state, &mut self.pool, entry);
        self.state = answer.state;
        let told = self.frames.judge(entry);
        self.frames.apply(entry);
        let original = match (self.original.answer(entry), entry) {
            (Told::Answered { refusal, base }, Entry::Acquire { .. }) => format!("{refusal} {base}"),
            (Told::Answered { refusal, .. }, _) => refusal.to_string(),
            (Told::Panicked, _) => "panic".to_string(),
            (Told::Outside, _) => "outside".to_string(),
        };
        [words(answer.refusal, &answer.results), original, words(told.refusal, &told.results)]
    }

    /// Each entry with what the three answer.
    fn expect(&mut self, steps: &[(Entry, [&str; 3])]) {
        for &(entry, expected) in steps {
            assert_eq!(self.ask(entry), expected, "{entry:?}");
        }
    }
}

fn page(base: u64) -> Told {
    Told::Answered { refusal: 0, base }
}

fn words(refusal: u64, results: &[u64]) -> String {
    let numbers: Vec<String> = [refusal].iter().chain(results).map(u64::to_string).collect();
    numbers.join(" ")
}

#[test]
fn point_1_a_seed_opens_block_by_block_in_address_order() {
    let mut judges = Judges::new(JOURNAL_POOL);
    judges.expect(&[
        (seed(2_093_056, 2_101_248), ["0", "0", "0"]),
        (Entry::Report, ["0 8192 8192 1 1552", "outside", "0 8192 8192 1"]),
    ]);
    assert_eq!(judges.original.opened_words(), 1552);
    // The 1 GiB block holds the 2 MiB nodes; the second of them is opened last.
    let link = |place: usize| (judges.pool[place] / 128) as usize;
    let gib = link(link(link(0) + 1) + 1);
    assert_eq!(link(gib + 2), 1418);
}

#[test]
fn point_2_the_lowest_block_decides_also_where_it_lacks_room() {
    Judges::new(1418).expect(&[
        (seed(GIB_2, GIB_2 + 6 * PAGE), ["0", "0", "0"]),
        (acquire(1), ["9 0 0", "0 2147483648", "0 2147483648 7"]),
    ]);
}

#[test]
fn point_3_merging_gives_no_room_back() {
    Judges::new(1418).expect(&[
        (seed(GIB_2, GIB_2 + 4 * PAGE), ["0", "0", "0"]),
        (acquire(1), ["0 2147483648 7", "0 2147483648", "0 2147483648 7"]),
        (release(GIB_2, 1), ["0", "0", "0"]),
        (Entry::Report, ["0 16384 16384 2 1418", "outside", "0 16384 16384 2"]),
        (seed(GIB_2 + 4 * PAGE, GIB_2 + 5 * PAGE), ["9", "0", "0"]),
    ]);
}

#[test]
fn point_4_five_before_four_and_six_before_seven() {
    let mut judges = Judges::new(JOURNAL_POOL);
    for region in 0..8 {
        judges.expect(&[(seed(2 * region * PAGE, (2 * region + 1) * PAGE), ["0", "0", "0"])]);
    }
    judges.expect(&[
        (seed(0, PAGE), ["5", "outside", "5"]),
        (seed(PAGE, 2 * PAGE), ["5", "0", "5"]),
        (release(0, 2), ["6", "outside", "6"]),
        (release(0, 1), ["7", "outside", "7"]),
    ]);
}

#[test]
fn point_5_a_free_frame_stored_again() {
    let mut judges = Judges::new(JOURNAL_POOL);
    judges.expect(&[(seed(0, 4 * PAGE), ["0", "0", "0"]), (release(0, 1), ["7", "outside", "7"])]);
    judges.expect(&[(seed(0, PAGE), ["4", "outside", "4"])]);
    // The Rust stores the frame again; at the end it deals frame 0, which the 16 KiB page still holds.
    for again in [release(0, 1), seed(0, PAGE)] {
        let mut original = Original::new();
        assert_eq!(original.answer(seed(0, 4 * PAGE)), page(0));
        assert_eq!(original.forced(again), page(0));
        assert_eq!(original.forced(acquire(2)), page(0));
        assert_eq!(original.forced(release(PAGE, 1)), page(0));
        assert_eq!(original.forced(acquire(1)), page(0));
    }
}

#[test]
fn point_7_no_sum_of_base_and_size() {
    Judges::new(JOURNAL_POOL).expect(&[
        (seed(0, TOP), ["0", "0", "0"]),
        (release(u64::MAX - PAGE + 1, 1), ["3", "outside", "3"]),
        (release(TOP - PAGE, 1), ["7", "outside", "7"]),
        (release(TOP, 1), ["3", "outside", "3"]),
    ]);
}

#[test]
fn seeds_that_the_rust_panics_at() {
    Judges::new(JOURNAL_POOL).expect(&[
        (seed(1, 2 * PAGE), ["2", "panic", "2"]),
        (seed(0, PAGE + 1), ["2", "panic", "2"]),
        (seed(PAGE, PAGE), ["2", "panic", "2"]),
        (seed(2 * PAGE, PAGE), ["2", "panic", "2"]),
        (seed(TOP, TOP + PAGE), ["3", "3", "3"]),
        (seed(0, TOP + PAGE), ["3", "3", "3"]),
    ]);
}

#[test]
fn what_the_rust_takes_and_the_document_refuses() {
    // A region that shares a frame with an earlier one: 4. Here each frame is dealt once all the same.
    let mut original = Original::new();
    assert_eq!(original.answer(seed(0, 2 * PAGE)), page(0));
    assert_eq!(original.forced(seed(PAGE, 3 * PAGE)), page(0));
    for base in [0, PAGE, 2 * PAGE] {
        assert_eq!(original.forced(acquire(1)), page(base));
    }
    assert_eq!(original.forced(acquire(1)), Told::Answered { refusal: 8, base: 0 });
    // A frame that was never seeded: 6.
    assert_eq!(original.forced(release(8 * PAGE, 1)), page(0));
    // A block past the end: 3. The Rust fails an index.
    assert_eq!(original.forced(release(TOP, 1)), Told::Panicked);
    Judges::new(JOURNAL_POOL).expect(&[
        (seed(0, 2 * PAGE), ["0", "0", "0"]),
        (seed(PAGE, 3 * PAGE), ["4", "outside", "4"]),
        (release(8 * PAGE, 1), ["6", "outside", "6"]),
        (release(TOP, 1), ["3", "outside", "3"]),
        (acquire(0), ["1 0 0", "outside", "1 0 0"]),
        (acquire(7), ["1 0 0", "outside", "1 0 0"]),
        (acquire(3), ["8 0 0", "8 0", "8 0 0"]),
    ]);
}
