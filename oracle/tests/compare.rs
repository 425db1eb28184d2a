//! The comparison finds nothing where all judges are right, and finds and shrinks what a wrong store does.

use oracle::compare::{
    Difference, Job, compare, compare_generated, compare_readings, compare_tightly, lines, plan, sweep, table,
};
use oracle::generate::Profile;
use oracle::journal::{DOCUMENT as JOURNAL, Entry, decode, encode};
use oracle::reference;
use oracle::shrink::{Smallest, shrink};
use oracle::store::{Answer, Calls, JOURNAL_POOL, POOL_LIMIT, State};
use std::process::Output;
use std::time::Duration;

mod program;

const GIB_2: u64 = 2_147_483_648;
const GIB_512: u64 = 549_755_813_888;
const LIMIT: Duration = Duration::from_secs(20);

/// The lines of document 01's journal.
const LINES: &str = "pool 16384\n1 seed 0\n2 acquire 0 2147483648 7\n3 acquire 8 0 0\n4 acquire 0 2147487744 8\n\
                     5 release 0\n6 release 7\n7 report 0 24576 20480 1 1423\n";

/// Looks along one child too many.
fn acquire_with_a_probe_more(state: State, pool: &mut [u32], code: u64) -> Answer {
    let mut answer = reference::acquire(state, pool, code);
    if answer.refusal == 0 {
        answer.results[1] += 1;
    }
    answer
}

/// Accepts a release of what is free.
fn release_twice(state: State, pool: &mut [u32], base: u64, code: u64) -> Answer {
    let mut answer = reference::release(state, pool, base, code);
    if answer.refusal == 7 {
        answer.refusal = 0;
    }
    answer
}

/// Writes behind the used count.
fn seed_past_used(state: State, pool: &mut [u32], start: u64, end: u64) -> Answer {
    let answer = reference::seed(state, pool, start, end);
    if let (0, Some(word)) = (answer.refusal, pool.get_mut(answer.state.used as usize)) {
        *word = 0;
    }
    answer
}

/// Keeps a last word of the pool unused.
fn acquire_with_a_word_to_spare(state: State, pool: &mut [u32], code: u64) -> Answer {
    let before = pool.to_vec();
    let answer = reference::acquire(state, pool, code);
    if state.used < answer.state.used && answer.state.used as usize == pool.len() {
        pool.copy_from_slice(&before);
        return Answer { refusal: 9, state, results: vec![0, 0] };
    }
    answer
}

fn release_panics(_state: State, _pool: &mut [u32], base: u64, _code: u64) -> Answer {
    panic!("no way back to {base}");
}

fn report_forgets_a_region(mut state: State, pool: &mut [u32]) -> Answer {
    let answer = reference::report(state, pool);
    state.starts[0] = 0;
    Answer { state, ..answer }
}

fn check_is_always_no(_state: State, _pool: &[u32]) -> bool {
    false
}

/// Finds a wrong store in a sweep and makes the journal as small as it can.
fn found(wrong: Calls) -> Smallest {
    let found = sweep(Some(wrong), &plan(Profile::ALL, 1, 5_000)).expect_err("a wrong store is found");
    let (_, entries, pool_words) = &found.differing;
    shrink(Some(wrong), entries, *pool_words, LIMIT).expect("its journal differs by itself")
}

#[test]
fn all_judges_agree() {
    for &profile in Profile::ALL {
        for number in 1..=3 {
            let candidate = (number == 3).then_some(reference::CALLS);
            let run = if number == 1 { compare_tightly } else { compare_generated };
            match run(candidate, Job { profile, number, length: 150 }) {
                Ok(run) => assert_eq!(run.entries, 150),
                Err((difference, ..)) => panic!("{} {number}: {difference}", profile.name()),
            }
        }
    }
}

#[test]
fn a_sweep_counts_what_it_compares() {
    let tallies = sweep(None, &plan(Profile::ALL, 7, 1_000)).map_err(|found| found.differing.0).expect("no difference");
    let entries: u64 = tallies.iter().map(|tally| tally.total.entries).sum();
    let refusals: u64 = tallies.iter().flat_map(|tally| tally.total.refusals).sum();
    assert_eq!((entries, refusals), (1_000, 1_000));
    assert_eq!(table(&tallies).lines().count(), 1 + tallies.len());
}

#[test]
fn the_documents_journal() {
    let run = compare(None, &JOURNAL, JOURNAL_POOL).expect("no difference");
    assert_eq!((run.entries, run.given_back, run.emptied, run.used), (7, 1, true, 1_423));
    assert_eq!((run.refusals[0], run.refusals[7], run.refusals[8]), (5, 1, 1));
    assert_eq!(lines(reference::CALLS, &encode(&JOURNAL)), LINES);
}

/// Each region begins a frame before a block of 512 GiB and ends a frame behind it, which opens two blocks of 512 GiB
/// down to their frames.
#[test]
fn the_journals_pool_fills_up() {
    let region = |number: u64| {
        let base = (4 * number + 1) * GIB_512;
        Entry::Seed { start: base - 4_096, end: base + GIB_512 + 4_096 }
    };
    let mut entries: Vec<Entry> = (0..7).map(region).collect();
    entries.extend([5, 4, 4, 3, 2, 1, 1, 3].map(|code| Entry::Acquire { code }));
    entries.extend([Entry::Release { base: GIB_512, code: 1 }, Entry::Report, region(7)]);
    let run = compare(Some(reference::CALLS), &entries, JOURNAL_POOL).expect("no difference");
    assert_eq!((run.refusals[9], run.emptied), (3, true), "{run:?}");
    assert!(run.used > JOURNAL_POOL as u64 - 1_160, "{run:?}");
}

#[test]
fn pools_outside_their_limits() {
    for pool_words in [0, POOL_LIMIT + 1] {
        let run = compare(Some(reference::CALLS), &JOURNAL, pool_words).expect("no difference");
        assert_eq!((run.entries, run.refusals[10]), (7, 7));
    }
    for pool_words in [1, 1_412, 1_413, 1_417, 1_418, POOL_LIMIT] {
        compare(Some(reference::CALLS), &JOURNAL[..2], pool_words).expect("no difference");
    }
}

#[test]
fn cut_and_random_journals_read_alike() {
    let read = compare_readings(1).map_err(|differing| differing.0).expect("no difference");
    assert!(read > 1_000);
}

#[test]
fn a_probe_more_is_found() {
    let smallest = found(Calls { acquire: acquire_with_a_probe_more, ..reference::CALLS });
    assert_eq!(smallest.entries.len(), 2, "{smallest}");
    assert_eq!(smallest.difference.number, 2);
    let judges: Vec<&str> = smallest.last.iter().map(|said| said.0).collect();
    assert_eq!(judges, ["reference", "candidate", "frames", "frames and opened blocks", "original"]);
    let text = smallest.to_string();
    assert!(text.starts_with(&format!("pool {}\nseed 0x0 0x", smallest.pool_words)), "{text}");
    assert!(text.contains("the answers differ"), "{text}");
}

#[test]
fn a_second_release_is_found() {
    let smallest = found(Calls { release: release_twice, ..reference::CALLS });
    let wanted = [Entry::Seed { start: 0, end: 4_096 }, Entry::Release { base: 0, code: 1 }];
    assert_eq!(smallest.entries, wanted, "{smallest}");
}

#[test]
fn a_word_behind_the_used_count_is_found() {
    let smallest = found(Calls { seed: seed_past_used, ..reference::CALLS });
    assert_eq!(smallest.entries.len(), 1, "{smallest}");
    assert_eq!(smallest.difference.matter, "the pool words differ");
}

#[test]
fn a_word_to_spare_is_found() {
    let wrong = Calls { acquire: acquire_with_a_word_to_spare, ..reference::CALLS };
    let job = Job { profile: Profile::FewFrames, number: 1, length: 50 };
    let (_, entries, pool_words) = compare_tightly(Some(wrong), job).expect_err("found");
    let smallest = shrink(Some(wrong), &entries, pool_words, LIMIT).expect("a difference");
    assert_eq!(smallest.entries.len(), 2, "{smallest}");
}

#[test]
fn a_wrong_state_is_found() {
    let wrong = Calls { report: report_forgets_a_region, ..reference::CALLS };
    let entries = [Entry::Seed { start: 4_096, end: 8_192 }, Entry::Report];
    let difference = compare(Some(wrong), &entries, JOURNAL_POOL).expect_err("a wrong state");
    assert_eq!((difference.number, difference.matter.as_str()), (2, "the states differ"));
}

#[test]
fn a_wrong_check_is_found() {
    let wrong = Calls { check: check_is_always_no, ..reference::CALLS };
    let difference = compare(Some(wrong), &[], 1).expect_err("a wrong check");
    assert!(difference.to_string().starts_with("before the first entry: check differs"), "{difference}");
    let smallest = shrink(Some(wrong), &JOURNAL, JOURNAL_POOL, LIMIT).expect("a difference");
    assert_eq!((smallest.entries.len(), smallest.pool_words), (0, 1));
}

#[test]
fn a_panic_while_giving_back_is_found() {
    let wrong = Calls { release: release_panics, ..reference::CALLS };
    let entries = [Entry::Report, Entry::Seed { start: 4_096, end: 8_192 }, Entry::Acquire { code: 1 }, Entry::Report];
    let difference = compare(Some(wrong), &entries, JOURNAL_POOL).expect_err("a panic");
    assert_eq!((difference.number, difference.entry), (5, Some(Entry::Release { base: 4_096, code: 1 })));
    let smallest = shrink(Some(wrong), &entries, JOURNAL_POOL, LIMIT).expect("a difference");
    assert_eq!(smallest.entries.last().map(|entry| entry.name()), Some("release"), "{smallest}");
    assert!(smallest.to_string().contains("candidate: panics: no way back to 0"), "{smallest}");
}

#[test]
fn what_does_not_differ_is_not_shrunk() {
    assert!(shrink(None, &JOURNAL, JOURNAL_POOL, LIMIT).is_none());
}

#[test]
fn differences_in_plain_words() {
    let difference = Difference {
        number: 7,
        entry: Some(Entry::Release { base: GIB_2, code: 1 }),
        matter: "the refusals differ".to_string(),
        said: vec![("reference", "refusal 7".to_string()), ("frames", "refusal 0".to_string())],
    };
    let text = "entry 7, release 0x80000000 1: the refusals differ\n  reference: refusal 7\n  frames: refusal 0";
    assert_eq!(difference.to_string(), text);
    let wrong = Calls { acquire: acquire_with_a_probe_more, ..reference::CALLS };
    let difference = compare(Some(wrong), &JOURNAL, JOURNAL_POOL).expect_err("a probe more");
    let text = "entry 2, acquire 1: the answers differ\n  reference: refusal 0, results 2147483648 7\n  \
                candidate: refusal 0, results 2147483648 8";
    assert_eq!(difference.to_string(), text);
}

/// Runs the judges' program with arguments and bytes to read.
fn program(arguments: &[&str], bytes: &[u8]) -> Output {
    program::run(env!("CARGO_BIN_EXE_oracle"), arguments, bytes)
}

#[test]
fn the_programs_commands() {
    let printed = program(&["reference"], &encode(&JOURNAL));
    assert!(printed.status.success());
    assert_eq!(String::from_utf8_lossy(&printed.stdout), LINES);
    let printed = program(&["original"], &encode(&JOURNAL[..2]));
    assert_eq!(String::from_utf8_lossy(&printed.stdout), "1 seed 0\n2 acquire 0 2147483648\n");
    let written = program(&["journal", "season", "3", "40"], &[]);
    let (entries, bad) = decode(&written.stdout);
    assert_eq!((entries.len(), bad), (40, None));
    let compared = program(&["compare", "300", "5", "dry-pools"], &[]);
    assert!(compared.status.success());
    let text = String::from_utf8_lossy(&compared.stdout).into_owned();
    let last = text.lines().last().unwrap_or_default();
    assert!(last.starts_with("compared 300 entries in ") && last.ends_with(" s: no difference"), "{text}");
}

#[test]
fn bad_usage_fails() {
    let many = ["compare", "1", "1", "season", "1"];
    for arguments in [&[][..], &["judge"], &["journal", "season", "1"], &many] {
        let told = program(arguments, &[]);
        assert_eq!(told.status.code(), Some(1));
        assert!(told.stderr.starts_with(b"usage:"), "{arguments:?}");
    }
    for arguments in [&["compare", "many"][..], &["journal", "summer", "1", "1"], &["damage", "-1"]] {
        let told = program(arguments, &[]);
        assert_eq!(told.status.code(), Some(1));
        assert!(String::from_utf8_lossy(&told.stderr).contains(" is no "), "{arguments:?}");
    }
}
