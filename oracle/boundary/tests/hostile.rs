//! The hostile caller finds nothing in the proved store and in the reference, and finds what wrong stores do.

use boundary::ask::Ask;
use boundary::hostile::candidate::Candidate;
use boundary::hostile::run;
use boundary::hostile::watch::Watch;
use oracle::mutants;
use oracle::reference;
use oracle::store::{Answer, POOL_LIMIT, State};
use std::process::{Command, Output};
use std::time::Duration;

/// How many calls a store is asked that must not differ, or that must be caught.
const CALLS: u64 = 20_000;

fn ask_all(candidate: &Candidate, calls: u64) -> Result<String, String> {
    run(candidate, 7, calls, &Watch::default())
}

/// What is told of the proved store with its answer, its pool or what is around it spoilt.
fn told_of(spoil: impl Fn(Ask, State, &mut Answer, *mut u32, usize) + Sync) -> String {
    let proved = Candidate::proved();
    let answer = |ask, state, pool: *mut u32, words: usize| {
        let mut answer = (proved.answer)(ask, state, pool, words);
        spoil(ask, state, &mut answer, pool, words);
        answer
    };
    let spoilt = Candidate { answer: Box::new(answer), any_length: true };
    ask_all(&spoilt, CALLS).expect_err("a wrong store is not caught")
}

/// Flips a word so far from the pool's first.
fn flip(pool: *mut u32, words: isize) {
    // SAFETY: the word is one of the bench's allocation: a pool's, or a guard word
    unsafe { *pool.offset(words) ^= 1 };
}

#[test]
fn the_proved_store_does_not_differ() {
    let told = ask_all(&Candidate::proved(), CALLS).expect("no difference");
    assert!(told.ends_with("hostile number 7: 20000 calls, no difference\n"), "{told}");
}

#[test]
fn the_reference_does_not_differ_and_every_refusal_occurs() {
    let told = ask_all(&Candidate::of(reference::CALLS), 100_000).expect("no difference, and nothing is missing");
    assert!(told.ends_with("hostile number 7: 100000 calls, no difference\n"), "{told}");
}

#[test]
fn the_same_number_asks_the_same() {
    let table = || ask_all(&Candidate::proved(), 3_000).expect("no difference");
    assert_eq!(table(), table());
}

#[test]
fn words_outside_the_pool_are_watched() {
    let in_use = |pool: *mut u32, words: usize| !pool.is_null() && (1..=POOL_LIMIT).contains(&words);
    for far in [1, 64] {
        let told = told_of(|ask, _, _, pool, words| {
            if matches!(ask, Ask::Release { .. }) && in_use(pool, words) {
                flip(pool, -far);
            }
        });
        assert!(told.contains("Release") && told.contains("guard word before the pool"), "{told}");
        let told = told_of(|ask, _, _, pool, words| {
            if ask == Ask::Check && in_use(pool, words) {
                flip(pool, words as isize + far - 1);
            }
        });
        assert!(told.contains("Check") && told.contains("guard word behind the pool"), "{told}");
    }
}

#[test]
fn words_of_the_pool_are_watched() {
    let told = told_of(|_, _, answer, pool, words| {
        if answer.refusal == 8 && words > 1 {
            flip(pool, words as isize - 1);
        }
    });
    assert!(told.contains("Acquire") && told.contains("pool word"), "{told}");
}

#[test]
fn answers_are_compared_field_by_field() {
    let told = told_of(|_, _, answer, _, _| answer.refusal += u64::from(answer.refusal == 6));
    assert!(told.contains("refusal 7 where the reference says 6"), "{told}");
    let told = told_of(|_, _, answer, _, _| answer.state.ends[7] |= u64::from(answer.refusal == 10));
    assert!(told.contains("state State"), "{told}");
    let told = told_of(|ask, state, answer, _, _| {
        if matches!(ask, Ask::Acquire { .. }) && answer.refusal != 0 {
            answer.results[1] = state.used;
        }
    });
    assert!(told.contains("results [0, "), "{told}");
    let told = told_of(|ask, _, answer, _, _| {
        answer.results.iter_mut().for_each(|it| *it *= 1 + u64::from(ask == Ask::Check))
    });
    assert!(told.contains("results [2] where the reference says [1]"), "{told}");
}

#[test]
fn words_that_are_not_there_are_watched() {
    let told = told_of(|_, _, answer, _, words| {
        if words > 2 * POOL_LIMIT && answer.refusal == 11 {
            answer.state.used = 1;
        }
    });
    assert!(told.contains("(no words)") && told.contains("Fresh"), "{told}");
    let told = told_of(|_, _, _, pool, words| {
        if words > 2 * POOL_LIMIT && pool != std::ptr::dangling_mut() {
            flip(pool, 0);
        }
    });
    assert!(told.contains("(no words)") && told.contains("word"), "{told}");
}

#[test]
fn a_wrong_room_for_is_caught() {
    let told = told_of(|ask, state, answer, _, _| {
        if let (Ask::RoomFor { .. }, 0) = (ask, answer.refusal) {
            answer.results[0] += u64::from(state.ends[1] != 0);
        }
    });
    assert!(told.contains("RoomFor") && told.contains("results ["), "{told}");
}

/// How many calls the wrong stores are asked; most are caught by the first thousand.
const MUTANT_CALLS: u64 = 150_000;

#[test]
fn the_wrong_stores_are_caught() {
    let mut missed = Vec::new();
    for &(name, _, _, calls) in mutants::ALL.iter().filter(|mutant| mutant.2.is_none()) {
        if ask_all(&Candidate::of(calls), MUTANT_CALLS).is_ok() {
            missed.push(name);
        }
    }
    assert!(missed.is_empty(), "not caught: {}", missed.join(", "));
}

#[test]
fn a_panic_is_a_difference() {
    let answer = |ask, state, pool, words| {
        assert!(ask != Ask::Report, "no report");
        (Candidate::proved().answer)(ask, state, pool, words)
    };
    let candidate = Candidate { answer: Box::new(answer), any_length: true };
    let told = ask_all(&candidate, CALLS).expect_err("a panic is not caught");
    assert!(told.contains("Report: the store panics: no report"), "{told}");
}

/// Runs one ignored test of this file in a process of its own, as the process ends.
fn child(test: &str) -> Output {
    let program = std::env::current_exe().expect("this program");
    Command::new(program).args(["--ignored", "--exact", "--nocapture", test]).output().expect("it runs")
}

#[test]
fn a_call_that_does_not_return_ends_the_program() {
    let output = child("child_that_waits");
    let told = String::from_utf8_lossy(&output.stderr);
    assert!(!output.status.success());
    assert!(told.contains("hostile: no answer for 1 s: number 7 run 0 (in use) call 1"), "{told}");
}

#[test]
#[ignore = "ends the process; another test runs it"]
fn child_that_waits() {
    let watch: &'static Watch = Box::leak(Box::default());
    std::thread::spawn(|| watch.guard(Duration::from_secs(1)));
    let answer = |_, _, _, _| loop {
        std::thread::sleep(Duration::from_secs(600));
    };
    let candidate = Candidate { answer: Box::new(answer), any_length: false };
    let outcome = run(&candidate, 7, 500, watch);
    panic!("it goes on: {outcome:?}");
}

#[test]
fn a_signal_is_told_with_the_calls_under_way() {
    let output = child("child_that_reads_nowhere");
    let told = String::from_utf8_lossy(&output.stderr);
    assert!(!output.status.success());
    assert!(told.contains("hostile: a call ended with signal 11; under way: "), "{told}");
    assert!(told.contains("number 7 run 24 (no words) call "), "{told}");
}

#[test]
#[ignore = "ends the process; another test runs it"]
fn child_that_reads_nowhere() {
    let watch: &'static Watch = Box::leak(Box::default());
    watch.tell_of_signals();
    let proved = Candidate::proved();
    let answer = |ask, state, pool: *mut u32, words| {
        if words > 0 {
            // SAFETY: none: where the length is above the limit the word need not be there, and this is what is tested
            let _ = unsafe { pool.read_volatile() };
        }
        (proved.answer)(ask, state, pool, words)
    };
    let candidate = Candidate { answer: Box::new(answer), any_length: true };
    let outcome = run(&candidate, 7, CALLS, watch);
    panic!("it goes on: {outcome:?}");
}

/// Runs the program.
fn hostile(arguments: &[&str]) -> Output {
    Command::new(env!("CARGO_BIN_EXE_hostile")).args(arguments).output().expect("it runs")
}

#[test]
fn the_program_tells_what_it_found() {
    let output = hostile(&["2000", "3"]);
    let told = String::from_utf8_lossy(&output.stdout);
    assert_eq!(output.status.code(), Some(0));
    assert!(told.contains("\nhostile number 3: 2000 calls, no difference\nin "), "{told}");
}

#[test]
fn the_program_tells_how_it_is_used() {
    for arguments in [&["0"][..], &["1000000001"], &["x"], &["1", "-1"], &["1", "2", "3"], &[""]] {
        let output = hostile(arguments);
        assert_eq!(output.status.code(), Some(2), "{arguments:?}");
        assert!(output.stderr.starts_with(b"usage: hostile"), "{arguments:?}");
    }
}
