//! The proved store is a candidate of the judges' comparisons like any other.

use boundary::CALLS;
use boundary::ask::Ask;
use boundary::hostile::candidate::Candidate;
use oracle::compare::{compare, lines, plan, sweep};
use oracle::generate::Profile;
use oracle::journal::{DOCUMENT, encode};
use oracle::store::{JOURNAL_POOL, POOL_LIMIT, State};

/// The lines of document 01's journal.
const LINES: &str = "pool 16384\n1 seed 0\n2 acquire 0 2147483648 7\n3 acquire 8 0 0\n4 acquire 0 2147487744 8\n\
                     5 release 0\n6 release 7\n7 report 0 24576 20480 1 1423\n";

#[test]
fn the_journal_of_document_01() {
    assert_eq!(lines(CALLS, &encode(&DOCUMENT)), LINES);
    let run = compare(Some(CALLS), &DOCUMENT, JOURNAL_POOL).expect("no judge differs");
    assert_eq!((run.entries, run.used), (7, 1_423));
}

#[test]
fn journals_of_every_profile() {
    let entries = 10_000;
    let tallies = sweep(Some(CALLS), &plan(Profile::ALL, 5, entries));
    let tallies = tallies.unwrap_or_else(|found| panic!("{}: {:?}", found.job, found.differing.0));
    assert_eq!(tallies.iter().map(|tally| tally.total.entries).sum::<u64>(), entries);
}

#[test]
fn check_and_fresh_at_the_limits() {
    for (length, refusal) in [(0, 11), (1, 0), (POOL_LIMIT, 0), (POOL_LIMIT + 1, 11)] {
        let mut pool = vec![7; length];
        let answer = (CALLS.fresh)(&mut pool);
        assert_eq!(answer.refusal, refusal, "fresh of {length} words");
        assert_eq!(
            (CALLS.check)(State { used: 1, ..State::default() }, &pool),
            refusal == 0,
            "check of {length} words"
        );
        assert!(pool.iter().skip(1).all(|&word| word == 7), "fresh of {length} words writes behind the root");
    }
}

#[test]
fn room_for_a_gib() {
    let gib = 1 << 30;
    let ask = Ask::RoomFor { start: 2 * gib, end: 3 * gib };
    let answer = (Candidate::proved().answer)(ask, State::default(), std::ptr::null_mut(), 0);
    assert_eq!((answer.refusal, answer.results), (0, vec![395_012]));
}
