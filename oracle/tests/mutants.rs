//! Every wrong store is found, but for the equivalent ones.

use oracle::calls::{self, Reader};
use oracle::{mutants, reference};

#[test]
fn every_mutant_is_caught_or_equivalent() {
    if let Err(text) = mutants::run() {
        panic!("{text}");
    }
}

#[test]
fn there_are_mutants_of_every_clause() {
    for (clause, _) in oracle::reference::CLAUSES {
        let what = format!("sound leaves out: {clause}");
        assert!(mutants::ALL.iter().any(|mutant| mutant.1 == what), "{clause}");
    }
}

#[test]
fn the_list_of_calls_shows_every_wrong_store() {
    let list = calls::short_list();
    let expected: Vec<Vec<u8>> = Reader::new(&list, reference::CALLS).collect();
    let mut overlooked = Vec::new();
    for (name, _, _, calls) in mutants::ALL.iter().filter(|mutant| mutant.2.is_none()) {
        let same = || Reader::new(&list, *calls).eq(expected.iter().cloned());
        if std::panic::catch_unwind(same).unwrap_or(false) {
            overlooked.push(*name);
        }
    }
    assert_eq!(overlooked, [""; 0]);
}
