use super::*;
use crate::reference;

#[test]
fn the_reference_is_not_caught() {
    let traces = traces();
    assert_eq!(caught_by_journals(CALLS, &traces), None);
    assert_eq!(caught_by_length(CALLS), None);
    assert_eq!(caught_by_damage(CALLS, &cases(500)), None);
}

#[test]
fn a_panic_and_a_wrong_word_are_caught() {
    fn report(state: State, pool: &mut [u32]) -> Answer {
        assert!(!reference::sound(state, pool), "a report of a sound store");
        reference::report(state, pool)
    }
    fn acquire(state: State, pool: &mut [u32], code: u64) -> Answer {
        let answer = reference::acquire(state, pool, code);
        pool[pool.len() - 1] = 0;
        answer
    }
    let traces = traces();
    let told = caught_by_journals(Calls { report, ..CALLS }, &traces).expect("a panic");
    assert!(told.ends_with("panics"), "{told}");
    let told = caught_by_journals(Calls { acquire, ..CALLS }, &traces).expect("a wrong word");
    assert!(told.ends_with("pool words"), "{told}");
}
