use super::*;
use crate::store::Answer;
use crate::walk;

/// A sound store: nine frames at 2 GiB, the first of them taken.
fn sample() -> Damaged {
    let mut pool = vec![0; 2_000];
    let fresh = (reference::CALLS.fresh)(&mut pool);
    let seeded = (reference::CALLS.seed)(fresh.state, &mut pool, 2_147_483_648, 2_147_520_512);
    let acquired = (reference::CALLS.acquire)(seeded.state, &mut pool, 1);
    Damaged { state: acquired.state, pool, what: String::new() }
}

/// What both judges say of a store, if they agree.
fn verdict(store: &Damaged) -> Result<(), &'static str> {
    let because = reference::unsound_because(store.state, &store.pool);
    assert_eq!(because.is_none(), walk::sound(store.state, &store.pool), "{because:?}: {}", store.what);
    because.map_or(Ok(()), Err)
}

/// The verdicts on one damage of the sample, over some dice.
fn verdicts(name: &str) -> Vec<Result<(), &'static str>> {
    let kind = KINDS.iter().position(|kind| kind.0 == name).expect("a kind of damage");
    let mut verdicts = Vec::new();
    for number in 0..40 {
        let mut store = sample();
        if store.damage((kind, number)) {
            verdicts.push(verdict(&store));
        }
    }
    assert!(!verdicts.is_empty(), "{name}");
    verdicts
}

#[test]
fn the_sample_is_sound() {
    assert_eq!(verdict(&sample()), Ok(()));
    assert_eq!(sample().state.used, 1_423);
}

#[test]
fn harmless_damages_stay_sound() {
    let names = ["node opened", "region split in two", "touching region added", "pool cut to used", "pool longer"];
    for name in names.into_iter().chain(["words from used on changed", "token taken, maxima follow"]) {
        assert!(verdicts(name).iter().all(Result::is_ok), "{name}");
    }
}

#[test]
fn damages_fail_the_clause_they_are_made_for() {
    let expected = [
        ("used 0", "used is at least 1"),
        ("used past the pool", "used is at most the pool's length"),
        ("level of a word", "levels match the tree"),
        ("node of code 1 opened", "a node of code 1 has link 0"),
        ("header changed", "links and headers name each other"),
        ("gap before a block", "the blocks fill places 1 to used - 1 with no gap and no overlap"),
        ("pool of 771 words", "the blocks fill places 1 to used - 1 with no gap and no overlap"),
        ("unreachable cycle", "the blocks fill places 1 to used - 1 with no gap and no overlap"),
        ("blocks in another order", "each block lies behind its parent"),
        ("token removed without max", "an unopened node without token has max 0"),
        ("max of the root", "an opened node without token has the maximum of its children"),
        ("token below a token", "a token node has nothing offered below it"),
        ("all children given tokens", "not all children of an opened node without token have tokens"),
        ("region behind a zero place", "region places are filled from the first without a gap"),
        ("region removed", "every token's block lies in the union of the regions"),
    ];
    for (name, clause) in expected {
        assert!(verdicts(name).contains(&Err(clause)), "{name}: {:?}", verdicts(name));
    }
}

#[test]
fn many_stores_show_no_difference() {
    let text = run(7, 3_000).expect("no difference");
    assert!(text.ends_with("damaged 3000 stores: no difference\n"));
}

#[test]
fn a_wrong_check_is_found_and_made_small() {
    let calls = Calls { check: |_, _| true, ..reference::CALLS };
    let told = run_with(calls, 1, 1_000).expect_err("a difference");
    assert!(told.contains("check says sound true, walk says sound false"), "{told}");
    assert_eq!(told.matches(';').count(), 2, "one damage, and a clause: {told}");
}

#[test]
fn a_wrong_refusal_is_found() {
    fn report(state: State, pool: &mut [u32]) -> Answer {
        pool.fill(0);
        Answer { refusal: 10, state, results: vec![0; 4] }
    }
    let calls = Calls { report, ..reference::CALLS };
    assert!(run_with(calls, 1, 1_000).is_err());
}

#[test]
fn a_recipe_gives_the_same_store_again() {
    for index in [0, 70, 200] {
        let one = Recipe::of(3, index, &mut Library::default());
        let two = Recipe::of(3, index, &mut Library::default());
        let (one, two) = (one.make(&mut Library::default()), two.make(&mut Library::default()));
        assert_eq!((one.state, one.pool, one.what), (two.state, two.pool, two.what));
    }
}
