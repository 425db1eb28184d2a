use super::*;
use crate::damage::Damaged;
use crate::reference::{BYTES, CALLS};
use crate::store::{Answer, Calls, State};
use std::cell::Cell;
use std::collections::BTreeSet;

/// What a list prints.
fn printed(records: &[&[u8]]) -> String {
    String::from_utf8(answers(&records.concat(), CALLS)).expect("names are ASCII")
}

/// The fresh store on a pool of two words.
fn fresh() -> Vec<u8> {
    let mut writer = Writer::default();
    let state = State { used: 1, ..State::default() };
    writer.base("fresh", &Damaged { state, pool: vec![96, 7], what: String::new() });
    writer.bytes
}

#[test]
fn records_print_their_verdicts() {
    let base = fresh();
    assert_eq!(printed(&[&base]), "fresh\n1\n");
    assert_eq!(printed(&[&base, &base]), "fresh\n1\nfresh\n1\n");
    assert_eq!(printed(&[&base, &[3, 8, 0, 2]]), "fresh\n101\n");
    assert_eq!(printed(&[&base, &[4, 9], &[4, 0]]), "fresh\n111\n");
    let token = [2, 1, 0, 0, 8];
    let used = [2, 0, 1, 0, 1];
    let longer = [2, 0, 1, 17, 0x82, 0x80, 0x40];
    assert_eq!(printed(&[&base, &token, &[2, 0, 0], &used, &longer]), "fresh\n10101\n");
    let (many, few) = ("1".repeat(64), "111");
    assert_eq!(printed(&[&base, &[3, 0, 0, 66]]), format!("fresh\n{many}\n{few}\n"));
}

#[test]
fn a_wrong_list_ends_with_a_line_that_says_so() {
    let base = fresh();
    let place = [2, 1, 0, 0x80, 0x40, 1];
    let field = [2, 0, 1, 18, 0];
    let longer = [2, 0, 1, 17, 0xff, 0xff, 0xff, 0x1f];
    let sweep = [3, 8, 0xff, 0x3f, 2];
    let long = [6, 1, b'n', 0, 0x82, 0x80, 0x40, 0, 0];
    for record in
        [&[16][..], &[0], &[2, 1, 0], &[1, 65], &[4, 0x80], &[8, 0x82, 0x80, 0x40, 0], &place, &field, &longer]
    {
        assert_eq!(printed(&[&base, record]), "fresh\n1\nbad list\n", "{record:?}");
    }
    assert_eq!(printed(&[&base, &sweep]), "fresh\n11\nbad list\n");
    assert_eq!(printed(&[&base, &long]), "fresh\n1\nn: bad list\n");
    let mut short = base.clone();
    short[7] = 3;
    assert_eq!(printed(&[&short]), "fresh\nbad list\n");
    assert_eq!(printed(&[]), "");
}

#[test]
fn a_journal_prints_the_documents_lines() {
    let mut writer = Writer::default();
    limits::write(&mut writer);
    let printed = printed(&[&writer.bytes]);
    let lines = [
        "the document's journal",
        "1 fresh 0",
        "2 seed 0",
        "3 acquire 0 2147483648 7",
        "4 acquire 8 0 0",
        "5 acquire 0 2147487744 8",
        "6 release 0",
        "7 release 7",
        "8 report 0 24576 20480 1 1423",
        "8 calls, digest ",
    ];
    assert!(printed.starts_with(&lines.join("\n")), "{}", &printed[..300]);
}

#[test]
fn numbers_and_addresses_are_read_as_they_are_written() {
    let numbers = [0, 1, 127, 128, 4_095, 4_096, 16_384, (1 << 47) - 4_096, 1 << 47, 1 << 63, u64::MAX - 1, u64::MAX];
    for start in numbers {
        for end in numbers {
            let mut writer = Writer::default();
            writer.begin("n", false, 1, (0, 0));
            let begun = writer.bytes.len();
            writer.ask(Ask::Other(Call::Seed { start, end }));
            let asked = Calls { seed: told_back, ..CALLS };
            let list = [&writer.bytes[..begun], &writer.bytes[begun..], &[9]].concat();
            let told = Reader::new(&list, asked).flatten().collect::<Vec<u8>>();
            let state = State { used: start, starts: [end; 8], ..State::default() };
            let expected = digest::words(
                digest::fields((0..5).fold(digest::NONE, |digest, _| digest::step(digest, 0)), state),
                &[0, 0],
            );
            assert_eq!(String::from_utf8(told).unwrap(), format!("n: 1 calls, digest {expected}\n"));
        }
    }
}

/// A seed that answers with its numbers in the state.
fn told_back(_: State, _: &mut [u32], start: u64, end: u64) -> Answer {
    Answer { refusal: 0, state: State { used: start, starts: [end; 8], ..State::default() }, results: vec![] }
}

thread_local! {
    /// The calls that are still to come before the one that is answered wrongly.
    static BEFORE: Cell<usize> = const { Cell::new(usize::MAX) };
    /// What is wrong there: 0 the refusal, 1 to 4 a result, 5 to 21 a field of the state, from 22 on a word of the pool.
    static WRONG: Cell<usize> = const { Cell::new(0) };
}

/// The answer, with one thing wrong in it if it is this call's turn.
fn spoil(answer: Answer, pool: &mut [u32]) -> Answer {
    let before = BEFORE.get();
    BEFORE.set(before.wrapping_sub(1));
    let mut answer = answer;
    if before == 0 {
        match WRONG.get() {
            0 => answer.refusal ^= 1,
            place @ 1..=4 => answer.results[place - 1] ^= 1,
            5 => answer.state.used ^= 1,
            place @ 6..=13 => answer.state.starts[place - 6] ^= 1,
            place @ 14..=21 => answer.state.ends[place - 14] ^= 1,
            place => pool[place - 22] ^= 1,
        }
    }
    answer
}

/// The reference, with one thing wrong in one answer.
const SPOILED: Calls = Calls {
    fresh: |pool| spoil((CALLS.fresh)(pool), pool),
    seed: |state, pool, start, end| spoil((CALLS.seed)(state, pool, start, end), pool),
    acquire: |state, pool, code| spoil((CALLS.acquire)(state, pool, code), pool),
    release: |state, pool, base, code| spoil((CALLS.release)(state, pool, base, code), pool),
    report: |state, pool| spoil((CALLS.report)(state, pool), pool),
    check: |state, pool| {
        let before = BEFORE.get();
        BEFORE.set(before.wrapping_sub(1));
        (CALLS.check)(state, pool) ^ (before == 0)
    },
};

/// One call of each kind on a pool of so many words, with how many results each answers.
fn one_of_each(length: usize) -> (Vec<u8>, [usize; 6]) {
    let start = BYTES[4];
    let seed = Call::Seed { start, end: start + 24_576 };
    let others = [seed, Call::Acquire { code: 1 }, Call::Release { base: start, code: 1 }, Call::Report];
    let mut writer = Writer::default();
    writer.begin("one of each", false, length, (5, 3));
    writer.ask(Ask::Fresh);
    for call in others {
        writer.ask(Ask::Other(call));
    }
    writer.ask(Ask::Check);
    writer.end();
    (writer.bytes, [0, 0, 2, 0, 4, 0])
}

/// What the list prints where the call at a place answers one thing wrongly.
fn spoiled(list: &[u8], call: usize, wrong: usize) -> Vec<u8> {
    BEFORE.set(call);
    WRONG.set(wrong);
    answers(list, SPOILED)
}

#[test]
fn the_digest_shows_one_wrong_answer_one_wrong_field_and_one_wrong_word() {
    for length in [1_500, 9_000] {
        let (list, results) = one_of_each(length);
        let right = answers(&list, CALLS);
        assert_eq!(spoiled(&list, usize::MAX, 0), right);
        for (call, results) in results.into_iter().enumerate() {
            let words = [0, 1, 257, 1_417, 1_418, 1_470, length - 1].map(|place| 22 + place);
            let wrong: Vec<usize> = (0..=results).chain(5..=21).chain(words).collect();
            for &wrong in if call == 5 { &[0][..] } else { &wrong } {
                assert_ne!(spoiled(&list, call, wrong), right, "call {call}, wrong {wrong}, {length} words");
            }
        }
    }
}

#[test]
fn the_lines_show_every_refusal_of_every_call() {
    let mut writer = Writer::default();
    journals::write_sample(&mut writer);
    limits::write(&mut writer);
    assert!(writer.lines >= 2_000, "{}", writer.lines);
    let printed = printed(&[&writer.bytes]);
    let told: BTreeSet<String> =
        printed.lines().map(|line| line.split(' ').skip(1).take(2).collect::<Vec<_>>().join(" ")).collect();
    let all: [(&str, &[u64]); 6] = [
        ("fresh", &[0, 11]),
        ("seed", &[0, 10, 2, 3, 5, 4, 9]),
        ("acquire", &[0, 10, 1, 8, 9]),
        ("release", &[0, 10, 1, 2, 3, 6, 7, 9]),
        ("report", &[0, 10]),
        ("check", &[0, 1]),
    ];
    for (name, refusals) in all {
        for refusal in refusals {
            assert!(told.contains(&format!("{name} {refusal}")), "{name} {refusal}");
        }
    }
}

#[test]
fn the_list_is_long_and_its_bytes_are_few() {
    let mut writer = shown();
    let shown = writer.calls;
    journals::write_mass(&mut writer);
    assert!(writer.calls - shown >= 300_000, "{}", writer.calls - shown);
    assert!(writer.bytes.len() < 2_000_000, "{}", writer.bytes.len());
}
