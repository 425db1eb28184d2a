use super::*;
use crate::journal::decode;
use std::collections::BTreeSet;
use std::time::Instant;

/// A program of this package's tests.
fn program(name: &str) -> String {
    format!("{}/tests/programs/{name}", env!("CARGO_MANIFEST_DIR"))
}

#[test]
fn a_program_is_given_the_bytes_whole_and_in_pieces() {
    let bytes: Vec<u8> = (0..300_000u32).map(|number| (number % 251) as u8).collect();
    let program = Program { path: "cat", limit: LIMIT };
    for piece in [4_095, 4_097, usize::MAX] {
        let printed = program.run(&bytes, piece).expect("cat starts").expect("cat ends");
        assert!(printed.output == bytes && printed.errors.is_empty() && printed.status.success());
    }
    for piece in [1, 7] {
        let printed = program.run(&bytes[..500], piece).expect("cat starts").expect("cat ends");
        assert_eq!(printed.output, &bytes[..500]);
    }
}

#[test]
fn a_program_need_not_read_all() {
    let bytes = vec![4; 1_000_000];
    let printed = Program { path: "true", limit: LIMIT }.run(&bytes, usize::MAX).expect("true starts").expect("ends");
    assert!(printed.output.is_empty() && printed.status.success());
}

#[test]
fn a_program_that_hangs_is_killed() {
    let path = program("hangs");
    let began = Instant::now();
    let program = Program { path: &path, limit: Duration::from_secs(1) };
    let Err(Trouble::Bytes(text, bytes)) = replay_one(program, &[4], "pool 16384\n", None) else {
        panic!("it is found");
    };
    assert!(text.ends_with("it does not end within 1 s"), "{text}");
    assert_eq!(bytes, [4]);
    assert!(began.elapsed() < Duration::from_secs(30));
}

#[test]
fn a_program_that_prints_without_end_is_stopped() {
    let program = Program { path: "yes", limit: LIMIT };
    let Err(Trouble::Bytes(text, _)) = replay_one(program, &[], "pool 16384\n", None) else {
        panic!("it is found");
    };
    assert!(text.contains("line 1 of the program: \"y\\n\"\n  line 1 of the reference: \"pool 16384\\n\""), "{text}");
}

#[test]
fn a_program_that_is_not_there_cannot_be_started() {
    let program = Program { path: "no/such/program", limit: LIMIT };
    let Err(Trouble::Start(text)) = replay_one(program, &[], "", None) else {
        panic!("it is found");
    };
    assert!(text.starts_with("no/such/program cannot be started: "), "{text}");
}

/// Each byte of each kind of entry is the first one behind each of the program's buffers once, in a journal that goes on
/// and in one that ends there.
#[test]
fn buffers_end_in_every_entry() {
    for buffer in BUFFERS {
        let mut offsets = BTreeSet::new();
        let mut cut = 0;
        for bytes in buffer_ends(buffer) {
            let (entries, bad) = decode(&bytes);
            cut += usize::from(bad.is_some_and(|bad| bad.refusal() == 13));
            let mut at = 0;
            for entry in entries {
                let length = encode(&[entry]).len();
                if at < buffer && buffer < at + length {
                    offsets.insert((entry.name(), buffer - at));
                }
                at += length;
            }
        }
        let wanted = [("seed", 17), ("acquire", 2), ("release", 10)];
        let wanted = wanted.into_iter().flat_map(|(name, length)| (1..length).map(move |offset| (name, offset)));
        assert_eq!(offsets, wanted.collect());
        assert_eq!(cut, 16 + 3 + 2 * 9);
    }
}

#[test]
fn long_journals_are_longer_than_a_pipe() {
    for profile in LONG_PROFILES {
        let agreed = agree(Job { profile, number: 1, length: LONG }).map_err(|differing| differing.0).expect("agree");
        assert!(agreed.run.entries == 20_000 && encode(&agreed.entries).len() > 100_000);
    }
}
