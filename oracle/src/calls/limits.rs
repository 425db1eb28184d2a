//! Calls at the limits: numbers of 64 bits in every argument, odd pool lengths, odd used counts, changed fields.

use super::Ask;
use super::writer::{LENGTH, Writer};
use crate::reference::{CALLS, TOP};
use crate::store::{Call, State};

/// Addresses at the limits.
const ADDRESSES: [u64; 9] = [0, 4_095, 4_096, TOP - 4_096, TOP, TOP + 4_096, 1 << 63, u64::MAX - 4_095, u64::MAX];

/// All codes, and numbers that are none; some of them are codes where they are cut to 8 or 32 bits.
const CODES: [u64; 14] = [0, 1, 2, 3, 4, 5, 6, 7, 255, 257, 1 << 32, (1 << 32) + 1, (1 << 63) + 6, u64::MAX];

/// Lengths of pools.
const LENGTHS: [usize; 7] = [0, 1, 2, 1_412, 1_413, 1_048_576, 1_048_577];

/// Masks of fields.
const MASKS: [u64; 5] = [1, 4_096, TOP, 1 << 63, u64::MAX];

/// Where the seeds of the document start.
const START: u64 = 1 << 31;

/// What pools hold before fresh.
const GARBAGE: (u32, u32) = (0xdead_beef, 0x9e37_79b9);

/// The word of a new root.
const ROOT: u32 = 96;

/// All journals at the limits; those of the document and of codes have a line for each call.
pub fn write(writer: &mut Writer) {
    write_document(writer);
    write_fences(writer);
    write_seeds(writer);
    write_acquires(writer);
    write_releases(writer);
    for length in LENGTHS {
        write_length(writer, length);
    }
    write_fields(writer);
}

fn ask(writer: &mut Writer, calls: &[Call]) {
    for &call in calls {
        writer.ask(Ask::Other(call));
    }
}

fn seed(start: u64, end: u64) -> Call {
    Call::Seed { start, end }
}

fn acquire(code: u64) -> Call {
    Call::Acquire { code }
}

fn release(base: u64, code: u64) -> Call {
    Call::Release { base, code }
}

/// The document's journal.
fn write_document(writer: &mut Writer) {
    writer.begin("the document's journal", true, 16_384, GARBAGE);
    writer.ask(Ask::Fresh);
    let dealt = [seed(START, START + 24_576), acquire(1), acquire(2), acquire(1)];
    ask(writer, &dealt);
    ask(writer, &[release(START, 1), release(START, 1), Call::Report]);
    writer.end();
}

/// The document's cases at the fences that depend on the pool's length, and those that do not.
fn write_fences(writer: &mut Writer) {
    let small = seed(START, START + 16_384);
    for length in [1_412, 1_413, 1_417, 1_418] {
        writer.begin(&format!("fences, {length} words"), true, length, GARBAGE);
        writer.ask(Ask::Fresh);
        ask(writer, &[small, acquire(2), release(START + 4_096, 1), acquire(1), release(START, 2), Call::Report]);
        writer.end();
    }
    writer.begin("fences", true, 16_384, GARBAGE);
    writer.ask(Ask::Fresh);
    for code in 1..=6 {
        ask(writer, &[acquire(code)]);
    }
    ask(writer, &[release(0, 1), seed(0, TOP + 4_096), seed(4_096, 4_096), seed(TOP - 4_096, TOP), acquire(1)]);
    for region in 0..8 {
        ask(writer, &[seed(START * (region + 1), START * (region + 1) + 4_096), acquire(1)]);
    }
    ask(writer, &[seed(START, START + 4_096), seed(4_096, 4_096), seed(1, 4_096), seed(0, TOP + 4_096), Call::Report]);
    writer.ask(Ask::Fresh);
    ask(writer, &[small, acquire(1), acquire(1), acquire(1), acquire(1)]);
    for frame in [2, 0, 3, 1] {
        ask(writer, &[release(START + frame * 4_096, 1)]);
    }
    ask(writer, &[acquire(2), Call::Report]);
    writer.end();
}

/// Every two addresses as a seed of a fresh store, and behind a first seed.
fn write_seeds(writer: &mut Writer) {
    writer.begin("seeds at the limits", false, 4_000, GARBAGE);
    for start in ADDRESSES {
        for end in ADDRESSES {
            writer.ask(Ask::Fresh);
            ask(writer, &[seed(start, end), Call::Report, seed(end, start), seed(start, end)]);
        }
    }
    writer.end();
}

/// Every code as an acquire of a fresh store, of a small region, and of all addresses.
fn write_acquires(writer: &mut Writer) {
    writer.begin("acquires at the limits", true, 4_000, GARBAGE);
    for code in CODES {
        writer.ask(Ask::Fresh);
        let small = seed(START, START + 24_576);
        ask(writer, &[acquire(code), small, acquire(code), acquire(code), Call::Report]);
        writer.ask(Ask::Fresh);
        ask(writer, &[seed(0, TOP), acquire(code), acquire(code), Call::Report]);
        writer.ask(Ask::Check);
    }
    writer.end();
}

/// Every address and code as a release of a fresh store, where all is held, and once more.
fn write_releases(writer: &mut Writer) {
    writer.begin("releases at the limits", false, 4_000, GARBAGE);
    for base in ADDRESSES {
        for code in CODES {
            writer.ask(Ask::Fresh);
            let held = [release(base, code), seed(0, TOP), release(base, code), acquire(6)];
            ask(writer, &held);
            ask(writer, &[release(base, code), Call::Report, release(base, code)]);
        }
    }
    writer.end();
}

/// All six calls on a pool of a length, with used counts around it. Where fresh is refused, the root's word is set, so
/// that nothing but the length is wrong.
fn write_length(writer: &mut Writer, length: usize) {
    let whole = length as u64;
    for (number, used) in [0, 1, whole, whole + 1, 1 << 63, u64::MAX].into_iter().enumerate() {
        let fresh = if (1..=1_048_576).contains(&length) { 1 } else { 0 };
        writer.begin(&format!("{length} words, used {used}"), number < 2, length, GARBAGE);
        writer.ask(Ask::Fresh);
        if fresh == 0 && length > 0 {
            writer.word(0, ROOT);
        }
        writer.field(0, fresh ^ used);
        writer.ask(Ask::Check);
        ask(writer, &[seed(START, START + 16_384), acquire(1), release(START, 1), Call::Report, acquire(2)]);
        writer.ask(Ask::Check);
        writer.ask(Ask::Fresh);
        writer.end();
    }
}

/// A seeded store with each field changed, and changed back; then the pool's length and single words.
fn write_fields(writer: &mut Writer) {
    let mut pool = vec![0; 3_000];
    let fresh = (CALLS.fresh)(&mut pool);
    let seeded = (CALLS.seed)(fresh.state, &mut pool, START, START + 24_576).state;
    writer.begin("changed fields", false, pool.len(), GARBAGE);
    writer.ask(Ask::Fresh);
    ask(writer, &[seed(START, START + 24_576)]);
    for field in 0..LENGTH {
        for mask in MASKS {
            writer.field(field, mask);
            all_on_a_damaged(writer, seeded);
            writer.field(field, mask);
        }
    }
    for length in [0, 1, 1_417, 1_418, 1_048_576, 1_048_577] {
        writer.field(LENGTH, 3_000 ^ length);
        all_on_a_damaged(writer, seeded);
        writer.field(LENGTH, 3_000 ^ length);
    }
    for (place, word) in [(0, 0), (0, 97), (1, 1), (258, 80), (1_417, 0), (1_417, u32::MAX)] {
        writer.word(place, word);
        all_on_a_damaged(writer, seeded);
        writer.ask(Ask::Fresh);
        ask(writer, &[seed(START, START + 24_576)]);
    }
    writer.end();
}

/// Calls that change nothing, sound or not: what is asked is refused in any case, but for check and report.
fn all_on_a_damaged(writer: &mut Writer, seeded: State) {
    writer.ask(Ask::Check);
    let refused = [seed(seeded.starts[0], seeded.ends[0]), acquire(6), release(seeded.starts[0], 1)];
    ask(writer, &refused);
    ask(writer, &[Call::Report]);
}
