//! Stores of three sizes, how long a check of each takes, and a list by which a program's check is timed on the same.

use super::super::Damaged;
use crate::calls::writer::Writer;
use crate::frames::FRAME as FRAME_BYTES;
use crate::reference::{BYTES, CALLS, FAN_OUT, FRAME, Word, new_node, pack};
use crate::store::State;
use crate::walk;
use std::fs::File;
use std::hint::black_box;
use std::io::{BufRead, BufReader, Error, Result};
use std::process::{Command, Stdio};
use std::time::{Duration, Instant};

/// Where the regions start: two blocks of 1 GiB lie before.
const START: u64 = 2_147_483_648;

/// How long each check is timed.
const TIMING: Duration = Duration::from_millis(1_500);

/// How many times it is timed at least.
const SAMPLES: usize = 21;

/// How many words the checks of one repetition see together.
const REPEATED: usize = 1 << 28;

/// The three stores, each on a pool that is used whole.
fn stores() -> Vec<Damaged> {
    let some = 19 * 512 + 72 * 4;
    let all = (BYTES[4] / FRAME_BYTES) as usize;
    vec![seeded(), dealt(some), dealt(all)]
}

/// What the document's seed leaves.
fn seeded() -> Damaged {
    let mut pool = vec![0; 1_418];
    let fresh = (CALLS.fresh)(&mut pool);
    let seeded = (CALLS.seed)(fresh.state, &mut pool, START, START + 24_576);
    Damaged { state: seeded.state, pool, what: String::new() }
}

/// What a seed of 1 GiB leaves after so many acquires of a frame, four to each 16 KiB, and the release of every second.
fn dealt(frames: usize) -> Damaged {
    let mut pool = vec![pack(new_node(6))];
    let below = open(&mut pool, 0, 6, new_node(5)) + 1;
    let region = open(&mut pool, below, 5, new_node(4)) + 1 + (START / BYTES[4]) as usize;
    let max = deal(&mut pool, region, 4, frames);
    for place in [0, below] {
        pool[place] += max as u32;
    }
    let mut state = State { used: pool.len() as u64, ..State::default() };
    (state.starts[0], state.ends[0]) = (START, START + BYTES[4]);
    Damaged { state, pool, what: String::new() }
}

/// Opens a node of a code with children as given, and gives the place of its block.
fn open(pool: &mut Vec<u32>, place: usize, code: usize, child: Word) -> usize {
    let header = pool.len();
    pool[place] = pack(Word { link: header, ..new_node(code) });
    pool.push(place as u32);
    pool.resize(header + 1 + FAN_OUT[code], pack(child));
    header
}

/// Opens a token node, deals so many of its frames, takes every second one back, and gives the node's max.
fn deal(pool: &mut Vec<u32>, place: usize, code: usize, frames: usize) -> usize {
    let below = code - 1;
    let header = open(pool, place, code, Word { max: below, token: true, ..new_node(below) });
    let each = (BYTES[below] / FRAME_BYTES) as usize;
    let mut max = if frames < each * FAN_OUT[code] { below } else { 0 };
    for (number, child) in (header + 1..=header + FAN_OUT[code]).enumerate() {
        let left = frames.saturating_sub(number * each).min(each);
        if below == FRAME && number % 2 == 0 {
            pool[child] = pack(new_node(FRAME));
        } else if below == FRAME {
            max = FRAME;
        } else if left > 0 {
            max = max.max(deal(pool, child, below, left));
        }
    }
    pool[place] += max as u32;
    max
}

/// The median time of a check.
fn median(check: fn(State, &[u32]) -> bool, store: &Damaged) -> Duration {
    let began = Instant::now();
    let mut times = Vec::new();
    while times.len() < SAMPLES || began.elapsed() < TIMING {
        let asked = Instant::now();
        assert!(check(black_box(store.state), black_box(&store.pool)), "a sound store");
        times.push(asked.elapsed());
    }
    times.sort();
    times[times.len() / 2]
}

/// How long one check of each store takes by the reference, by the walk with its sweep, and by a program if its times
/// are given.
pub fn table(program: &[Duration]) -> String {
    let title = if program.is_empty() { "\n" } else { "         program\n" };
    let mut text = format!("{:>10}{:>16}{:>16}{title}", "words", "reference", "walk");
    for (number, store) in stores().iter().enumerate() {
        text += &format!("{:>10}", store.pool.len());
        let here = [median(CALLS.check, store), median(walk::sound, store)];
        for time in here.iter().chain(program.get(number)) {
            text += &format!("{:>13.1} µs", time.as_nanos() as f64 / 1_000.0);
        }
        text += "\n";
    }
    text
}

/// How long one check of each store takes by a program that reads the list in a file. It prints a store's name, then
/// asks, and a line of two digits follows: one for the store, one for its repetition.
pub fn by_program(file: &str, program: &str) -> Result<Vec<Duration>> {
    let mut child = Command::new(program).stdin(File::open(file)?).stdout(Stdio::piped()).spawn()?;
    let lines = child.stdout.take().map(|lines| BufReader::new(lines).lines());
    let mut times = Vec::new();
    let mut began = Instant::now();
    for line in lines.into_iter().flatten() {
        match line?.as_str() {
            "11" => times.push(began.elapsed()),
            name if name.ends_with("times") => began = Instant::now(),
            other => return Err(Error::other(format!("it says {other} of a sound store"))),
        }
    }
    child.wait()?;
    let asked: Vec<u32> = stores().iter().map(|store| times_asked(store) + 1).collect();
    if times.len() != asked.len() {
        return Err(Error::other("it does not answer of every store"));
    }
    Ok(times.into_iter().zip(asked).map(|(time, asked)| time / asked).collect())
}

/// How often a store is asked.
fn times_asked(store: &Damaged) -> u32 {
    (REPEATED / store.pool.len()) as u32
}

/// The stores as a list, each with a repetition of many checks; its name says how many.
pub fn list() -> Vec<u8> {
    let mut writer = Writer::default();
    for store in stores() {
        let times = times_asked(&store);
        writer.base(&format!("{} words, asked {times} times", store.pool.len()), &store);
        writer.repetition(times);
    }
    writer.bytes
}

#[cfg(test)]
mod tests {
    use super::*;

    #[test]
    fn the_stores_are_sound_and_of_these_sizes() {
        let sizes: Vec<usize> = stores().iter().map(|store| store.pool.len()).collect();
        assert_eq!(sizes, [1_418, 16_384, 395_012]);
        for store in stores() {
            assert_eq!(store.state.used, store.pool.len() as u64);
            assert!((CALLS.check)(store.state, &store.pool) && walk::sound(store.state, &store.pool));
        }
    }

    #[test]
    fn frames_are_dealt_as_the_reference_deals_them() {
        for frames in [8, 516] {
            let mut pool = vec![0; 4_000];
            let fresh = (CALLS.fresh)(&mut pool);
            let mut state = (CALLS.seed)(fresh.state, &mut pool, START, START + BYTES[4]).state;
            for _ in 0..frames {
                state = (CALLS.acquire)(state, &mut pool, 1).state;
            }
            for frame in (1..frames).step_by(2) {
                state = (CALLS.release)(state, &mut pool, START + frame * FRAME_BYTES, 1).state;
            }
            let made = dealt(frames as usize);
            assert_eq!((made.state, &made.pool[..]), (state, &pool[..state.used as usize]));
        }
    }

    #[test]
    fn the_list_has_a_sound_store_and_a_repetition_each() {
        let printed = String::from_utf8(crate::calls::answers(&list(), CALLS)).expect("names are ASCII");
        let lines: Vec<&str> = printed.lines().collect();
        let names: Vec<&str> = lines.iter().copied().step_by(2).collect();
        let asked = ["1418 words, asked 189305", "16384 words, asked 16384", "395012 words, asked 679"];
        assert_eq!(names, asked.map(|asked| format!("{asked} times")));
        assert_eq!(lines.iter().copied().skip(1).step_by(2).collect::<Vec<_>>(), ["11"; 3]);
    }

    #[test]
    fn a_program_that_is_not_there_or_says_nothing_has_no_times() {
        assert!(by_program("Cargo.toml", "no/such/program").is_err());
        assert!(by_program("no/such/list", "true").is_err());
        assert!(by_program("Cargo.toml", "true").is_err());
    }
}
