//! The judges of document 01 from the command line.

use oracle::compare::{Job, compare_readings, plan, sweep, table};
use oracle::damage::list;
use oracle::explain::{explain, keep};
use oracle::generate::{Profile, record};
use oracle::journal::encode;
use oracle::streams::{print, read_input};
use oracle::{calls, damage, mutants, original, reference, replay, sample};
use std::process::ExitCode;
use std::time::Instant;

const USAGE: &str = "usage:
  oracle reference < JOURNAL                   what document 01 prints
  oracle original < JOURNAL                    what the original Rust answers
  oracle sizes < ROWS                          what the original Rust says of sizes, and of an address and an end a row
  oracle journal PROFILE NUMBER LENGTH > FILE  writes a generated journal
  oracle compare [ENTRIES [NUMBER [PROFILE]]]  compares all judges (200000 entries, numbers from 1 on, all profiles)
  oracle replay PROGRAM [ENTRIES [NUMBER [PROFILE]]]
                                               compares them, and a program that replays journals with them (50000)
  oracle sample FOLDER                         writes the fixed sample of journals and what they must print
  oracle damage [STORES [NUMBER]]              compares two judges of soundness on damaged stores (100000)
  oracle calls-list FILE                       writes stores, damaged stores and journals for a program that makes all calls
  oracle calls-answers < LIST                  what such a program must print, by the reference
  oracle check-times [FILE [PROGRAM]]          times checks of three stores; writes them as a list for a program that
                                               asks a check of each, and times the program on it
  oracle mutants                               shows that wrong stores are found
profiles:";

/// How many entries are compared unless the command says so.
const ENTRIES: u64 = 200_000;

/// How many damaged stores are compared unless the command says so.
const STORES: u64 = 100_000;

/// How many entries a program replays unless the command says so.
const REPLAYED: u64 = 50_000;

fn main() -> ExitCode {
    let arguments: Vec<String> = std::env::args().skip(1).collect();
    let arguments: Vec<&str> = arguments.iter().map(String::as_str).collect();
    let outcome = match arguments[..] {
        ["reference"] => read_input().and_then(|bytes| print(reference::replay(&bytes).as_bytes())),
        ["original"] => read_input().and_then(|bytes| print(original::replay(&bytes).as_bytes())),
        ["sizes"] => read_input().and_then(|bytes| print(original::sizes(&bytes).as_bytes())),
        ["journal", profile, number, length] => write_journal(profile, number, length),
        ["compare", ref rest @ ..] if rest.len() <= 3 => compare(rest),
        ["replay", program, ref rest @ ..] if rest.len() <= 3 => run_replay(program, rest),
        ["sample", folder] => sample::write(folder).and_then(|text| print(text.as_bytes())),
        ["damage", ref rest @ ..] if rest.len() <= 2 => run_damage(rest),
        ["calls-list", file] => write_to(file, &calls::list()),
        ["calls-answers"] => read_input().and_then(|bytes| print(&calls::answers(&bytes, reference::CALLS))),
        ["check-times", ref rest @ ..] if rest.len() <= 2 => check_times(rest),
        ["mutants"] => mutants::run().and_then(|text| print(text.as_bytes())),
        _ => Err(usage()),
    };
    match outcome {
        Ok(()) => ExitCode::SUCCESS,
        Err(text) => {
            eprintln!("{text}");
            ExitCode::FAILURE
        }
    }
}

fn usage() -> String {
    let names: Vec<&str> = Profile::ALL.iter().map(|profile| profile.name()).collect();
    format!("{USAGE} {}", names.join(" "))
}

fn number(text: &str) -> Result<u64, String> {
    text.parse().map_err(|_| format!("{text} is no number from 0 to 2^64 - 1"))
}

/// The number at a place of the arguments, or the usual one.
fn number_or(arguments: &[&str], place: usize, usual: u64) -> Result<u64, String> {
    arguments.get(place).map_or(Ok(usual), |text| number(text))
}

fn profile(name: &str) -> Result<Profile, String> {
    Profile::from_name(name).ok_or_else(|| format!("{name} is no profile\n{}", usage()))
}

fn write_journal(name: &str, journal: &str, length: &str) -> Result<(), String> {
    let length = usize::try_from(number(length)?).map_err(|_| format!("{length} entries are too many"))?;
    let (pool_words, entries, _) = record(profile(name)?, number(journal)?, length, reference::CALLS);
    eprintln!("recorded on a pool of {pool_words} words");
    print(&encode(&entries))
}

/// The journals that `[ENTRIES [NUMBER [PROFILE]]]` name, with their entries in all and the first number.
fn planned(arguments: &[&str], usual: u64) -> Result<(Vec<Job>, u64, u64), String> {
    let entries = number_or(arguments, 0, usual)?;
    let first = number_or(arguments, 1, 1)?;
    let one = arguments.get(2).map(|name| profile(name)).transpose()?;
    let profiles = one.as_ref().map_or(Profile::ALL, std::slice::from_ref);
    Ok((plan(profiles, first, entries), entries, first))
}

fn compare(arguments: &[&str]) -> Result<(), String> {
    let (jobs, entries, first) = planned(arguments, ENTRIES)?;
    let began = Instant::now();
    let tallies = sweep(None, &jobs).map_err(|found| explain(&found.job.to_string(), &found.differing))?;
    let readings = compare_readings(first).map_err(|(difference, bytes)| keep(&bytes, difference.to_string()))?;
    let text = table(&tallies);
    print_compared(&format!("{text}read {readings} journals cut short or of random bytes\n"), entries, began)
}

fn run_replay(program: &str, arguments: &[&str]) -> Result<(), String> {
    let (jobs, entries, first) = planned(arguments, REPLAYED)?;
    let began = Instant::now();
    print_compared(&replay::run(program, &jobs, first)?, entries, began)
}

/// Prints what is compared, and a last line with the entries and the time.
fn print_compared(text: &str, entries: u64, began: Instant) -> Result<(), String> {
    let seconds = began.elapsed().as_secs_f64();
    print(format!("{text}compared {entries} entries in {seconds:.1} s: no difference\n").as_bytes())
}

fn run_damage(arguments: &[&str]) -> Result<(), String> {
    let stores = number_or(arguments, 0, STORES)?;
    let first = number_or(arguments, 1, 1)?;
    damage::run(first, stores).and_then(|text| print(text.as_bytes()))
}

fn write_to(file: &str, bytes: &[u8]) -> Result<(), String> {
    std::fs::write(file, bytes).map_err(|error| format!("{file} cannot be written: {error}"))
}

/// Times the checks here, and by the program if one is named, on the list that goes into the file.
fn check_times(arguments: &[&str]) -> Result<(), String> {
    if let [file, ..] = arguments {
        write_to(file, &list::times_list())?;
    }
    let program = match arguments {
        [file, program] => list::by_program(file, program).map_err(|error| format!("{program}: {error}"))?,
        _ => Vec::new(),
    };
    print(list::times_table(&program).as_bytes())
}
