//! `hostile [CALLS [NUMBER]]`: the proved store through its C interface, beside the reference, on calls that all follow
//! from the number.

use boundary::hostile::candidate::Candidate;
use boundary::hostile::run;
use boundary::hostile::watch::{LIMIT, Watch};
use std::process::ExitCode;
use std::time::Instant;

/// The most calls of a run: all runs are planned before the first.
const MOST: u64 = 1_000_000_000;

const USAGE: &str = "usage: hostile [CALLS [NUMBER]]
CALLS is 1 to 1000000000, 1000000 where it is left out; NUMBER is 0 to 2^64 - 1, 1 where it is left out";

fn main() -> ExitCode {
    let arguments: Vec<String> = std::env::args().skip(1).collect();
    let Some((calls, number)) = numbers(&arguments) else {
        eprintln!("{USAGE}");
        return ExitCode::from(2);
    };
    let watch: &'static Watch = Box::leak(Box::default());
    watch.tell_of_signals();
    std::thread::spawn(|| watch.guard(LIMIT));
    let start = Instant::now();
    match run(&Candidate::proved(), number, calls, watch) {
        Ok(text) => {
            print!("{text}");
            println!("in {} s", start.elapsed().as_secs());
            ExitCode::SUCCESS
        }
        Err(text) => {
            eprint!("{text}");
            ExitCode::FAILURE
        }
    }
}

/// Calls and number, as far as they are given.
fn numbers(arguments: &[String]) -> Option<(u64, u64)> {
    let parsed: Option<Vec<u64>> = arguments.iter().map(|argument| argument.parse().ok()).collect();
    let (calls, number) = match parsed?[..] {
        [] => (1_000_000, 1),
        [calls] => (calls, 1),
        [calls, number] => (calls, number),
        _ => return None,
    };
    (1..=MOST).contains(&calls).then_some((calls, number))
}
