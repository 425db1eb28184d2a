//! Times of the proved store beside those of the original Rust.

use boundary::speed::{count, tables};
use std::process::ExitCode;

const USAGE: &str = "usage:
  speed                  times of all calls on both sides, as tables
  speed --count WHAT N   makes calls so many times, to be counted. WHAT is proved:NAME (acquire, release, check and
                         report of the proved store), pair:NAME (acquire and release alone), full:NAME (the same on
                         a pool that is used whole) or rust:NAME; NAME is a store's, or, with proved and rust, a seed's
  speed --list           the names of stores and seeds";

fn main() -> ExitCode {
    let arguments: Vec<String> = std::env::args().skip(1).collect();
    let arguments: Vec<&str> = arguments.iter().map(String::as_str).collect();
    let outcome = match arguments[..] {
        [] => {
            tables::all();
            Ok(())
        }
        ["--list"] => {
            tables::names();
            Ok(())
        }
        ["--count", what, times] => number(times).and_then(|times| count::count(what, times)),
        _ => Err(USAGE.to_string()),
    };
    match outcome {
        Ok(()) => ExitCode::SUCCESS,
        Err(text) => {
            eprintln!("speed: {text}");
            ExitCode::FAILURE
        }
    }
}

fn number(text: &str) -> Result<u32, String> {
    text.parse().map_err(|_| format!("{text} is no number from 0 to 2^32 - 1"))
}
