//! Turns the text form of a journal into journal bytes, and back, from the command line. It is outside the proved part.

use oracle::streams::{print, read_input};
use oracle::text::{Made, examples, from_bytes, to_bytes};
use std::ffi::OsString;
use std::io::{Write, stderr};
use std::process::ExitCode;

const USAGE: &str = "usage:
  journal bytes [FILE]   text to journal bytes, on standard output
  journal text [FILE]    journal bytes to text, on standard output
Without FILE, standard input is read. This tool is outside the proved part.
The text has an entry a line, and # begins a comment:";

/// What a command makes of its input.
type Command = fn(&[u8]) -> Made;

/// The exit status where the arguments name no command.
const BAD_USAGE: u8 = 2;

fn main() -> ExitCode {
    let arguments: Vec<OsString> = std::env::args_os().skip(1).collect();
    let Some((command, file)) = chosen(&arguments) else {
        tell(&format!("{USAGE}\n{}", examples()));
        return ExitCode::from(BAD_USAGE);
    };
    let (made, mut errors) = read(file).map_or_else(|error| (Vec::new(), vec![error]), |input| command(&input));
    errors.extend(print(&made).err());
    for error in &errors {
        tell(&format!("journal: {error}"));
    }
    if errors.is_empty() { ExitCode::SUCCESS } else { ExitCode::FAILURE }
}

/// The command that the arguments name, and its file if there is one.
fn chosen(arguments: &[OsString]) -> Option<(Command, Option<&OsString>)> {
    let (name, files) = arguments.split_first()?;
    match (name.to_str()?, files) {
        ("bytes", [] | [_]) => Some((to_bytes, files.first())),
        ("text", [] | [_]) => Some((from_bytes, files.first())),
        _ => None,
    }
}

/// All bytes of the file, or of standard input.
fn read(file: Option<&OsString>) -> Result<Vec<u8>, String> {
    match file {
        Some(file) => std::fs::read(file).map_err(|error| format!("{} cannot be read: {error}", file.display())),
        None => read_input(),
    }
}

/// Writes a line to standard error. Where that fails, nobody is left to tell.
fn tell(line: &str) {
    let _ = writeln!(stderr(), "{line}");
}
