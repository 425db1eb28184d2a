//! Runs the package's programs.

use std::io::Write;
use std::process::{Command, Output, Stdio};

/// A program with arguments, its three streams in pipes.
pub fn command(program: &str, arguments: &[&str]) -> Command {
    let mut command = Command::new(program);
    command.args(arguments).stdin(Stdio::piped()).stdout(Stdio::piped()).stderr(Stdio::piped());
    command
}

/// Runs a program with arguments and bytes to read.
pub fn run(program: &str, arguments: &[&str], bytes: &[u8]) -> Output {
    let mut child = command(program, arguments).spawn().expect("the program starts");
    child.stdin.take().expect("a pipe").write_all(bytes).expect("it reads all");
    child.wait_with_output().expect("the program ends")
}
