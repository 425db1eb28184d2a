//! Standard input and standard output, for the package's programs.

use std::io::{Read, Write, stdin, stdout};

/// All bytes of standard input.
pub fn read_input() -> Result<Vec<u8>, String> {
    let mut bytes = Vec::new();
    stdin().read_to_end(&mut bytes).map_err(|error| format!("the input cannot be read: {error}"))?;
    Ok(bytes)
}

/// Writes bytes to standard output.
pub fn print(bytes: &[u8]) -> Result<(), String> {
    let mut output = stdout();
    // What is still held back at the program's end would fail unseen.
    let written = output.write_all(bytes).and_then(|()| output.flush());
    written.map_err(|error| format!("the output cannot be written: {error}"))
}
