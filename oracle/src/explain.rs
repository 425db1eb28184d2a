//! What is told of a journal that shows a difference, and where its bytes go.

use crate::compare::Differing;
use crate::journal::encode;
use crate::shrink::shrink;
use std::time::Duration;

/// How long a differing journal is made smaller.
const SHRINKING: Duration = Duration::from_secs(20);

/// Where the bytes of a differing journal go.
const FILE: &str = "difference.journal";

/// The difference of a named journal, the smallest journal that shows one, and where its bytes are.
pub fn explain(name: &str, (difference, entries, pool_words): &Differing) -> String {
    let text = format!("{name} differs at {difference}\n");
    match shrink(None, entries, *pool_words, SHRINKING) {
        Some(smallest) => keep(&encode(&smallest.entries), format!("{text}the smallest journal found:\n{smallest}")),
        None => keep(&encode(entries), format!("{text}its entries by themselves do not differ")),
    }
}

/// Keeps the bytes of a differing journal, and adds to the text where they are.
pub fn keep(bytes: &[u8], text: String) -> String {
    match std::fs::write(FILE, bytes) {
        Ok(()) => format!("{text}\nthe journal's bytes are in {FILE}"),
        Err(error) => format!("{text}\nthe journal's bytes cannot be written to {FILE}: {error}"),
    }
}
