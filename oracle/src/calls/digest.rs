//! A running digest of numbers, the same as the program's.

use crate::store::State;

/// The digest of nothing.
pub const NONE: u64 = 14_695_981_039_346_656_037;

/// How long a pool may be to be taken whole after each call.
const SMALL: usize = 4_096;

/// How many words behind used are taken in a longer one.
const BEHIND: u64 = 3_072;

/// The digest with a number added. It is one to one in the digest and in the number.
pub fn step(digest: u64, number: u64) -> u64 {
    let mixed = digest ^ number;
    let spread = mixed.wrapping_add(mixed << 21);
    spread ^ (spread >> 29)
}

/// The same with words.
pub fn words(digest: u64, words: &[u32]) -> u64 {
    words.iter().fold(digest, |digest, &word| step(digest, u64::from(word)))
}

/// The same with every field of a state.
pub fn fields(digest: u64, state: State) -> u64 {
    [state.used].iter().chain(&state.starts).chain(&state.ends).fold(digest, |digest, &field| step(digest, field))
}

/// How many words of a pool are taken after a call: all, or those in use and some behind them.
pub fn reach(used: u64, length: usize) -> usize {
    if length <= SMALL { length } else { used.saturating_add(BEHIND).min(length as u64) as usize }
}
