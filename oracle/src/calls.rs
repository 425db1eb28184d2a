//! A list of stores, damaged stores and journals of calls in bytes, for a program that makes all calls. `writer` has the
//! bytes; `reader` reads them again, without what they were made from, and says what the program must print; `journals`
//! and `limits` have journals, `damage::list` has damaged stores.
//!
//! A number has seven bits a byte, the lowest first; all its bytes but the last have their high bit set. An address is
//! the number that has its low twelve bits on top, so that page-aligned ones have few bytes. Records follow one another,
//! each a byte of kind and numbers:
//! - 1, a base store: the length of its name (at most 64) and the name's bytes; the pool's words; used, the starts and
//!   the ends; how many runs there are, and for each its count and its word. Its first 8,192 words are kept;
//! - 2, a damaged store: how many word changes and how many field changes there are; for each word change a place below
//!   8,192 and a mask, for each field change a field (0 used, 1 to 8 starts, 9 to 16 ends, 17 the pool's length) and a
//!   mask; masks are for exclusive or;
//! - 3, a sweep: a mask, the first place and a count: one word after the other is changed by the mask;
//! - 4, a repetition: how often the base store is checked;
//! - 5, questions: 1 or 0; a seed's start and end (addresses), an acquire's code, a release's base (address) and code;
//! - 6, a journal: name as above; 1 where each call gets a line; the pool's words, the first word and the step to the
//!   next; the state is of zeros;
//! - 7, a field and a mask; 8, a place and a word; 9, the end of a store or a journal;
//! - 10 fresh; 11 seed with start and end (addresses); 12 acquire with a code; 13 release with a base (address) and a
//!   code; 14 report; 15 check.
//!
//! A base store, a damaged one and each of a sweep are checked, and the verdict is a digit of a line; with questions all
//! other calls are made behind it, in the order of the questions, then report and fresh; then the first words and the
//! base store's state are put back. Each answer goes into the digest, and the end of a store prints it.

use crate::damage::list;
use crate::store::Call;
use writer::Writer;

mod digest;
mod journals;
mod limits;
mod reader;
#[cfg(test)]
mod tests;
pub(crate) mod writer;

pub use reader::{Reader, answers};

/// How many words the program's array has: one more than a pool may have.
const CAPACITY: usize = 1_048_577;

/// How many of the first words are put back behind each damaged store.
const SPARE: usize = 8_192;

/// The longest name.
const NAME: usize = 64;

/// Any of the six calls, with any numbers.
#[derive(Clone, Copy, Debug, PartialEq, Eq)]
pub(crate) enum Ask {
    Fresh,
    Check,
    Other(Call),
}

/// The whole list: journals whose calls have lines, limits, damaged stores, and the mass of the journals.
pub fn list() -> Vec<u8> {
    let mut writer = shown();
    journals::write_mass(&mut writer);
    writer.bytes
}

/// The list without the mass of the journals.
pub fn short_list() -> Vec<u8> {
    shown().bytes
}

fn shown() -> Writer {
    let mut writer = Writer::default();
    journals::write_sample(&mut writer);
    limits::write(&mut writer);
    list::write(&mut writer);
    writer
}
