//! Judges of document 01, each written without the others: the original Rust with its stand-ins, a reference from the
//! document's text, a brute-force store over free frames; a generator of journals, and the comparison. Beside them
//! the text form of a journal.
pub mod calls;
pub mod compare;
pub mod damage;
pub mod explain;
pub mod frames;
pub mod generate;
pub mod guard;
pub mod journal;
pub mod mutants;
pub mod original;
pub mod reference;
pub mod replay;
pub mod room;
pub mod sample;
pub mod shrink;
pub mod store;
pub mod streams;
pub mod text;
pub mod threads;
pub mod walk;
