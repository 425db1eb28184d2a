//! The store under test: a function of pointer and length, as C calls it.

use crate::ask::{Ask, answer_of};
use crate::c;
use oracle::store::{Answer, Calls, State};

/// What a store answers to a call on so many words at a pointer.
pub type Answers<'a> = dyn Fn(Ask, State, *mut u32, usize) -> Answer + Sync + 'a;

/// A store under test.
pub struct Candidate<'a> {
    pub answer: Box<Answers<'a>>,
    /// Whether it may be given a length above the limit where no such words are.
    pub any_length: bool,
}

impl Candidate<'_> {
    /// The proved store. Give it pointers and lengths as the header asks for them, or lengths above the limit.
    pub fn proved() -> Candidate<'static> {
        // SAFETY: only the bench calls it, with words of its own or a length above the limit
        let answer = |ask, state, pool, words| unsafe { c::answer(ask, state, pool, words) };
        Candidate { answer: Box::new(answer), any_length: true }
    }

    /// Any table of functions, with the reference's room_for. It takes slices, so it is never asked about words that are
    /// not there.
    pub fn of(calls: Calls) -> Candidate<'static> {
        let answer = move |ask, state, pool: *mut u32, words: usize| {
            let pool = if words == 0 { std::ptr::dangling_mut() } else { pool };
            // SAFETY: only the bench calls it, with words of its own
            answer_of(calls, ask, state, unsafe { std::slice::from_raw_parts_mut(pool, words) })
        };
        Candidate { answer: Box::new(answer), any_length: false }
    }
}
