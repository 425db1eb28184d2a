//! One store under test beside the reference's copy: every call is made on both, and everything is compared.

use super::candidate::Candidate;
use super::watch::{Slot, Watch};
use super::{Run, Tally};
use crate::ask::{Ask, above_the_limit, right_answer};
use oracle::generate::dice::Dice;
use oracle::guard::guarded;
use oracle::store::{Answer, State};
use std::sync::Arc;

/// How many guard words lie behind the pool, and before it at least.
pub const GUARD: usize = 64;

/// How many more may lie before it, so that the pool is aligned to its words and to nothing else.
const MORE: u64 = 16;

/// A store under test, its pool between guard words, and the reference's copy of the pool.
pub struct Bench<'a> {
    pub candidate: &'a Candidate<'a>,
    pub dice: Dice,
    /// The state that the next call gets.
    pub state: State,
    number: u64,
    run: Run,
    made: u64,
    /// Guard words, the pool, guard words.
    words: Vec<u32>,
    /// How many of them lie before the pool.
    front: usize,
    /// What the guard words are, those before the pool first.
    guards: Vec<u32>,
    /// The reference's pool.
    copy: Vec<u32>,
    watch: &'a Watch,
    slot: Arc<Slot>,
    tally: Tally,
}

impl<'a> Bench<'a> {
    /// The bench of a run, with an empty pool.
    pub fn new(candidate: &'a Candidate<'a>, number: u64, run: Run, watch: &'a Watch) -> Bench<'a> {
        let slot = watch.enter(format!("number {number} run {} ({})", run.place, run.mix.name()));
        let mut bench = Bench {
            candidate,
            dice: Dice::new(number, run.place),
            state: State::default(),
            number,
            run,
            made: 0,
            words: Vec::new(),
            front: GUARD,
            guards: Vec::new(),
            copy: Vec::new(),
            watch,
            slot,
            tally: Tally::default(),
        };
        bench.put(State::default(), &[]);
        bench
    }

    /// Ends the run; gives what was counted.
    pub fn close(self) -> Tally {
        self.watch.leave(&self.slot);
        self.tally
    }

    /// Whether the run has made all its calls.
    pub fn spent(&self) -> bool {
        self.made >= self.run.calls
    }

    /// How many words the pool has.
    pub fn length(&self) -> usize {
        self.copy.len()
    }

    /// Puts a store on the bench, with new guard words.
    pub fn put(&mut self, state: State, pool: &[u32]) {
        self.state = state;
        self.copy.clear();
        self.copy.extend_from_slice(pool);
        self.front = GUARD + self.dice.below(MORE) as usize;
        self.guards.clear();
        self.guards.extend((0..self.front + GUARD).map(|_| self.dice.roll() as u32));
        self.words.clear();
        self.words.extend_from_slice(&self.guards[..self.front]);
        self.words.extend_from_slice(pool);
        self.words.extend_from_slice(&self.guards[self.front..]);
    }

    /// Makes a call on both; gives the answer that both give, or what differs. The state that it hands back is the next
    /// call's, but for a refused fresh.
    pub fn ask(&mut self, ask: Ask) -> Result<Answer, String> {
        self.made += 1;
        let given = self.state;
        let copy = &mut self.copy;
        let right = guarded(|| right_answer(ask, given, copy));
        let right = right.map_err(|panic| self.told(ask, given, &format!("the reference {panic}")))?;
        let no_words = self.copy.is_empty() && self.dice.chance(1, 2);
        let pool = if no_words { std::ptr::null_mut() } else { self.pool() };
        self.call(ask, given, pool, self.copy.len(), &right)?;
        if ask != Ask::Fresh || right.refusal == 0 {
            self.state = right.state;
        }
        Ok(right)
    }

    /// Makes a call with a length above the limit. So many words are not there: the pool's own few are, or none at all, at
    /// an address where nothing can be read. The answer is document 01's, as no reference can be given such a pool.
    pub fn ask_above_the_limit(&mut self, ask: Ask, words: usize, nowhere: bool) -> Result<(), String> {
        self.made += 1;
        let right = above_the_limit(ask, self.state);
        let pool = if nowhere { std::ptr::dangling_mut() } else { self.pool() };
        self.call(ask, self.state, pool, words, &right)
    }

    /// The pool's first word, by a pointer to the whole allocation: what is written outside the pool is still in it.
    fn pool(&mut self) -> *mut u32 {
        self.words.as_mut_ptr().wrapping_add(self.front)
    }

    /// Makes the candidate's call, compares it with the right answer and the copy's words, and counts it.
    fn call(&mut self, ask: Ask, state: State, pool: *mut u32, words: usize, right: &Answer) -> Result<(), String> {
        let answer = &self.candidate.answer;
        let given = self.watch.timed(&self.slot, || guarded(|| answer(ask, state, pool, words)));
        let given = given.map_err(|panic| self.told(ask, state, &format!("the store {panic}")))?;
        // nothing of the allocation is known after the call
        std::hint::black_box(self.words.as_mut_ptr());
        match self.difference(right, &given) {
            Some(difference) => Err(self.told(ask, state, &format!("{words} words; {difference}"))),
            None => {
                self.tally.count(self.run.mix, ask, right);
                Ok(())
            }
        }
    }

    /// What differs, if anything does.
    fn difference(&self, right: &Answer, given: &Answer) -> Option<String> {
        let (front, behind) = (self.front, self.front + self.copy.len());
        if given.refusal != right.refusal {
            Some(format!("refusal {} where the reference says {}", given.refusal, right.refusal))
        } else if given.results != right.results {
            Some(format!("results {:?} where the reference says {:?}", given.results, right.results))
        } else if given.state != right.state {
            Some(format!("state {:?} where the reference says {:?}", given.state, right.state))
        } else if self.words[..front] != self.guards[..front] {
            first(&self.words[..front], &self.guards[..front], "guard word before the pool")
        } else if self.words[behind..] != self.guards[front..] {
            first(&self.words[behind..], &self.guards[front..], "guard word behind the pool")
        } else if self.words[front..behind] != self.copy[..] {
            first(&self.words[front..behind], &self.copy, "pool word")
        } else {
            None
        }
    }

    /// A difference with what it takes to see it again.
    fn told(&self, ask: Ask, state: State, what: &str) -> String {
        let (number, place, mix) = (self.number, self.run.place, self.run.mix.name());
        let from = format!("number {number} run {place} ({mix}) call {}", self.made);
        format!("{from}: {ask:?}: {what}\ngiven {state:?}\n")
    }
}

/// The first place at which words differ.
fn first(given: &[u32], right: &[u32], what: &str) -> Option<String> {
    let place = (0..right.len()).find(|&place| given[place] != right[place])?;
    Some(format!("{what} {place} is {} and must be {}", given[place], right[place]))
}
