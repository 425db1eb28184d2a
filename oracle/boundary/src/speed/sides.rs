//! The two sides of the measurements, as the one driver sees them.

use crate::c::{
    StoreState, page_store_acquire, page_store_check, page_store_fresh, page_store_release, page_store_report,
    page_store_seed,
};
use oracle::original::bare::Bare;
use oracle::store::State;

/// What both sides can be asked. Answers begin with the refusal number, 0 for none.
pub trait Side {
    fn seed(&mut self, start: u64, end: u64) -> u64;
    /// The refusal number and the base.
    fn acquire(&mut self, code: u64) -> (u64, u64);
    fn release(&mut self, base: u64, code: u64) -> u64;
}

/// The proved store: the state that it handed back last, and the pool that it is lent.
pub struct Proved {
    pub state: StoreState,
    pub pool: Vec<u32>,
    /// Of the last acquire.
    pub probes: u64,
}

impl Proved {
    /// A store of words and a state that are there already.
    pub fn over(state: StoreState, pool: Vec<u32>) -> Proved {
        Proved { state, pool, probes: 0 }
    }

    /// A new store in a pool of so many words.
    pub fn new(words: usize) -> Proved {
        let mut proved = Proved::over(State::default().into(), vec![0; words]);
        assert_eq!(proved.fresh(), 0, "a pool of {words} words is taken");
        proved
    }

    /// Makes a new store in the pool; gives the refusal number.
    pub fn fresh(&mut self) -> u64 {
        // SAFETY: pointer and length are one pool's, lent to this call alone.
        let done = unsafe { page_store_fresh(self.pool.as_mut_ptr(), self.pool.len()) };
        self.state = done.state;
        done.refusal
    }

    /// Whether state and pool are sound.
    pub fn check(&self) -> bool {
        // SAFETY: pointer and length are one pool's, and nothing is written.
        unsafe { page_store_check(self.state, self.pool.as_ptr(), self.pool.len()) == 1 }
    }

    /// Free bytes and the code of the largest free page, where the report is not refused.
    pub fn report(&self) -> Option<(u64, u64)> {
        // SAFETY: pointer and length are one pool's, and nothing is written.
        let reported = unsafe { page_store_report(self.state, self.pool.as_ptr(), self.pool.len()) };
        (reported.refusal == 0).then_some((reported.free, reported.largest))
    }
}

impl Side for Proved {
    fn seed(&mut self, start: u64, end: u64) -> u64 {
        // SAFETY: pointer and length are one pool's, lent to this call alone.
        let done = unsafe { page_store_seed(self.state, self.pool.as_mut_ptr(), self.pool.len(), start, end) };
        self.state = done.state;
        done.refusal
    }

    fn acquire(&mut self, code: u64) -> (u64, u64) {
        // SAFETY: pointer and length are one pool's, lent to this call alone.
        let dealt = unsafe { page_store_acquire(self.state, self.pool.as_mut_ptr(), self.pool.len(), code) };
        self.state = dealt.state;
        self.probes = dealt.probes;
        (dealt.refusal, dealt.base)
    }

    fn release(&mut self, base: u64, code: u64) -> u64 {
        // SAFETY: pointer and length are one pool's, lent to this call alone.
        let done = unsafe { page_store_release(self.state, self.pool.as_mut_ptr(), self.pool.len(), base, code) };
        self.state = done.state;
        done.refusal
    }
}

impl Side for Bare {
    fn seed(&mut self, start: u64, end: u64) -> u64 {
        Bare::seed(self, start, end)
    }

    fn acquire(&mut self, code: u64) -> (u64, u64) {
        Bare::acquire(self, code as u8)
    }

    fn release(&mut self, base: u64, code: u64) -> u64 {
        Bare::release(self, base, code as u8)
    }
}
