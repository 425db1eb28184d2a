//! The original's own calls, for measuring them: no guard against panics and no accounts. The caller keeps to the domain.

use super::allocator::PageAllocator;
use super::{add_region, code_of, deal_page, refusal_of, size_of, store_page};

/// The original and nothing beside it.
pub struct Bare(PageAllocator);

impl Default for Bare {
    fn default() -> Self {
        Self::new()
    }
}

impl Bare {
    /// An empty tree.
    #[inline(never)]
    pub fn new() -> Self {
        Self(PageAllocator::empty())
    }

    /// Adds a region; gives the refusal number, 0 for none.
    #[inline(never)]
    pub fn seed(&mut self, start: u64, end: u64) -> u64 {
        add_region(&mut self.0, start, end).map_or_else(refusal_of, |_| 0)
    }

    /// Deals a page; gives the refusal number and the base. A number that is no code is refused with 1.
    #[inline(never)]
    pub fn acquire(&mut self, code: u8) -> (u64, u64) {
        let Some(size) = size_of(code) else { return (1, 0) };
        deal_page(&mut self.0, size).map_or_else(|error| (refusal_of(error), 0), |base| (0, base))
    }

    /// Takes a page back; gives the refusal number.
    #[inline(never)]
    pub fn release(&mut self, base: u64, code: u8) -> u64 {
        let Some(size) = size_of(code) else { return 1 };
        store_page(&mut self.0, base, size).map_or_else(refusal_of, |_| 0)
    }

    /// How many pool words its opened nodes would take: a walk over the whole tree.
    #[inline(never)]
    pub fn opened_words(&self) -> u64 {
        self.0.opened_words() as u64
    }

    /// The code of the largest page that its root offers, 0 for none.
    pub fn largest(&self) -> u64 {
        code_of(self.0.max_allocable_page_size())
    }
}
