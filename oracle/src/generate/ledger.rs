//! What the accepted entries of a journal come to: the regions, and the held pages.

use crate::frames::{END, FRAME, size};

/// A page: a base and a size code.
#[derive(Clone, Copy, Debug, PartialEq, Eq)]
pub struct Page {
    pub base: u64,
    pub code: u8,
}

impl Page {
    /// The block of a code that an address below 2^47 lies in.
    pub fn around(address: u64, code: u8) -> Page {
        let bytes = size(code).expect("a size code");
        Page { base: address - address % bytes, code }
    }

    /// Whether it is an aligned block of a known size that ends at or below 2^47.
    pub fn valid(self) -> bool {
        size(self.code).is_some_and(|bytes| self.base.is_multiple_of(bytes) && self.base <= END - bytes)
    }

    pub fn bytes(self) -> u64 {
        size(self.code).expect("a size code")
    }

    pub fn end(self) -> u64 {
        self.base + self.bytes()
    }

    /// How many bytes it shares with the addresses from the start to the end.
    pub fn shared(self, start: u64, end: u64) -> u64 {
        self.end().min(end).saturating_sub(self.base.max(start))
    }

    /// The blocks of the code below that it is made of.
    fn children(self) -> Vec<Page> {
        let code = self.code - 1;
        let bytes = size(code).expect("a size code");
        (self.base..self.end()).step_by(bytes as usize).map(|base| Page { base, code }).collect()
    }
}

/// The regions and the held pages, as the answers tell them.
#[derive(Clone, Debug, Default)]
pub struct Ledger {
    pub regions: Vec<(u64, u64)>,
    pub held: Vec<Page>,
}

impl Ledger {
    pub fn seeded(&mut self, start: u64, end: u64) {
        let aligned = start.is_multiple_of(FRAME) && end.is_multiple_of(FRAME);
        if aligned && start < end && end <= END {
            self.regions.push((start, end));
        }
    }

    pub fn acquired(&mut self, page: Page) {
        self.held.push(page);
    }

    /// A page inside the block goes; of a page around it the rest stays, in the largest pieces.
    pub fn released(&mut self, block: Page) {
        if !block.valid() {
            return;
        }
        let mut kept = Vec::new();
        for &page in &self.held {
            keep_rest(page, block, &mut kept);
        }
        self.held = kept;
    }

    /// Whether every frame of the block lies in a region.
    pub fn covers(&self, block: Page) -> bool {
        let shared: u64 = self.regions.iter().map(|&(start, end)| block.shared(start, end)).sum();
        shared == block.bytes()
    }

    /// Whether every frame of the block is held.
    pub fn holds(&self, block: Page) -> bool {
        let shared: u64 = self.held.iter().map(|page| block.shared(page.base, page.end())).sum();
        shared == block.bytes()
    }

    pub fn free_bytes(&self) -> u64 {
        self.free_below(END)
    }

    /// How many bytes below an address are seeded and not held.
    pub fn free_below(&self, address: u64) -> u64 {
        let below = |start: u64, end: u64| end.min(address).saturating_sub(start);
        let seeded: u64 = self.regions.iter().map(|&(start, end)| below(start, end)).sum();
        let held: u64 = self.held.iter().map(|page| below(page.base, page.end())).sum();
        seeded.saturating_sub(held)
    }
}

/// Keeps what the block leaves of the page. Two blocks share no frame or one contains the other.
fn keep_rest(page: Page, block: Page, kept: &mut Vec<Page>) {
    let shared = page.shared(block.base, block.end());
    if shared == 0 {
        kept.push(page);
    } else if shared < page.bytes() {
        for child in page.children() {
            keep_rest(child, block, kept);
        }
    }
}
