//! Entries that a store refuses on purpose. Some are wrong in more than one way, so that the order shows.

use super::Generator;
use super::ledger::Page;
use crate::frames::{END, FRAME, SIZES};
use crate::journal::Entry;
use crate::store::REGIONS;

impl Generator {
    /// An entry for one of the refusals 1 to 8, each as often as the others. Where the regions allow no such entry
    /// (no region yet, a region place left, all frames seeded, all frames held), it is one for another refusal.
    pub(super) fn wrong(&mut self) -> Entry {
        match self.dice.between(1, 8) {
            1 => self.wrong_code(),
            2 => self.wrong_alignment(),
            3 => self.wrong_end(),
            4 | 5 => self.wrong_region(),
            6 => self.wrong_unseeded(),
            7 => self.wrong_free(),
            _ => self.wrong_size(),
        }
    }

    /// A frame's address in a region, or any number at a limit if there is none.
    fn some_address(&mut self) -> u64 {
        if self.ledger.regions.is_empty() {
            return self.limit_number();
        }
        let (start, end) = self.dice.pick(&self.ledger.regions);
        start + self.dice.below((end - start) / FRAME) * FRAME
    }

    /// 1: no size code.
    pub(super) fn wrong_code(&mut self) -> Entry {
        let any = self.dice.between(7, 255) as u8;
        let code = self.dice.pick(&[0, 7, 8, 255, any]);
        let base = match self.dice.below(3) {
            0 => self.some_address(),
            1 => self.some_address().wrapping_add(1),
            _ => self.limit_number(),
        };
        if self.dice.chance(1, 2) { Entry::Acquire { code } } else { Entry::Release { base, code } }
    }

    /// 2: an unaligned seed or release, or a seed that ends where it starts or before.
    pub(super) fn wrong_alignment(&mut self) -> Entry {
        let address = self.some_address();
        let off = self.dice.pick(&[1, 2_048, 4_095]);
        let far = self.dice.pick(&[FRAME, END, 1 << 63]);
        let next = address.wrapping_add(FRAME);
        match self.dice.below(8) {
            0 => Entry::Seed { start: address.wrapping_add(off), end: next.wrapping_add(far) },
            1 => Entry::Seed { start: address, end: next.wrapping_add(off) },
            2 => Entry::Seed { start: address, end: address },
            3 => Entry::Seed { start: far.max(FRAME), end: far.min(FRAME) },
            4 => Entry::Seed { start: 1, end: END + FRAME },
            5 => Entry::Release { base: (address & !4_095).wrapping_add(off), code: self.dice.between(1, 6) as u8 },
            6 => Entry::Release { base: END + off, code: self.dice.between(1, 6) as u8 },
            _ => {
                let code = self.dice.between(2, 6);
                let block = Page::around(address.min(END - FRAME), code as u8);
                let part = self.dice.pick(&[FRAME, block.bytes() / 2, block.bytes() - FRAME]);
                Entry::Release { base: block.base + part, code: block.code }
            }
        }
    }

    /// 3: a seed or release that ends behind 2^47.
    pub(super) fn wrong_end(&mut self) -> Entry {
        let address = self.some_address() & !4_095;
        let code = self.dice.between(1, 6) as u8;
        let bytes = SIZES[usize::from(code) - 1];
        let end = self.dice.pick(&[END + FRAME, END + SIZES[4], 2 * END, 1 << 63, u64::MAX - 4_095]);
        match self.dice.below(6) {
            0 => Entry::Seed { start: address.min(END), end },
            1 => Entry::Seed { start: END, end },
            2 => Entry::Seed { start: 0, end },
            3 => Entry::Release { base: END, code },
            4 => Entry::Release { base: 1 << 63, code },
            _ => Entry::Release { base: 0u64.wrapping_sub(bytes), code },
        }
    }

    /// 4, or 5 once all region places are taken: a seed over a frame of a region. For 5 also one over none.
    pub(super) fn wrong_region(&mut self) -> Entry {
        if self.ledger.regions.is_empty() {
            return self.wrong_alignment();
        }
        let (start, end) = self.dice.pick(&self.ledger.regions);
        if self.ledger.regions.len() >= REGIONS && self.dice.chance(1, 2) {
            let far = self.dice.below(END / FRAME) * FRAME;
            return Entry::Seed { start: far, end: far + FRAME };
        }
        let below = start.saturating_sub(FRAME);
        let above = (end + FRAME).min(END);
        match self.dice.below(6) {
            0 => Entry::Seed { start, end },
            1 => Entry::Seed { start: below, end: start + FRAME },
            2 => Entry::Seed { start: end - FRAME, end: above },
            3 => Entry::Seed { start: below, end: above },
            4 => Entry::Seed { start: 0, end: END },
            _ => {
                let inside = start + self.dice.below((end - start) / FRAME) * FRAME;
                Entry::Seed { start: inside, end: inside + FRAME }
            }
        }
    }

    /// 6: a release of a block with a frame in no region, wholly outside or over a region's edge.
    pub(super) fn wrong_unseeded(&mut self) -> Entry {
        for _ in 0..12 {
            let address = match self.dice.below(4) {
                0 => self.dice.below(END / FRAME) * FRAME,
                1 => self.some_address(),
                2 => self.ledger.regions.last().map_or(0, |region| region.1),
                _ => self.ledger.regions.last().map_or(0, |region| region.0.saturating_sub(FRAME)),
            };
            let code = self.dice.pick(&[1, 1, 2, 2, 3, 4, 5, 6]);
            let block = Page::around(address.min(END - FRAME), code);
            if !self.ledger.covers(block) {
                return Entry::Release { base: block.base, code };
            }
        }
        self.wrong_alignment()
    }

    /// 7: a release of a block in the regions with a frame that is not held.
    pub(super) fn wrong_free(&mut self) -> Entry {
        for _ in 0..12 {
            let address = self.some_address().min(END - FRAME);
            let code = self.dice.pick(&[1, 1, 2, 2, 3, 4, 5]);
            let block = Page::around(address, code);
            if self.ledger.covers(block) && !self.ledger.holds(block) {
                return Entry::Release { base: block.base, code };
            }
        }
        self.wrong_unseeded()
    }

    /// 8: an acquire of a size above all free bytes together.
    pub(super) fn wrong_size(&mut self) -> Entry {
        let free = self.ledger.free_bytes();
        let small = SIZES.iter().filter(|&&bytes| bytes <= free).count() as u64;
        if small == 6 {
            return self.wrong_code();
        }
        Entry::Acquire { code: self.dice.between(small + 1, 6) as u8 }
    }
}
