//! The traffic of each profile: what comes next, given what is held.

use super::ledger::Page;
use super::{Generator, Phase, Profile};
use crate::frames::{END, FRAME, SIZES};
use crate::journal::Entry;

impl Generator {
    /// Plans one entry or a few.
    pub(super) fn plan(&mut self) {
        let due = self.ledger.regions.is_empty() || self.dice.chance(1, 12);
        if due && let Some((start, end)) = self.waiting.pop_front() {
            return self.planned.push_back(Entry::Seed { start, end });
        }
        match self.profile {
            Profile::FewFrames => self.plan_traffic(&[1, 1, 1, 2]),
            Profile::Fragmenting => self.plan_fragmenting(),
            Profile::Season => self.plan_season(),
            Profile::Touching => self.plan_touching(),
            Profile::Cascades => self.plan_cascades(),
            Profile::Limits => self.plan_limits(),
            Profile::Refusals => self.plan_refusals(),
            Profile::DryPools => self.plan_dry_pools(),
            Profile::PartsAndJoins => self.plan_parts_and_joins(),
        }
    }

    fn acquire(&mut self, code: u8) {
        self.planned.push_back(Entry::Acquire { code });
    }

    fn release(&mut self, page: Page) {
        self.planned.push_back(Entry::Release { base: page.base, code: page.code });
    }

    /// Acquires of one of the codes, and releases of held pages; the share of acquires sways.
    fn plan_traffic(&mut self, codes: &[u8]) {
        if self.dice.chance(1, 30) {
            self.tilt = self.dice.pick(&[3, 5, 7]);
        }
        if self.ledger.held.is_empty() || self.dice.chance(self.tilt, 10) {
            let code = self.dice.pick(codes);
            self.acquire(code);
        } else {
            let page = self.dice.pick(&self.ledger.held);
            self.release(page);
        }
    }

    /// Releases of all held pages, in any order.
    fn plan_return(&mut self) {
        let mut pages = self.ledger.held.clone();
        self.dice.shuffle(&mut pages);
        for page in pages {
            self.release(page);
        }
    }

    fn plan_fragmenting(&mut self) {
        match self.phase {
            Phase::Fill if self.full => self.phase = Phase::Thin,
            Phase::Fill => self.acquire(self.fill),
            Phase::Thin => {
                let mut pages = self.ledger.held.clone();
                pages.sort_by_key(|page| page.base);
                let step = self.dice.between(2, 5) as usize;
                let first = self.dice.below(step as u64) as usize;
                for page in pages.into_iter().skip(first).step_by(step) {
                    self.release(page);
                }
                self.phase = Phase::Ask;
            }
            Phase::Ask => {
                for _ in 0..self.dice.between(2, 5) {
                    let code = self.dice.pick(&[self.fill + 1, 2, 2, 3]);
                    self.acquire(code);
                }
                self.phase = Phase::Drain;
            }
            Phase::Drain => self.plan_drain(),
        }
    }

    /// Gives a run of neighbours back and asks again, or gives all back, or fills up again.
    fn plan_drain(&mut self) {
        self.full = false;
        match self.dice.below(4) {
            0 | 1 => {
                let mut pages = self.ledger.held.clone();
                pages.sort_by_key(|page| page.base);
                let first = self.dice.below(pages.len() as u64 + 1) as usize;
                let count = self.dice.between(3, 9) as usize;
                for page in pages.into_iter().skip(first).take(count) {
                    self.release(page);
                }
                self.phase = Phase::Ask;
            }
            2 => {
                self.plan_return();
                self.phase = Phase::Ask;
            }
            _ => self.phase = Phase::Fill,
        }
    }

    /// A guest starts or stops. A season rises to its number of guests, then falls to none.
    fn plan_season(&mut self) {
        let alive = self.guests.len() as u64;
        if alive >= self.guest_limit {
            self.phase = Phase::Drain;
        }
        if alive == 0 {
            self.phase = Phase::Fill;
        }
        let starts = if self.phase == Phase::Fill { 7 } else { 2 };
        if alive == 0 || self.dice.chance(starts, 10) {
            self.guests.push(Vec::new());
            for _ in 0..self.dice.between(1, 8) {
                let code = self.dice.pick(&[1, 1, 1, 1, 1, 2, 2, 2, 3, 3, 4]);
                self.acquire(code);
            }
        } else {
            let leaving = self.dice.below(alive) as usize;
            let mut pages = self.guests.remove(leaving);
            match self.dice.below(3) {
                0 => {}
                1 => pages.reverse(),
                _ => self.dice.shuffle(&mut pages),
            }
            for page in pages {
                self.release(page);
            }
        }
    }

    fn plan_touching(&mut self) {
        let scene = self.dice.pick(&self.scenes);
        let top = scene.code;
        let seed = if self.dice.chance(1, 3) { self.waiting.pop_front() } else { None };
        if let Some((start, end)) = seed {
            self.planned.push_back(Entry::Seed { start, end });
        } else if self.ledger.holds(scene) && self.dice.chance(1, 2) {
            if self.dice.chance(1, 2) { self.plan_round_trip(scene) } else { self.release(scene) }
        } else if self.dice.chance(1, 12) {
            self.plan_return();
            self.acquire(top);
        } else {
            self.plan_traffic(&[1, 1, 2, 2.min(top), top - 1, top, top]);
        }
    }

    fn plan_cascades(&mut self) {
        let scene = self.scenes[0];
        match self.dice.below(6) {
            0 if self.ledger.holds(scene) => self.release(scene),
            0 | 1 if self.ledger.held.is_empty() => self.acquire(scene.code),
            1 if self.ledger.holds(scene) => self.plan_round_trip(scene),
            1 | 2 => {
                self.plan_return();
                self.planned.make_contiguous().sort_by_key(|entry| match entry {
                    Entry::Release { code, .. } => u8::MAX - code,
                    _ => 0,
                });
            }
            _ if self.ledger.held.len() > 4 => self.plan_return(),
            _ => {
                let top = u64::from(scene.code) - 1;
                let mut codes: Vec<u8> =
                    (0..self.dice.between(1, 5)).map(|_| self.dice.between(1, top) as u8).collect();
                codes.sort();
                for code in codes {
                    self.acquire(code);
                }
            }
        }
    }

    /// A part of the held block goes and comes back, then the whole block goes. Where a free frame lies below the
    /// part, an acquire need not bring it back, and only the whole block goes.
    fn plan_round_trip(&mut self, scene: Page) {
        let code = self.dice.between(1, u64::from(scene.code) - 1) as u8;
        let address = self.dice.pick(&[scene.base, scene.base + scene.bytes() / 2, scene.end() - FRAME]);
        let part = Page::around(address, code);
        if self.ledger.free_below(part.base) == 0 {
            self.release(part);
            self.planned.push_back(Entry::Report);
            self.acquire(code);
        }
        self.release(scene);
        self.acquire(scene.code);
        self.release(scene);
    }

    /// A number at a limit, or a byte, a page or a block off.
    pub(super) fn limit_number(&mut self) -> u64 {
        let limit = self.dice.pick(&[0, END, 1 << 63, u64::MAX, u64::MAX - 4_095]);
        let block = self.dice.pick(&SIZES);
        let distance = self.dice.pick(&[0, 0, 0, 1, 4_096, 4_096, 4_097, block]);
        if self.dice.chance(1, 2) { limit.wrapping_add(distance) } else { limit.wrapping_sub(distance) }
    }

    /// A code of 0 to 255, every second time one near the six.
    fn any_code(&mut self) -> u8 {
        let limit = self.dice.pick(&[8, 256]);
        self.dice.below(limit) as u8
    }

    fn plan_limits(&mut self) {
        let code = self.any_code();
        match self.dice.below(20) {
            0..=5 => {
                let (start, end) = (self.limit_number(), self.limit_number());
                self.planned.push_back(Entry::Seed { start, end });
            }
            6 => {
                let bytes = self.dice.pick(&SIZES);
                let near = [(0, bytes), (END - bytes, END), (4_096, END - 4_096), (0, END)];
                let (start, end) = self.dice.pick(&near);
                self.planned.push_back(Entry::Seed { start, end });
            }
            7..=12 => self.acquire(code),
            13..=16 => {
                let base = self.limit_number();
                self.planned.push_back(Entry::Release { base, code });
            }
            _ => self.plan_traffic(&[1, 2, 3, 4, 5, 6]),
        }
    }

    fn plan_refusals(&mut self) {
        if self.dice.chance(1, 2) {
            let entry = self.wrong();
            self.planned.push_back(entry);
        } else {
            self.plan_traffic(&[1, 1, 1, 2, 2, 3]);
        }
    }

    /// A smaller page inside a held one.
    fn plan_part(&mut self) {
        let page = self.dice.pick(&self.ledger.held);
        if page.code == 1 {
            return self.release(page);
        }
        let code = self.dice.between(1, u64::from(page.code) - 1) as u8;
        let part = Page::around(page.base + self.dice.below(page.bytes()), code);
        self.release(part);
    }

    fn plan_dry_pools(&mut self) {
        if self.waiting.is_empty() && self.dice.chance(1, 4) {
            self.scatter();
        }
        let granule = self.granule();
        let coarser = (granule + 1).min(6);
        match self.dice.below(10) {
            0 if !self.ledger.held.is_empty() => self.plan_part(),
            1..=3 => {
                let code = self.dice.between(1, 6) as u8;
                self.acquire(code);
            }
            _ => self.plan_traffic(&[granule, granule, granule, coarser]),
        }
    }

    fn plan_parts_and_joins(&mut self) {
        if self.ledger.held.is_empty() {
            return self.plan_traffic(&[1, 2, 3]);
        }
        match self.dice.below(10) {
            0 | 1 => self.plan_part(),
            2..=4 => self.plan_join(),
            _ => self.plan_traffic(&[1, 1, 1, 1, 2, 2, 3]),
        }
    }

    /// A block of several held pages, if some of them make one; seldom a block of which a frame is free.
    fn plan_join(&mut self) {
        let mut joined = Vec::new();
        for _ in 0..8 {
            let page = self.dice.pick(&self.ledger.held);
            for code in page.code + 1..=4 {
                let block = Page::around(page.base, code);
                if self.ledger.holds(block) || self.dice.chance(1, 200) {
                    joined.push(block);
                }
            }
        }
        if joined.is_empty() {
            return self.plan_traffic(&[1, 1, 1, 2]);
        }
        let block = self.dice.pick(&joined);
        self.release(block);
    }
}
