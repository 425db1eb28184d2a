//! The regions of each profile, and what else a journal settles before its first entry.

use super::ledger::Page;
use super::{Generator, Profile};
use crate::frames::{END, FRAME, SIZES};

/// Addresses at which blocks of some size meet.
const MEETINGS: [u64; 8] = [0, 3 << 21, 1 << 30, 1 << 31, 5 << 30, 1 << 39, END - (1 << 21), END];

/// The shortest pools in which a block of code 1, 2, .. 6 can be stored.
const ROOMS: [usize; 6] = [1_418, 1_413, 1_284, 771, 258, 1];

/// The most words of a pool that a profile chooses to run dry.
const DRY: u64 = 4_000;

impl Generator {
    /// Settles what the profile needs before the first entry.
    pub(super) fn prepare(&mut self) {
        match self.profile {
            Profile::FewFrames => self.prepare_one_or_two(1, 40),
            Profile::Fragmenting => self.prepare_fragmenting(),
            Profile::Season => self.prepare_season(),
            Profile::Touching => self.prepare_touching(),
            Profile::Cascades => self.prepare_cascades(),
            Profile::Limits => {}
            Profile::Refusals => self.prepare_row(7 + self.number % 2, 1, 24),
            Profile::DryPools => self.prepare_dry_pools(),
            Profile::PartsAndJoins => self.prepare_parts_and_joins(),
        }
    }

    /// A region of so many frames, at or around an address where blocks meet.
    fn small_region(&mut self, low: u64, high: u64) -> (u64, u64) {
        let frames = self.dice.between(low, high);
        let meeting = self.dice.pick(&MEETINGS);
        let start = match self.dice.below(3) {
            0 => meeting,
            1 => meeting + self.dice.below(8) * FRAME,
            _ => meeting.saturating_sub(self.dice.between(0, frames) * FRAME),
        };
        let start = start.min(END - frames * FRAME);
        (start, start + frames * FRAME)
    }

    /// A region beside the others, touching them or a few frames off.
    fn neighbour(&mut self, low: u64, high: u64) -> (u64, u64) {
        let bytes = self.dice.between(low, high) * FRAME;
        let gap = self.dice.pick(&[0, 0, 1, 2, 3, 5]) * FRAME;
        let start = self.waiting.iter().map(|region| region.0).min().unwrap_or(0);
        let end = self.waiting.iter().map(|region| region.1).max().unwrap_or(0);
        let before = start >= gap + bytes;
        let behind = end + gap + bytes <= END;
        if behind && (!before || self.dice.chance(2, 3)) {
            (end + gap, end + gap + bytes)
        } else {
            (start - gap - bytes, start - gap)
        }
    }

    /// One or two small regions, in any order.
    fn prepare_one_or_two(&mut self, low: u64, high: u64) {
        let count = self.dice.between(1, 2);
        self.prepare_row(count, low, high);
    }

    /// So many small regions beside each other, in any order.
    fn prepare_row(&mut self, count: u64, low: u64, high: u64) {
        let first = self.small_region(low, high);
        self.waiting.push_back(first);
        for _ in 1..count {
            let next = self.neighbour(low, high);
            self.waiting.push_back(next);
        }
        self.dice.shuffle(self.waiting.make_contiguous());
    }

    /// A region to fill with 4 KiB pages, or 2 MiB and a little to fill with 16 KiB pages.
    fn prepare_fragmenting(&mut self) {
        if self.number % 4 != 3 {
            return self.prepare_one_or_two(12, 70);
        }
        let start = self.dice.pick(&[0, 1 << 31, END - (1 << 22)]);
        let before = start.min(self.dice.below(6) * FRAME);
        let behind = self.dice.below(6) * FRAME;
        self.waiting.push_back((start - before, start + SIZES[2] + behind));
        self.fill = 2;
    }

    fn prepare_season(&mut self) {
        let start = (1 << 31) + self.dice.pick(&[0, 0, 1, 5, 511, 512, 4_095]) * FRAME;
        let bytes = self.dice.pick(&[1 << 20, 6 << 20, 24 << 20, 256 << 20, 1 << 30, 3 << 30]);
        self.waiting.push_back((start, start + bytes));
        if self.dice.chance(1, 2) {
            let frames = bytes / FRAME / 4;
            let second = self.neighbour(1, frames);
            self.waiting.push_back(second);
        }
        self.guest_limit = self.dice.pick(&[4, 12, 30, 100]);
    }

    /// A block of a code that is the first, the second, the last, any, or the one around 2^31.
    fn scene(&mut self, code: u8) -> Page {
        let bytes = SIZES[usize::from(code) - 1];
        let count = END / bytes;
        let address = match self.dice.below(5) {
            0 => 0,
            1 => bytes.min(END - bytes),
            2 => END - bytes,
            3 => self.dice.below(count) * bytes,
            _ => 1 << 31,
        };
        Page::around(address, code)
    }

    /// Two blocks that meet, each cut into two to four regions, in any order; every third time nine regions.
    fn prepare_touching(&mut self) {
        let code = self.dice.pick(&[2, 2, 3, 3, 4, 5]);
        let first = self.scene(code);
        let touching = if first.end() < END { first.end() } else { first.base - FRAME };
        let smaller = self.dice.between(2, u64::from(code)) as u8;
        let second = Page::around(touching, smaller);
        self.scenes = vec![first, second];
        for scene in [first, second] {
            self.cut(scene);
        }
        if self.dice.chance(1, 4) {
            self.waiting.pop_back();
        }
        while self.number % 3 == 2 && self.waiting.len() < 9 {
            let next = self.neighbour(1, 12);
            self.waiting.push_back(next);
        }
        self.dice.shuffle(self.waiting.make_contiguous());
    }

    /// Cuts a block at its half, at children, or at any frame, into regions that touch.
    fn cut(&mut self, scene: Page) {
        let child = SIZES[usize::from(scene.code) - 2];
        let children = scene.bytes() / child;
        let mut places = vec![scene.base, scene.end()];
        for _ in 0..self.dice.between(1, 3) {
            places.push(match self.dice.below(6) {
                0 | 1 => scene.base + scene.bytes() / 2,
                2 => scene.base + scene.bytes() / 4,
                3 | 4 => scene.base + self.dice.below(children) * child,
                _ => scene.base + self.dice.below(scene.bytes() / FRAME) * FRAME,
            });
        }
        places.sort();
        places.dedup();
        for pair in places.windows(2) {
            self.waiting.push_back((pair[0], pair[1]));
        }
    }

    /// One block less a missing piece, then the piece.
    fn prepare_cascades(&mut self) {
        let code = self.dice.pick(&[3, 4, 5, 6, 6]);
        let scene = self.scene(code);
        let piece = self.dice.pick(&[1, 1, 1, 2, code - 1]);
        let bytes = SIZES[usize::from(piece) - 1];
        let count = scene.bytes() / bytes;
        let number = match self.dice.below(4) {
            0 => 0,
            1 | 2 => count - 1,
            _ => self.dice.below(count),
        };
        let missing = scene.base + number * bytes;
        let parts = [(scene.base, missing), (missing + bytes, scene.end()), (missing, missing + bytes)];
        self.waiting.extend(parts.into_iter().filter(|(start, end)| start < end));
        self.scenes.push(scene);
    }

    /// For dry pools, a pool of any length up to 4,000, or of one at which some opening just fits or just does not.
    pub(super) fn choose_pool(&mut self) {
        if self.profile != Profile::DryPools {
            return;
        }
        let needed = self.dice.pick(&ROOMS) as u64;
        let room = match self.dice.below(4) {
            0 => needed + self.dice.below(3),
            1 => (needed + 5 * self.dice.below(12)).saturating_sub(self.dice.below(2)),
            2 => self.dice.between(1_413, DRY),
            _ => self.dice.between(1, DRY),
        };
        self.pool_words = room.max(1) as usize;
    }

    fn prepare_dry_pools(&mut self) {
        for _ in 0..8 {
            self.scatter();
        }
    }

    /// The smallest code of which the pool has room for a block.
    pub(super) fn granule(&self) -> u8 {
        (1..=6).find(|&code| ROOMS[usize::from(code) - 1] <= self.pool_words).unwrap_or(6)
    }

    /// A region that the pool may have no room for.
    pub(super) fn scatter(&mut self) {
        let region = if self.pool_words as u64 > DRY { self.wide_region() } else { self.far_region() };
        self.waiting.push_back(region);
    }

    /// A region from a few frames before a large block to a few behind it. It opens the blocks on both sides down to
    /// their frames, so that seven or eight such regions fill the pool of the journal program.
    fn wide_region(&mut self) -> (u64, u64) {
        let bytes = SIZES[self.dice.pick(&[4, 4, 4, 4, 3])];
        let base = self.dice.between(1, END / bytes - 2) * bytes;
        let (before, behind) = (self.dice.between(1, 5) * FRAME, self.dice.between(1, 5) * FRAME);
        (base - before, base + bytes + behind)
    }

    /// A small region anywhere, near or far from the others.
    fn far_region(&mut self) -> (u64, u64) {
        let granule = self.granule();
        let code = if self.dice.chance(2, 3) { granule } else { self.dice.between(1, 6) as u8 };
        let bytes = SIZES[usize::from(code) - 1];
        let spread = self.dice.pick(&[1 << 21, 1 << 30, 1 << 39, END]).max(8 * bytes).min(END);
        let near = (self.number % 3 * (1 << 40)).min(END - spread);
        let start = Page::around(near + self.dice.below(spread), code).base;
        let end = (start + self.dice.between(1, 5) * bytes).min(END);
        let extra = if self.dice.chance(1, 4) { FRAME.min(END - end) } else { 0 };
        (start, end + extra)
    }

    /// A region of some 16 KiB or 2 MiB pages, and one that touches it.
    fn prepare_parts_and_joins(&mut self) {
        let start = self.dice.pick(&[0, 1 << 31, (1 << 31) - SIZES[1], (1 << 31) + 3 * FRAME, 1 << 39]);
        let bytes = self.dice.pick(&[20 * FRAME, 64 * FRAME, SIZES[2], 2 * SIZES[2], 3 * SIZES[2] + 5 * FRAME]);
        self.waiting.push_back((start, start + bytes));
        if self.dice.chance(1, 2) {
            let second = self.neighbour(1, 40);
            self.waiting.push_back(second);
        }
        if self.dice.chance(1, 8) {
            self.waiting.push_back((1 << 41, (1 << 41) + SIZES[3]));
        }
    }
}
