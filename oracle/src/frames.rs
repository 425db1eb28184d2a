//! A store over free 4 KiB frames by brute force, with no tree and no pool: free frames, held frames and regions are
//! lists of disjoint frame ranges. It judges refusals 1 to 8, an acquire's base and probes, and a report's seeded
//! bytes, free bytes and largest. Refusals 9 to 11 and the used words speak of the pool, and it knows none.

use crate::journal::Entry;
use crate::store::REGIONS;

#[cfg(test)]
mod tests;

/// The bytes of the six sizes, code 1 first.
pub const SIZES: [u64; 6] = [4_096, 16_384, 2_097_152, 1_073_741_824, 549_755_813_888, 140_737_488_355_328];

/// The bytes of one frame.
pub const FRAME: u64 = SIZES[0];

/// The first address behind the last frame: 2^47.
pub const END: u64 = 1 << 47;

/// The bytes of a size code, if it is one.
pub fn size(code: u8) -> Option<u64> {
    match code {
        1..=6 => Some(SIZES[usize::from(code) - 1]),
        _ => None,
    }
}

/// How many blocks of the code below make one of this code, for codes 2 to 6.
pub fn fan_out(code: u8) -> u64 {
    SIZES[usize::from(code) - 1] / SIZES[usize::from(code) - 2]
}

/// The sum of child number plus one over the levels descended from the root to the block.
pub fn probes(base: u64, code: u8) -> u64 {
    let mut sum = 0;
    for level in code..6 {
        let child = base / SIZES[usize::from(level) - 1] % fan_out(level + 1);
        sum += child + 1;
    }
    sum
}

/// Frames from the first on, up to the end, which is not included.
#[derive(Clone, Copy, Debug, PartialEq, Eq, PartialOrd, Ord)]
pub struct Range {
    pub first: u64,
    pub end: u64,
}

impl Range {
    /// The frames between two addresses that are multiples of a frame.
    pub fn between(start: u64, end: u64) -> Range {
        Range { first: start / FRAME, end: end / FRAME }
    }

    fn shares(self, other: Range) -> bool {
        self.first.max(other.first) < self.end.min(other.end)
    }

    fn contains(self, other: Range) -> bool {
        self.first <= other.first && other.end <= self.end
    }
}

/// A set of frames: ascending ranges, none of them empty, no two sharing a frame or touching.
#[derive(Clone, Debug, Default, PartialEq, Eq)]
struct Set(Vec<Range>);

impl Set {
    /// The union of any ranges.
    fn of(mut ranges: Vec<Range>) -> Set {
        ranges.retain(|range| range.first < range.end);
        ranges.sort();
        let mut union: Vec<Range> = Vec::new();
        for range in ranges {
            match union.last_mut() {
                Some(last) if range.first <= last.end => last.end = last.end.max(range.end),
                _ => union.push(range),
            }
        }
        Set(union)
    }

    fn with(&self, range: Range) -> Set {
        let mut ranges = self.0.clone();
        ranges.push(range);
        Set::of(ranges)
    }

    fn without(&self, range: Range) -> Set {
        let mut rest = Vec::new();
        for &each in &self.0 {
            rest.push(Range { first: each.first, end: each.end.min(range.first) });
            rest.push(Range { first: each.first.max(range.end), end: each.end });
        }
        Set::of(rest)
    }

    fn shares(&self, range: Range) -> bool {
        self.0.iter().any(|each| each.shares(range))
    }

    fn contains(&self, range: Range) -> bool {
        self.0.iter().any(|each| each.contains(range))
    }

    fn bytes(&self) -> u64 {
        self.0.iter().map(|range| (range.end - range.first) * FRAME).sum()
    }

    /// The lowest block of so many frames, aligned to its size, that lies wholly in the set.
    fn lowest(&self, frames: u64) -> Option<Range> {
        for range in &self.0 {
            let first = range.first.next_multiple_of(frames);
            let block = Range { first, end: first + frames };
            if range.contains(block) {
                return Some(block);
            }
        }
        None
    }
}

/// What the store says of a call: the refusal number (0 for none) and the results, zeros if refused. An acquire's are
/// base and probes; a report's are seeded bytes, free bytes and largest.
#[derive(Clone, Debug, PartialEq, Eq)]
pub struct Told {
    pub refusal: u64,
    pub results: Vec<u64>,
}

/// The store: its regions in seeding order, the frames that are free, and the frames that are held.
#[derive(Clone, Debug, Default, PartialEq, Eq)]
pub struct Frames {
    regions: Vec<Range>,
    free: Set,
    held: Set,
}

impl Frames {
    /// A store without regions.
    pub fn new() -> Frames {
        Frames::default()
    }

    /// The regions in seeding order.
    pub fn regions(&self) -> &[Range] {
        &self.regions
    }

    /// The free frames: ascending ranges that do not touch.
    pub fn free(&self) -> &[Range] {
        &self.free.0
    }

    /// The held frames: ascending ranges that do not touch.
    pub fn held(&self) -> &[Range] {
        &self.held.0
    }

    /// What the store says of an entry. Nothing changes.
    pub fn judge(&self, entry: Entry) -> Told {
        match entry {
            Entry::Seed { start, end } => Told { refusal: self.judge_seed(start, end), results: vec![] },
            Entry::Acquire { code } => self.judge_acquire(code),
            Entry::Release { base, code } => Told { refusal: self.judge_release(base, code), results: vec![] },
            Entry::Report => {
                Told { refusal: 0, results: vec![self.seeded().bytes(), self.free.bytes(), self.largest()] }
            }
        }
    }

    /// Does what the accepted call does. An entry that the store refuses changes nothing.
    pub fn apply(&mut self, entry: Entry) {
        let told = self.judge(entry);
        if told.refusal != 0 {
            return;
        }
        match entry {
            Entry::Seed { start, end } => {
                let range = Range::between(start, end);
                self.regions.push(range);
                self.free = self.free.with(range);
            }
            Entry::Acquire { code } => {
                let block = block(told.results[0], code);
                self.free = self.free.without(block);
                self.held = self.held.with(block);
            }
            Entry::Release { base, code } => {
                let block = block(base, code);
                self.held = self.held.without(block);
                self.free = self.free.with(block);
            }
            Entry::Report => {}
        }
        debug_assert!(self.consistent(), "{entry:?} leaves {self:?}");
    }

    /// Free and held frames are disjoint and together the seeded frames, and the regions share no frame.
    pub fn consistent(&self) -> bool {
        let seeded = self.seeded();
        let region_bytes: u64 = self.regions.iter().map(|region| (region.end - region.first) * FRAME).sum();
        let mut both = self.free.0.clone();
        both.extend(&self.held.0);
        let disjoint = !self.free.0.iter().any(|&range| self.held.shares(range));
        disjoint
            && Set::of(both) == seeded
            && self.free.bytes() + self.held.bytes() == seeded.bytes()
            && region_bytes == seeded.bytes()
            && self.regions.len() <= REGIONS
    }

    fn seeded(&self) -> Set {
        Set::of(self.regions.clone())
    }

    /// The highest code with an aligned block that is wholly free, 0 for none.
    fn largest(&self) -> u64 {
        let fitting = (1..=6u8).rev().find(|&code| self.lowest(code).is_some());
        fitting.map_or(0, u64::from)
    }

    /// The lowest free block of a code from 1 to 6.
    fn lowest(&self, code: u8) -> Option<Range> {
        self.free.lowest(SIZES[usize::from(code) - 1] / FRAME)
    }

    fn judge_seed(&self, start: u64, end: u64) -> u64 {
        if !start.is_multiple_of(FRAME) || !end.is_multiple_of(FRAME) || start >= end {
            return 2;
        }
        if end > END {
            return 3;
        }
        if self.regions.len() == REGIONS {
            return 5;
        }
        let range = Range::between(start, end);
        if self.regions.iter().any(|region| region.shares(range)) {
            return 4;
        }
        0
    }

    fn judge_acquire(&self, code: u8) -> Told {
        let refused = |refusal| Told { refusal, results: vec![0, 0] };
        if size(code).is_none() {
            return refused(1);
        }
        match self.lowest(code) {
            None => refused(8),
            Some(block) => {
                let base = block.first * FRAME;
                Told { refusal: 0, results: vec![base, probes(base, code)] }
            }
        }
    }

    fn judge_release(&self, base: u64, code: u8) -> u64 {
        let Some(bytes) = size(code) else {
            return 1;
        };
        if !base.is_multiple_of(bytes) {
            return 2;
        }
        if base > END - bytes {
            return 3;
        }
        let block = block(base, code);
        if !self.seeded().contains(block) {
            return 6;
        }
        if self.free.shares(block) {
            return 7;
        }
        0
    }
}

/// The frames of a block whose code is 1 to 6 and which ends at or below 2^47.
fn block(base: u64, code: u8) -> Range {
    Range::between(base, base + SIZES[usize::from(code) - 1])
}
