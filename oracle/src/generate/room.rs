//! Refusal 9 and the used words by brute force: the set of blocks that are opened, without a pool.

use crate::frames::{FRAME, Frames, SIZES, fan_out};
use crate::generate::ledger::Page;
use crate::journal::Entry;
use crate::store::{Answer, State};
use std::collections::BTreeSet;

/// A store over free frames and opened blocks, with a pool's length.
#[derive(Clone, Debug, Default)]
pub struct Room {
    pub frames: Frames,
    opened: BTreeSet<(u8, u64)>,
    length: u64,
}

/// The blocks that a seed stores.
fn seed_blocks(start: u64, end: u64) -> Vec<Page> {
    let mut blocks = Vec::new();
    let mut address = start;
    while address < end {
        let fits = |&code: &u8| {
            let block = Page::around(address, code);
            block.base == address && block.end() <= end
        };
        let code = (1..=6).rev().find(fits).expect("a frame fits");
        blocks.push(Page { base: address, code });
        address += SIZES[usize::from(code) - 1];
    }
    blocks
}

impl Room {
    pub fn new(length: usize) -> Room {
        Room { length: length as u64, ..Room::default() }
    }

    pub fn used(&self) -> u64 {
        used(&self.opened)
    }

    fn state(&self) -> State {
        let mut state = State { used: self.used(), ..State::default() };
        for (place, region) in self.frames.regions().iter().enumerate() {
            state.starts[place] = region.first * FRAME;
            state.ends[place] = region.end * FRAME;
        }
        state
    }

    /// Answers an entry, and does it if it is accepted.
    pub fn answer(&mut self, entry: Entry) -> Answer {
        let mut told = self.frames.judge(entry);
        let blocks = match entry {
            _ if told.refusal != 0 => vec![],
            Entry::Seed { start, end } => seed_blocks(start, end),
            Entry::Acquire { code } => vec![Page { base: told.results[0], code }],
            Entry::Release { base, code } => vec![Page { base, code }],
            Entry::Report => vec![],
        };
        let mut opened = self.opened.clone();
        for block in blocks {
            opened.extend((block.code + 1..=6).map(|code| (code, Page::around(block.base, code).base)));
        }
        if used(&opened) > self.length {
            told.refusal = 9;
            told.results.fill(0);
        }
        if told.refusal == 0 {
            self.frames.apply(entry);
            self.opened = opened;
        }
        if entry == Entry::Report {
            told.results.push(self.used());
        }
        Answer { refusal: told.refusal, state: self.state(), results: told.results }
    }
}

/// One word for the root, and a header and the children for each opened block.
fn used(opened: &BTreeSet<(u8, u64)>) -> u64 {
    1 + opened.iter().map(|&(code, _)| fan_out(code) + 1).sum::<u64>()
}
