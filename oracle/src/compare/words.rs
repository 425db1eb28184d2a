//! Every pool word by brute force, from the free frames and the order in which nodes are opened: in a sound store a
//! token stands exactly at each wholly free block that lies in no larger one.

use crate::frames::{FRAME, Range, SIZES, fan_out};
use crate::journal::Entry;
use std::collections::BTreeMap;

/// A block by its code and base.
type Block = (u8, u64);

/// The opened nodes, each with the place of its child block's header.
#[derive(Default)]
pub struct Opened {
    headers: BTreeMap<Block, u64>,
    /// The words of all child blocks.
    words: u64,
}

impl Opened {
    /// Opens what an accepted entry opens; an acquire's base is that of the block dealt.
    pub fn accepted(&mut self, entry: Entry, dealt: u64) {
        match entry {
            Entry::Seed { start, end } => blocks(start, end).into_iter().for_each(|block| self.open_above(block)),
            Entry::Acquire { code } => self.open_above((code, dealt)),
            Entry::Release { base, code } => self.open_above((code, base)),
            Entry::Report => {}
        }
    }

    /// Opens the unopened proper ancestors of a block, from the top down.
    fn open_above(&mut self, (code, base): Block) {
        for ancestor in (code + 1..=6).rev() {
            let block = around(base, ancestor);
            if !self.headers.contains_key(&block) {
                self.headers.insert(block, self.words + 1);
                self.words += fan_out(ancestor) + 1;
            }
        }
    }

    /// The words from the root to the used count.
    pub fn pool(&self, free: &[Range]) -> Vec<u32> {
        let mut pool = vec![0; self.words as usize + 1];
        pool[0] = self.word((6, 0), false, free);
        for (&(code, base), &header) in &self.headers {
            pool[header as usize] = self.place((code, base)) as u32;
            let below_token = largest_in((code, base), free) == code;
            for child in 0..fan_out(code) {
                let block = (code - 1, base + child * SIZES[usize::from(code) - 2]);
                pool[(header + 1 + child) as usize] = self.word(block, below_token, free);
            }
        }
        pool
    }

    /// The place of a node whose parent is opened.
    fn place(&self, (code, base): Block) -> u64 {
        if code == 6 {
            return 0;
        }
        let parent = around(base, code + 1);
        self.headers[&parent] + 1 + (base - parent.1) / SIZES[usize::from(code) - 1]
    }

    fn word(&self, block: Block, below_token: bool, free: &[Range]) -> u32 {
        let max = if below_token { 0 } else { largest_in(block, free) };
        let token = u64::from(max == block.0);
        let link = self.headers.get(&block).copied().unwrap_or(0);
        (u64::from(max) + 8 * token + 16 * u64::from(block.0) + 128 * link) as u32
    }
}

/// The block of a code that holds an address.
fn around(address: u64, code: u8) -> Block {
    let size = SIZES[usize::from(code) - 1];
    (code, address / size * size)
}

/// The code of the largest free block at or below a block, 0 for none.
fn largest_in((code, base): Block, free: &[Range]) -> u8 {
    let first = base / FRAME;
    let end = first + SIZES[usize::from(code) - 1] / FRAME;
    let from = free.partition_point(|range| range.end <= first);
    let inside = free[from..].iter().take_while(|range| range.first < end);
    let clipped = inside.map(|range| (range.first.max(first), range.end.min(end)));
    clipped.map(|(first, end)| largest_between(first, end, code)).max().unwrap_or(0)
}

/// The code of the largest block between two frames, up to a code.
fn largest_between(first: u64, end: u64, limit: u8) -> u8 {
    let fits = |code: &u8| {
        let frames = SIZES[usize::from(*code) - 1] / FRAME;
        first.next_multiple_of(frames) + frames <= end
    };
    (1..=limit).rev().find(fits).unwrap_or(0)
}

/// From start on the largest block that is aligned and ends at or before end, then on behind it.
pub fn blocks(start: u64, end: u64) -> Vec<Block> {
    let mut blocks = Vec::new();
    let mut base = start;
    while base < end {
        let fits = |code: &usize| base.is_multiple_of(SIZES[code - 1]) && SIZES[code - 1] <= end - base;
        let code = (1..=6).rev().find(fits).expect("a frame fits");
        blocks.push((code as u8, base));
        base += SIZES[code - 1];
    }
    blocks
}
