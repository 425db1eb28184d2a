//! A second decision of 'Sound' (document 01) that needs no scratch memory and writes nothing. A walk from the root
//! counts the words of the blocks that it enters and needs used − 1; a sweep over the blocks from place 1 needs each
//! header to name an earlier word whose link names the block, and ends exactly at used. Neither alone is enough.

use crate::frames::{END, FRAME, SIZES, fan_out};
use crate::store::{POOL_LIMIT, State};

#[cfg(test)]
mod tests;

/// A node word: max + 8 · token + 16 · level + 128 · link.
#[derive(Clone, Copy)]
struct Word(u32);

impl Word {
    fn max(self) -> u32 {
        self.0 % 8
    }

    fn token(self) -> bool {
        self.0 / 8 % 2 == 1
    }

    fn level(self) -> u32 {
        self.0 / 16 % 8
    }

    fn link(self) -> usize {
        (self.0 / 128) as usize
    }
}

/// A node of the tree: where its word is, its code, its address, and whether a token lies above it.
#[derive(Clone, Copy)]
struct Node {
    place: usize,
    code: u8,
    base: u64,
    covered: bool,
}

/// Whether state and pool are sound. Any words and numbers may be given; the time is linear in the pool's length.
pub fn sound(state: State, pool: &[u32]) -> bool {
    let within = pool.len() <= POOL_LIMIT && state.used >= 1 && state.used <= pool.len() as u64;
    if !within || !regions_sound(&state) {
        return false;
    }
    let walk = Walk { state, live: &pool[..state.used as usize] };
    let root = Node { place: 0, code: 6, base: 0, covered: false };
    walk.node(root, 0) == Some(walk.live.len() - 1) && sweep(walk.live)
}

/// Region places are filled from the first on, all behind them are zero, and no two regions share a frame.
fn regions_sound(state: &State) -> bool {
    let regions: Vec<(u64, u64)> = state.starts.iter().copied().zip(state.ends).collect();
    let count = regions.iter().position(|&region| region == (0, 0)).unwrap_or(regions.len());
    let (filled, behind) = regions.split_at(count);
    let fitting = |&(start, end): &(u64, u64)| {
        start.is_multiple_of(FRAME) && end.is_multiple_of(FRAME) && start < end && end <= END
    };
    let apart = |index: usize| {
        let (start, end) = filled[index];
        filled[..index].iter().all(|&(other_start, other_end)| end <= other_start || other_end <= start)
    };
    behind.iter().all(|&region| region == (0, 0)) && filled.iter().all(fitting) && (0..count).all(apart)
}

/// Each header lies behind the word that it names, that word's link names the header, its level gives the block's
/// length, and the blocks end where the live words end.
fn sweep(live: &[u32]) -> bool {
    let mut place = 1;
    while place < live.len() {
        let header = live[place] as usize;
        if header >= place {
            return false;
        }
        let parent = Word(live[header]);
        if parent.link() != place || !(2..=6).contains(&parent.level()) {
            return false;
        }
        place += fan_out(parent.level() as u8) as usize + 1;
    }
    place == live.len()
}

/// The live words, and the regions that tokens must lie in.
struct Walk<'a> {
    state: State,
    live: &'a [u32],
}

impl Walk<'_> {
    /// The words of the blocks entered before this node and below it, or nothing if the node is not sound.
    fn node(&self, node: Node, entered: usize) -> Option<usize> {
        let word = Word(self.live[node.place]);
        let code = u32::from(node.code);
        if word.level() != code {
            return None;
        }
        if word.token() && (word.max() != code || node.covered || !self.seeded(node)) {
            return None;
        }
        if word.link() == 0 {
            return (word.token() || word.max() == 0).then_some(entered);
        }
        if node.code == 1 {
            return None;
        }
        self.block(node, entered)
    }

    /// The same for a node's child block. The count never passes the live words, so no damage makes the walk long.
    fn block(&self, parent: Node, entered: usize) -> Option<usize> {
        let word = Word(self.live[parent.place]);
        let children = fan_out(parent.code) as usize;
        let header = word.link();
        let mut entered = entered + children + 1;
        if header <= parent.place || header + children >= self.live.len() || entered >= self.live.len() {
            return None;
        }
        if self.live[header] as usize != parent.place {
            return None;
        }
        let code = parent.code - 1;
        let covered = parent.covered || word.token();
        let mut largest = 0;
        let mut tokens = 0;
        for child in 0..children {
            let place = header + 1 + child;
            let base = parent.base + child as u64 * SIZES[usize::from(code) - 1];
            entered = self.node(Node { place, code, base, covered }, entered)?;
            largest = largest.max(Word(self.live[place]).max());
            tokens += usize::from(Word(self.live[place]).token());
        }
        (word.token() || (word.max() == largest && tokens < children)).then_some(entered)
    }

    /// Whether the node's block lies in the union of the regions. They share no frame, so their parts of it add up.
    fn seeded(&self, node: Node) -> bool {
        let size = SIZES[usize::from(node.code) - 1];
        let end = node.base + size;
        let regions = self.state.starts.iter().zip(&self.state.ends);
        let covered: u64 = regions.map(|(&from, &to)| to.min(end).saturating_sub(from.max(node.base))).sum();
        covered == size
    }
}
