//! How many pool words always suffice for the regions of a state and one more: the reference's side of `room_for`. Every
//! node that has a frame in a region may have to be opened, whatever is asked; no other node ever is.

use crate::reference::{
    BYTES, FAN_OUT, FRAME, ROOT, Range, TOP, View, is_page_aligned, region_places_are_filled_from_the_first, regions,
    regions_are_not_empty, regions_are_page_aligned, regions_end_at_or_below_the_top, regions_share_no_frame, share,
};
use crate::store::{REGIONS, State};

#[cfg(test)]
mod tests;

/// The refusal number and the words, 0 where it is refused. Refusals 10, 2, 3, 5, 4.
pub fn room_for(state: State, start: u64, end: u64) -> (u64, u64) {
    match refusal(state, start, end) {
        0 => (0, words(&[regions(state), vec![(start, end)]].concat())),
        refusal => (refusal, 0),
    }
}

/// The first of 10, 2, 3, 5, 4, or 0.
fn refusal(state: State, start: u64, end: u64) -> u64 {
    if !regions_are_sound(state) {
        10
    } else if !is_page_aligned(start) || !is_page_aligned(end) || start >= end {
        2
    } else if end > TOP {
        3
    } else if regions(state).len() == REGIONS {
        5
    } else if regions(state).iter().any(|&region| share(region, (start, end))) {
        4
    } else {
        0
    }
}

/// 'Sound', the clauses about regions alone; used is not looked at, and there is no pool.
fn regions_are_sound(state: State) -> bool {
    let view = View { state, pool: &[], nodes: Vec::new(), blocks: Vec::new() };
    region_places_are_filled_from_the_first(&view)
        && regions_are_page_aligned(&view)
        && regions_are_not_empty(&view)
        && regions_end_at_or_below_the_top(&view)
        && regions_share_no_frame(&view)
}

/// The root's word, and a header and the children of every node that has a frame in a region.
fn words(regions: &[Range]) -> u64 {
    let blocks = (FRAME + 1..=ROOT).map(|code| (FAN_OUT[code] as u64 + 1) * touched(regions, code));
    1 + blocks.sum::<u64>()
}

/// How many nodes of a code have a frame in a region: the nodes from a region's first to its last, sorted, and counted
/// where no region before reaches.
fn touched(regions: &[Range], code: usize) -> u64 {
    let mut nodes: Vec<Range> =
        regions.iter().map(|&(start, end)| (start / BYTES[code], end.div_ceil(BYTES[code]))).collect();
    nodes.sort();
    let (mut count, mut reached) = (0, 0);
    for (first, behind) in nodes {
        count += behind.saturating_sub(first.max(reached));
        reached = reached.max(behind);
    }
    count
}
