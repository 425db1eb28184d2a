//! Damages of links, headers, blocks and the used count.

use super::{Damaged, one_of, other};
use crate::generate::dice::Dice;
use crate::reference::{Block, FAN_OUT, FRAME, Word, new_node, pack};

/// A header names another place, perhaps one that differs in a high bit only.
pub fn header(store: &mut Damaged, dice: &mut Dice) -> bool {
    let Some(block) = store.block(dice) else { return false };
    let parent = block.parent;
    let near = dice.pick(&[parent + 1, parent.max(1) - 1, block.header, block.header + 1]);
    let bit = parent ^ 1 << dice.below(32);
    let any = other(parent, store.live() + 10, dice);
    store.pool[block.header] = dice.pick(&[near, bit, any]) as u32;
    true
}

/// Two headers change places.
pub fn headers_swapped(store: &mut Damaged, dice: &mut Dice) -> bool {
    let (Some(one), Some(two)) = (store.block(dice), store.block(dice)) else { return false };
    store.pool.swap(one.header, two.header);
    one.header != two.header
}

/// A link names the block of another node.
pub fn link_to_another_block(store: &mut Damaged, dice: &mut Dice) -> bool {
    let (Some(node), Some(block)) = (store.node(dice), store.block(dice)) else { return false };
    store.write(node.place, Word { link: block.header, ..node.word() });
    node.place != block.parent
}

/// A link names a place inside a block, often next to the right one.
pub fn link_into_a_block(store: &mut Damaged, dice: &mut Dice) -> bool {
    let Some(block) = store.block(dice) else { return false };
    let inside = block.header + 1 + dice.below(FAN_OUT[block.code].max(1) as u64) as usize;
    let link = dice.pick(&[inside, block.header + 1, block.header - 1]);
    let place = if dice.chance(1, 2) { block.parent } else { store.node(dice).map_or(0, |node| node.place) };
    store.write(place, Word { link, ..store.word(place) });
    true
}

/// A link names its own word.
pub fn link_to_itself(store: &mut Damaged, dice: &mut Dice) -> bool {
    let Some(node) = store.node(dice) else { return false };
    store.write(node.place, Word { link: node.place, ..node.word() });
    node.place != 0
}

/// A link names a block that ends past used, or starts there.
pub fn link_past_used(store: &mut Damaged, dice: &mut Dice) -> bool {
    let live = store.live();
    let Some(node) = store.node(dice) else { return false };
    let partly = live - dice.below(FAN_OUT[node.code].min(live) as u64 + 1) as usize;
    let link = dice.pick(&[live, live + 1, live + 1_000, partly.max(1), 1 << 20, (1 << 25) - 1]);
    store.write(node.place, Word { link, ..node.word() });
    if dice.chance(1, 2) && link < store.pool.len() {
        store.pool[link] = node.place as u32;
    }
    true
}

/// A link becomes 0, so that its block is unreachable.
pub fn link_removed(store: &mut Damaged, dice: &mut Dice) -> bool {
    store.edit_one(dice, |node| node.word().link != 0, |node| Word { link: 0, ..node.word() })
}

/// Two links change places; sometimes the headers follow.
pub fn links_swapped(store: &mut Damaged, dice: &mut Dice) -> bool {
    let (Some(one), Some(two)) = (store.block(dice), store.block(dice)) else { return false };
    let (first, second) = (store.word(one.parent), store.word(two.parent));
    store.write(one.parent, Word { link: two.header, ..first });
    store.write(two.parent, Word { link: one.header, ..second });
    if dice.chance(1, 2) {
        store.pool.swap(one.header, two.header);
    }
    one.header != two.header
}

/// The blocks lie in another order, and links and headers follow. Sound where each still lies behind its parent.
pub fn blocks_in_another_order(store: &mut Damaged, dice: &mut Dice) -> bool {
    let Some(mut blocks) = store.blocks_in_order() else { return false };
    if blocks.len() < 2 {
        return false;
    }
    if dice.chance(1, 2) {
        dice.shuffle(&mut blocks);
    } else {
        let place = dice.below(blocks.len() as u64 - 1) as usize;
        blocks.swap(place, place + 1);
    }
    let mut place = 1;
    let mut moves = Vec::new();
    for block in blocks {
        moves.push((block, place));
        place += FAN_OUT[block.code] + 1;
    }
    store.move_blocks(&moves, place);
    true
}

/// A block and all behind it move up by a few words, and links and headers follow.
pub fn gap_before_a_block(store: &mut Damaged, dice: &mut Dice) -> bool {
    let words = dice.between(1, 5) as usize;
    move_the_rest(store, dice, |header| header + words)
}

/// A block and all behind it move down by a word, and links and headers follow; used may stay.
pub fn overlap_by_one(store: &mut Damaged, dice: &mut Dice) -> bool {
    let used = store.state.used;
    let moved = move_the_rest(store, dice, |header| header - 1);
    if moved && dice.chance(1, 2) {
        store.state.used = used;
    }
    moved
}

fn move_the_rest(store: &mut Damaged, dice: &mut Dice, moved: impl Fn(usize) -> usize) -> bool {
    let Some(blocks) = store.blocks_in_order() else { return false };
    if blocks.is_empty() {
        return false;
    }
    let first = dice.below(blocks.len() as u64) as usize;
    let place = |(number, &block): (usize, &Block)| {
        (block, if number < first { block.header } else { moved(block.header).max(1) })
    };
    let moves: Vec<(Block, usize)> = blocks.iter().enumerate().map(place).collect();
    let end = moves.last().map_or(1, |&(block, header)| header + FAN_OUT[block.code] + 1);
    store.move_blocks(&moves, end);
    true
}

/// A block that no link names, behind the others.
pub fn unreachable_block(store: &mut Damaged, dice: &mut Dice) -> bool {
    let code = dice.between(1, 6) as usize;
    let named = dice.below(store.live() as u64 + 1) as u32;
    store.append(named, code).is_some()
}

/// A cycle of one or two blocks behind the others: links and headers name each other, and the root reaches none.
pub fn cycle(store: &mut Damaged, dice: &mut Dice) -> bool {
    let (code, below) = (dice.between(2, 6) as usize, dice.between(2, 6) as usize);
    let Some(first) = store.append(0, code) else { return false };
    let alone = dice.chance(1, 3);
    let Some(second) = (if alone { Some(first) } else { store.append(0, below) }) else { return false };
    let child = |header: usize, code: usize, dice: &mut Dice| header + 1 + dice.below(FAN_OUT[code] as u64) as usize;
    let upper = child(first, code, dice);
    let lower = if alone { upper } else { child(second, below, dice) };
    store.write(upper, Word { link: second, ..store.word(upper) });
    store.pool[second] = upper as u32;
    if !alone {
        store.write(lower, Word { link: first, ..store.word(lower) });
        store.pool[first] = lower as u32;
    }
    true
}

/// A node of code 1 gets a block of its own: a header and no child.
pub fn frame_opened(store: &mut Damaged, dice: &mut Dice) -> bool {
    let nodes = store.nodes();
    let leaf = if dice.chance(1, 2) {
        one_of(&nodes, dice, |node| node.code == FRAME && node.word().token)
    } else {
        one_of(&nodes, dice, |node| node.code == FRAME)
    };
    let Some(leaf) = leaf else { return false };
    let Some(link) = store.append(leaf.place as u32, FRAME) else { return false };
    store.write(leaf.place, Word { link, ..leaf.word() });
    true
}

/// An unopened node is opened, with or without token. Sound where the store was.
pub fn opened(store: &mut Damaged, dice: &mut Dice) -> bool {
    let nodes = store.nodes();
    let unopened = one_of(&nodes, dice, |node| node.word().link == 0 && node.code > FRAME);
    unopened.is_some_and(|node| store.open(node.place, node.code).is_some())
}

pub fn used_one_more(store: &mut Damaged, _: &mut Dice) -> bool {
    store.state.used = store.state.used.wrapping_add(1);
    true
}

pub fn used_one_less(store: &mut Damaged, _: &mut Dice) -> bool {
    store.state.used = store.state.used.wrapping_sub(1);
    true
}

pub fn used_zero(store: &mut Damaged, _: &mut Dice) -> bool {
    store.state.used = 0;
    true
}

pub fn used_at_a_block(store: &mut Damaged, dice: &mut Dice) -> bool {
    let Some(block) = store.block(dice) else { return false };
    store.state.used = block.header as u64;
    true
}

pub fn used_past_the_pool(store: &mut Damaged, dice: &mut Dice) -> bool {
    store.state.used = store.pool.len() as u64 + dice.between(1, 600);
    true
}

/// Used is huge; some of these numbers are the right one once they are cut to 32 bits.
pub fn used_huge(store: &mut Damaged, dice: &mut Dice) -> bool {
    let used = store.state.used;
    let huge = [u64::MAX, 1 << 63, 1 << 32, used | 1 << 32, used | 1 << 63, 1 << 20, used.wrapping_neg()];
    store.state.used = dice.pick(&huge);
    store.state.used != used
}

/// A root's block without tokens, whose words at the places given have links.
fn root_block(links: &[(usize, usize)]) -> Vec<u32> {
    let mut pool = vec![pack(new_node(5)); 258];
    (pool[0], pool[1]) = (224, 0);
    for &(place, link) in links {
        pool[place] = pack(Word { link, ..new_node(5) });
    }
    pool
}

/// Links and headers match and the sum is right, yet word 257 is a child and a header, and 770 is a gap.
pub fn pool_of_771(store: &mut Damaged, _: &mut Dice) -> bool {
    let mut pool = root_block(&[(80, 257)]);
    pool.resize(771, 64);
    store.become_pool(pool);
    true
}

/// Links and headers match, and a sweep from header to header ends at used; yet word 80's block lies over the others.
pub fn pool_of_771_swept(store: &mut Damaged, _: &mut Dice) -> bool {
    let mut pool = root_block(&[(64, 258), (80, 257)]);
    pool.resize(771, 64);
    store.become_pool(pool);
    true
}

/// The same with a block behind it that only its own child links to: the sum is right too.
pub fn pool_of_1284_with_a_cycle(store: &mut Damaged, dice: &mut Dice) -> bool {
    let mut pool = root_block(&[(64, 258), (80, 257)]);
    pool.resize(1_284, 64);
    let child = dice.between(772, 1_283) as usize;
    pool[771] = child as u32;
    pool[child] = pack(Word { link: 771, ..new_node(5) });
    store.become_pool(pool);
    true
}

/// Two blocks of 512 children that lie over each other, the later one's header being a child of the earlier one.
pub fn pool_of_1284(store: &mut Damaged, dice: &mut Dice) -> bool {
    let mut pool = root_block(&[(2, 258), (64, dice.between(259, 770) as usize)]);
    pool.resize(1_284, 64);
    pool[258] = 2;
    store.become_pool(pool);
    true
}
