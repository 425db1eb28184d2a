//! Damages of single words, and of tokens and maxima along a path.

use super::{Damaged, other};
use crate::generate::dice::Dice;
use crate::reference::{FAN_OUT, FRAME, Node, Word, new_node};

/// Gives a word another field.
type Edit = fn(&mut Word, &mut Dice, live: u64);

fn max(word: &mut Word, dice: &mut Dice, _: u64) {
    word.max = other(word.max, 8, dice);
}

fn token(word: &mut Word, _: &mut Dice, _: u64) {
    word.token = !word.token;
}

fn level(word: &mut Word, dice: &mut Dice, _: u64) {
    word.level = other(word.level, 8, dice);
}

fn link(word: &mut Word, dice: &mut Dice, live: u64) {
    let bit = word.link ^ 1 << dice.below(25);
    let near = other(word.link, live as usize + 10, dice);
    let any = other(word.link, 1 << 25, dice);
    word.link = dice.pick(&[bit, near, near, any]);
}

fn edit_any(store: &mut Damaged, dice: &mut Dice, edit: Edit) -> bool {
    let node = store.node(dice);
    edit_node(store, dice, edit, node)
}

fn edit_root(store: &mut Damaged, dice: &mut Dice, edit: Edit) -> bool {
    let node = store.nodes().first().copied();
    edit_node(store, dice, edit, node)
}

fn edit_node(store: &mut Damaged, dice: &mut Dice, edit: Edit, node: Option<Node>) -> bool {
    let Some(node) = node else { return false };
    let mut word = node.word();
    edit(&mut word, dice, store.live() as u64);
    store.write(node.place, word);
    true
}

pub fn max_of_a_word(store: &mut Damaged, dice: &mut Dice) -> bool {
    edit_any(store, dice, max)
}

pub fn token_of_a_word(store: &mut Damaged, dice: &mut Dice) -> bool {
    edit_any(store, dice, token)
}

pub fn level_of_a_word(store: &mut Damaged, dice: &mut Dice) -> bool {
    edit_any(store, dice, level)
}

pub fn link_of_a_word(store: &mut Damaged, dice: &mut Dice) -> bool {
    edit_any(store, dice, link)
}

pub fn max_of_the_root(store: &mut Damaged, dice: &mut Dice) -> bool {
    edit_root(store, dice, max)
}

pub fn token_of_the_root(store: &mut Damaged, dice: &mut Dice) -> bool {
    edit_root(store, dice, token)
}

pub fn level_of_the_root(store: &mut Damaged, dice: &mut Dice) -> bool {
    edit_root(store, dice, level)
}

pub fn link_of_the_root(store: &mut Damaged, dice: &mut Dice) -> bool {
    edit_root(store, dice, link)
}

/// A bit of a live word.
pub fn bit(store: &mut Damaged, dice: &mut Dice) -> bool {
    match store.live() {
        0 => false,
        live => {
            store.pool[dice.below(live as u64) as usize] ^= 1 << dice.below(32);
            true
        }
    }
}

/// A live word becomes any number, or a copy of another live word.
pub fn whole_word(store: &mut Damaged, dice: &mut Dice) -> bool {
    let live = store.live() as u64;
    if live == 0 {
        return false;
    }
    let place = dice.below(live) as usize;
    let copied = store.pool[dice.below(live) as usize];
    store.pool[place] = if dice.chance(1, 2) { copied } else { dice.roll() as u32 };
    true
}

/// A token without max.
pub fn token_added_without_max(store: &mut Damaged, dice: &mut Dice) -> bool {
    store.edit_one(dice, |node| !node.word().token, |node| Word { token: true, ..node.word() })
}

/// No token, and the max as it was.
pub fn token_removed_without_max(store: &mut Damaged, dice: &mut Dice) -> bool {
    store.edit_one(dice, |node| node.word().token, |node| Word { token: false, ..node.word() })
}

/// A node without token gets one, with its max, and the maxima above follow.
pub fn token_given(store: &mut Damaged, dice: &mut Dice) -> bool {
    let nodes = store.nodes();
    let Some(node) = super::one_of(&nodes, dice, |node| !node.word().token) else { return false };
    store.write(node.place, Word { token: true, max: node.code, ..node.word() });
    store.refresh_above(node.place);
    true
}

/// A token goes as an acquire takes it, and the maxima above follow.
pub fn token_taken(store: &mut Damaged, dice: &mut Dice) -> bool {
    let nodes = store.nodes();
    let Some(node) = super::one_of(&nodes, dice, |node| node.word().token) else { return false };
    store.write(node.place, Word { token: false, max: 0, ..node.word() });
    store.refresh_above(node.place);
    true
}

/// A max changes, and the maxima above follow.
pub fn max_on_a_path(store: &mut Damaged, dice: &mut Dice) -> bool {
    let Some(node) = store.node(dice) else { return false };
    let max = other(node.word().max, 7, dice);
    store.write(node.place, Word { max, ..node.word() });
    store.refresh_above(node.place);
    true
}

/// A max below a token, without a token.
pub fn max_below_a_token(store: &mut Damaged, dice: &mut Dice) -> bool {
    let Some((child, _)) = child_of_a_token(store, dice) else { return false };
    let max = dice.between(1, 6) as usize;
    store.write(child, Word { max, ..store.word(child) });
    true
}

/// A token below a token.
pub fn token_below_a_token(store: &mut Damaged, dice: &mut Dice) -> bool {
    let Some((child, code)) = child_of_a_token(store, dice) else { return false };
    store.write(child, Word { max: code, token: true, ..store.word(child) });
    true
}

/// A token two levels below a token, with the max between them.
pub fn token_far_below_a_token(store: &mut Damaged, dice: &mut Dice) -> bool {
    let Some((child, code)) = child_of_a_token(store, dice) else { return false };
    let Some(header) = store.open(child, code) else { return false };
    let below = header + 1 + dice.below(FAN_OUT[code] as u64) as usize;
    store.write(below, Word { max: code - 1, token: true, ..new_node(code - 1) });
    store.write(child, Word { max: code - 1, token: false, ..store.word(child) });
    true
}

/// All children of a token node get its token, as if nothing merged.
pub fn unmerged(store: &mut Damaged, dice: &mut Dice) -> bool {
    let Some(node) = token_node(store, dice) else { return false };
    let Some(header) = store.open(node.place, node.code) else { return false };
    for child in header + 1..=header + FAN_OUT[node.code] {
        store.write(child, Word { max: node.code - 1, token: true, ..store.word(child) });
    }
    store.write(node.place, Word { max: node.code - 1, token: false, ..store.word(node.place) });
    store.refresh_above(node.place);
    true
}

/// A node with a token that may have children.
fn token_node(store: &Damaged, dice: &mut Dice) -> Option<Node> {
    super::one_of(&store.nodes(), dice, |node| node.word().token && node.code > FRAME)
}

/// The place and code of some child of a token node, which is opened if need be.
fn child_of_a_token(store: &mut Damaged, dice: &mut Dice) -> Option<(usize, usize)> {
    let node = token_node(store, dice)?;
    let header = store.open(node.place, node.code)?;
    Some((header + 1 + dice.below(FAN_OUT[node.code] as u64) as usize, node.code - 1))
}
