//! Damaged states and pools from numbers, and what each judge must say of them: the reference's check and the walk
//! agree; where a store is unsound every other call answers 10; where it is sound the calls keep it so.

use crate::generate::dice::Dice;
use crate::reference::{self, Block, FAN_OUT, FRAME, Node, View, Word, new_node, pack, unpack};
use crate::store::{Calls, State};
use kinds::KINDS;
use sources::{LENGTH, Source};

mod kinds;
pub mod list;
mod outside;
mod questions;
mod shape;
mod sources;
mod tally;
#[cfg(test)]
mod tests;
mod words;

pub use questions::calls_on;
use questions::examine;
pub use sources::Library;
use tally::Tally;

/// How many stores come from one journal.
const FROM_ONE_JOURNAL: u64 = 64;

/// A state and a pool, and what was done to them.
#[derive(Clone, Debug)]
pub struct Damaged {
    pub state: State,
    pub pool: Vec<u32>,
    pub what: String,
}

/// How a damaged store is made: a journal's first entries, words behind used, and damages with the dice of each.
#[derive(Clone, Debug)]
pub struct Recipe {
    source: Source,
    length: usize,
    spare: usize,
    /// Kinds by their place in the table, each with its own number.
    damages: Vec<(usize, u64)>,
}

impl Recipe {
    /// The recipe of a run's number and a store's place in the run.
    pub fn of(number: u64, index: u64, library: &mut Library) -> Recipe {
        let source = Source::of(&mut Dice::new(number, 2 * (index / FROM_ONE_JOURNAL)));
        let mut dice = Dice::new(number, 2 * index + 1);
        let wished = dice.below(LENGTH as u64 + 1) as usize;
        let length = if dice.chance(63, 64) { library.small(source, wished) } else { wished };
        let spare = dice.pick(&[0, 0, 1, 5, 130, 600]);
        let count = dice.pick(&[1, 1, 1, 2, 2, 3]);
        let mut recipe = Recipe { source, length, spare, damages: Vec::new() };
        let mut store = recipe.make(library);
        while recipe.damages.len() < count {
            let damage = (dice.below(KINDS.len() as u64) as usize, dice.roll());
            if store.damage(damage) {
                recipe.damages.push(damage);
            }
        }
        recipe
    }

    /// The store: sound, then each damage in turn where it still applies.
    pub fn make(&self, library: &mut Library) -> Damaged {
        let (state, mut pool) = library.store(self.source, self.length);
        let mut dice = Dice::new(self.source.journal, self.length as u64);
        pool.extend((0..self.spare).map(|_| dice.roll() as u32));
        let what = format!("{}, {} entries, {} words", self.source.name(), self.length, pool.len());
        let mut store = Damaged { state, pool, what };
        for &damage in &self.damages {
            store.damage(damage);
        }
        store
    }

    /// Recipes that are a step smaller: a damage less, fewer entries, or no words behind used.
    fn smaller(&self) -> Vec<Recipe> {
        let mut smaller = Vec::new();
        for place in 0..self.damages.len() {
            let mut less = self.clone();
            less.damages.remove(place);
            smaller.push(less);
        }
        for length in [0, self.length / 2, self.length.saturating_sub(1)] {
            if length < self.length {
                smaller.push(Recipe { length, ..self.clone() });
            }
        }
        if self.spare > 0 {
            smaller.push(Recipe { spare: 0, ..self.clone() });
        }
        smaller
    }
}

/// Examines so many damaged stores; gives two tables, or the first difference, made small.
pub fn run(number: u64, stores: u64) -> Result<String, String> {
    run_with(reference::CALLS, number, stores)
}

/// The same for any store's calls against the walk.
fn run_with(calls: Calls, number: u64, stores: u64) -> Result<String, String> {
    let mut library = Library::default();
    let mut tally = Tally::default();
    for index in 0..stores {
        let recipe = Recipe::of(number, index, &mut library);
        let store = recipe.make(&mut library);
        let asked = calls_on(&store, number, index);
        match examine(calls, &store, &asked) {
            Ok(sound) => tally.count(&recipe, &store, sound),
            Err(_) => return Err(difference(calls, recipe, (number, index), &mut library)),
        }
    }
    tally.text(stores)
}

/// Makes a recipe that shows a difference small, and tells of it.
fn difference(calls: Calls, recipe: Recipe, from: (u64, u64), library: &mut Library) -> String {
    let mut fails = |recipe: &Recipe| {
        let store = recipe.make(library);
        let asked = calls_on(&store, from.0, from.1);
        examine(calls, &store, &asked).err().map(|why| (store, why))
    };
    let mut recipe = recipe;
    let mut shown = fails(&recipe);
    while let Some(less) = recipe.smaller().into_iter().find(|less| fails(less).is_some()) {
        shown = fails(&less);
        recipe = less;
    }
    let (store, why) = shown.unwrap_or_else(|| (recipe.make(&mut Library::default()), "it comes and goes".into()));
    let words: Vec<String> = store.pool.iter().take(16).map(u32::to_string).collect();
    let state = store.state;
    format!("number {} store {}: {}\n{why}\n{state:?}\nfirst words: {}\n", from.0, from.1, store.what, words.join(" "))
}

/// One of a list that passes.
fn one_of<T: Copy>(list: &[T], dice: &mut Dice, passes: impl Fn(&T) -> bool) -> Option<T> {
    let passing: Vec<T> = list.iter().copied().filter(passes).collect();
    (!passing.is_empty()).then(|| dice.pick(&passing))
}

/// A number below the limit that is not the value.
fn other(value: usize, limit: usize, dice: &mut Dice) -> usize {
    (value + 1 + dice.below(limit as u64 - 1) as usize) % limit
}

impl Damaged {
    /// Does one damage; no, and nothing is noted, where it does not apply or changes nothing.
    fn damage(&mut self, (kind, number): (usize, u64)) -> bool {
        let (name, apply) = KINDS[kind];
        let before = self.clone();
        let applies = apply(self, &mut Dice::new(number, kind as u64));
        if !applies || (self.state == before.state && self.pool == before.pool) {
            *self = before;
            return false;
        }
        self.what += &format!("; {name}");
        true
    }

    /// How many words are both used and in the pool.
    pub(crate) fn live(&self) -> usize {
        self.pool.len().min(usize::try_from(self.state.used).unwrap_or(usize::MAX))
    }

    /// The nodes that the root reaches.
    fn nodes(&self) -> Vec<Node> {
        View::read(self.state, &self.pool).nodes
    }

    /// Some node: the root, an opened one, one with a token, or any.
    fn node(&self, dice: &mut Dice) -> Option<Node> {
        let nodes = self.nodes();
        let group = match dice.below(8) {
            0 => nodes.first().copied(),
            1 | 2 => one_of(&nodes, dice, |node| node.word().link != 0),
            3 | 4 => one_of(&nodes, dice, |node| node.word().token),
            _ => None,
        };
        group.or_else(|| one_of(&nodes, dice, |_| true))
    }

    /// Some block whose words are all live.
    fn block(&self, dice: &mut Dice) -> Option<Block> {
        let view = View::read(self.state, &self.pool);
        one_of(&view.blocks, dice, |&block| view.holds(block))
    }

    fn word(&self, place: usize) -> Word {
        unpack(self.pool[place])
    }

    fn write(&mut self, place: usize, word: Word) {
        self.pool[place] = pack(Word { link: word.link % (1 << 25), ..word });
    }

    /// Gives one node that passes another word.
    fn edit_one(&mut self, dice: &mut Dice, passes: fn(&Node) -> bool, edit: fn(Node) -> Word) -> bool {
        let Some(node) = one_of(&self.nodes(), dice, passes) else { return false };
        self.write(node.place, edit(node));
        true
    }

    /// Puts a block of new children of a parent's code at used, which grows; gives its place.
    fn append(&mut self, header: u32, code: usize) -> Option<usize> {
        let place = self.live();
        if self.state.used != place as u64 || place == 0 {
            return None;
        }
        let end = place + 1 + FAN_OUT[code];
        self.pool.resize(self.pool.len().max(end), 0);
        self.pool[place] = header;
        if code > FRAME {
            self.pool[place + 1..end].fill(pack(new_node(code - 1)));
        }
        self.state.used = end as u64;
        Some(place)
    }

    /// Opens a node of a code if need be; gives its block's place if the block's words are live.
    fn open(&mut self, place: usize, code: usize) -> Option<usize> {
        let word = self.word(place);
        if code <= FRAME {
            return None;
        }
        if word.link == 0 {
            let link = self.append(place as u32, code)?;
            self.write(place, Word { link, ..word });
            return Some(link);
        }
        (word.link + FAN_OUT[code] < self.live()).then_some(word.link)
    }

    /// Gives each node without token above a place the maximum of its children, going up.
    fn refresh_above(&mut self, place: usize) {
        let blocks = View::read(self.state, &self.pool).blocks;
        let mut place = place;
        for _ in 0..6 {
            let Some(block) = blocks.iter().find(|block| block.children().contains(&place)) else { return };
            place = block.parent;
            if !self.word(place).token && block.places().end <= self.live() {
                let max = block.children().map(|child| self.word(child).max).max().unwrap_or(0);
                self.write(place, Word { max, ..self.word(place) });
            }
        }
    }

    /// The blocks by their places, if they fill the live words and links and headers match.
    fn blocks_in_order(&self) -> Option<Vec<Block>> {
        let view = View::read(self.state, &self.pool);
        let fitting = reference::blocks_fill_the_places(&view) && reference::links_and_headers_name_each_other(&view);
        let mut blocks = view.blocks;
        blocks.sort_by_key(|block| block.header);
        (fitting && !blocks.iter().any(|block| block.code == FRAME)).then_some(blocks)
    }

    /// Puts blocks at other places; links and headers follow, and used becomes the end.
    fn move_blocks(&mut self, moves: &[(Block, usize)], end: usize) {
        let moved = |place: usize| {
            let holding = moves.iter().find(|(block, _)| block.places().contains(&place));
            holding.map_or(place, |(block, header)| header + place - block.header)
        };
        let before = self.pool.clone();
        self.pool.resize(self.pool.len().max(end), 0);
        for &(block, header) in moves {
            for (offset, place) in block.places().enumerate() {
                self.pool[header + offset] = before[place];
            }
        }
        for &(block, header) in moves {
            let parent = moved(block.parent);
            self.pool[header] = parent as u32;
            self.write(parent, Word { link: header, ..unpack(before[block.parent]) });
        }
        self.state.used = end as u64;
    }

    /// Becomes a pool that is used whole, without regions.
    fn become_pool(&mut self, pool: Vec<u32>) {
        self.state = State { used: pool.len() as u64, ..State::default() };
        self.pool = pool;
    }
}
