//! Document 01 as a program: obviously right rather than fast, in the document's words and order.

use crate::store::{Answer, Calls, JOURNAL_POOL, POOL_LIMIT, REGIONS, State};

// ---- 'Sizes' ----

/// 'Sizes': the bytes of a block, by code; code 0 stands for no block.
pub const BYTES: [u64; 7] = [0, 4_096, 16_384, 2_097_152, 1_073_741_824, 549_755_813_888, 140_737_488_355_328];

/// 'Sizes': how many blocks of the code below fill a block, by code.
pub const FAN_OUT: [usize; 7] = [0, 0, 4, 128, 512, 512, 256];

/// 'Sizes': the smallest code, that of one frame.
pub const FRAME: usize = 1;

/// 'Sizes': the largest code, that of the root.
pub const ROOT: usize = 6;

/// 'Sizes': where the addresses end; the root begins at 0.
pub const TOP: u64 = BYTES[ROOT];

/// 'Sizes': the code that a number names, if it names one.
pub fn code_of(number: u64) -> Option<usize> {
    (FRAME..=ROOT).find(|&code| code as u64 == number)
}

/// 'Sizes': which child of its ancestor of code `parent` holds the address.
pub fn child_number(address: u64, parent: usize) -> u64 {
    address % BYTES[parent] / BYTES[parent - 1]
}

// ---- Ranges of bytes, the end not included ----

/// A start and an end, the end not included.
pub type Range = (u64, u64);

/// Whether some byte lies in both ranges; an empty range has none.
pub fn share(a: Range, b: Range) -> bool {
    a.0.max(b.0) < a.1.min(b.1)
}

/// The union of the ranges, ascending, with those that touch or overlap joined.
pub fn union(ranges: &[Range]) -> Vec<Range> {
    let mut sorted: Vec<Range> = ranges.iter().copied().filter(|range| range.0 < range.1).collect();
    sorted.sort();
    let mut joined: Vec<Range> = Vec::new();
    for range in sorted {
        match joined.last_mut() {
            Some(last) if range.0 <= last.1 => last.1 = last.1.max(range.1),
            _ => joined.push(range),
        }
    }
    joined
}

/// Whether a range that is not empty lies in one range of a union.
pub fn lies_in(range: Range, union: &[Range]) -> bool {
    union.iter().any(|whole| whole.0 <= range.0 && range.1 <= whole.1)
}

/// The bytes of the block at a base that is within the root.
pub fn block_range(base: u64, code: usize) -> Range {
    (base, base + BYTES[code])
}

// ---- 'State and pool words' ----

/// 'State and pool words': the fields of a node word.
#[derive(Clone, Copy, Debug, Default, PartialEq, Eq)]
pub struct Word {
    pub max: usize,
    pub token: bool,
    pub level: usize,
    pub link: usize,
}

/// 'State and pool words': max + 8·token + 16·level + 128·link.
pub fn pack(word: Word) -> u32 {
    let sum = word.max + 8 * usize::from(word.token) + 16 * word.level + 128 * word.link;
    u32::try_from(sum).expect("a word has 32 bits")
}

/// 'State and pool words': the only fields that pack to this word.
pub fn unpack(word: u32) -> Word {
    let word = word as usize;
    Word { max: word % 8, token: word / 8 % 2 == 1, level: word / 16 % 8, link: word / 128 }
}

/// 'State and pool words': a new node is unopened and offers nothing.
pub fn new_node(code: usize) -> Word {
    Word { max: 0, token: false, level: code, link: 0 }
}

/// 'State and pool words': the region places that are not zero, in seeding order.
pub fn regions(state: State) -> Vec<Range> {
    region_places(state).into_iter().filter(|&place| place != (0, 0)).collect()
}

/// 'State and pool words': all region places, a start and an end each.
pub fn region_places(state: State) -> Vec<Range> {
    (0..REGIONS).map(|place| (state.starts[place], state.ends[place])).collect()
}

// ---- The tree that the links show ----

/// A node that the links reach: its place, its code and base by the tree, its word, and whether it is below a token.
#[derive(Clone, Copy)]
pub struct Node {
    pub place: usize,
    pub code: usize,
    pub base: u64,
    pub packed: u32,
    pub below_token: bool,
}

impl Node {
    /// The fields of the node's word.
    pub fn word(&self) -> Word {
        unpack(self.packed)
    }
}

/// A child block that a link names: its header's place, its parent's place and its parent's code.
#[derive(Clone, Copy)]
pub struct Block {
    pub header: usize,
    pub parent: usize,
    pub code: usize,
}

impl Block {
    /// The places of the block: its header, then one for each child.
    pub fn places(self) -> std::ops::Range<usize> {
        self.header..self.header + 1 + FAN_OUT[self.code]
    }

    /// The places of the block's children.
    pub fn children(self) -> std::ops::Range<usize> {
        self.header + 1..self.header + 1 + FAN_OUT[self.code]
    }
}

/// A state and a pool with all nodes and links that the root reaches.
pub struct View<'a> {
    pub state: State,
    pub pool: &'a [u32],
    pub nodes: Vec<Node>,
    pub blocks: Vec<Block>,
}

/// The child block that a node's link names, if the node is opened.
pub fn child_block(node: &Node) -> Option<Block> {
    (node.word().link != 0).then_some(Block { header: node.word().link, parent: node.place, code: node.code })
}

/// The nodes of a block below their parent, as the pool has them.
fn child_nodes(parent: Node, block: Block, pool: &[u32]) -> impl Iterator<Item = Node> {
    let code = parent.code - 1;
    let below_token = parent.below_token || parent.word().token;
    let base = move |number: usize| parent.base + number as u64 * BYTES[code];
    let words = block.children().zip(&pool[block.children()]).enumerate();
    words.map(move |(number, (place, &packed))| Node { place, code, base: base(number), packed, below_token })
}

impl<'a> View<'a> {
    /// Follows all links from the root on; a place is entered once at most, so no damage makes this loop.
    pub fn read(state: State, pool: &'a [u32]) -> View<'a> {
        let mut view = View { state, pool, nodes: Vec::new(), blocks: Vec::new() };
        let mut entered = vec![false; view.known()];
        if let Some(&root) = pool.first() {
            view.nodes.push(Node { place: 0, code: ROOT, base: 0, packed: root, below_token: false });
        }
        let mut next = 0;
        while next < view.nodes.len() {
            let node = view.nodes[next];
            next += 1;
            let Some(block) = child_block(&node) else { continue };
            view.blocks.push(block);
            if view.holds(block) && !entered[block.places()].contains(&true) {
                entered[block.places()].fill(true);
                view.nodes.extend(child_nodes(node, block, pool));
            }
        }
        view
    }

    /// How many places are both used and in the pool.
    pub fn known(&self) -> usize {
        self.pool.len().min(usize::try_from(self.state.used).unwrap_or(usize::MAX))
    }

    /// Whether all places of the block are used and in the pool.
    pub fn holds(&self, block: Block) -> bool {
        block.places().end <= self.known()
    }

    /// The words of a node's children; none for an unopened node and for a link that is out of range.
    pub fn children(&self, node: &Node) -> impl Iterator<Item = Word> {
        let block = child_block(node).filter(|&block| self.holds(block));
        let words = block.map_or(&self.pool[..0], |block| &self.pool[block.children()]);
        words.iter().map(|&word| unpack(word))
    }
}

// ---- 'Sound means all of' ----

/// 'Sound': a clause by its words, and whether it holds.
pub type Clause = (&'static str, fn(&View) -> bool);

/// 'Sound': all clauses in the document's order; each stands without the others.
pub const CLAUSES: &[Clause] = &[
    ("used is at least 1", used_is_at_least_1),
    ("used is at most the pool's length", used_is_at_most_the_length),
    ("the pool's length is within its limit", length_is_within_its_limit),
    ("levels match the tree", levels_match_the_tree),
    ("a node of code 1 has link 0", code_1_has_link_0),
    ("links and headers name each other", links_and_headers_name_each_other),
    ("the blocks fill places 1 to used - 1 with no gap and no overlap", blocks_fill_the_places),
    ("each block lies behind its parent", blocks_lie_behind_their_parents),
    ("a token node has max = level", token_has_max_of_its_level),
    ("a token node has nothing offered below it", token_has_nothing_offered_below),
    ("an unopened node without token has max 0", unopened_without_token_has_max_0),
    ("an opened node without token has the maximum of its children", opened_has_the_maximum_of_its_children),
    ("not all children of an opened node without token have tokens", opened_has_a_child_without_token),
    ("region places are filled from the first without a gap", region_places_are_filled_from_the_first),
    ("regions are page-aligned", regions_are_page_aligned),
    ("regions are not empty", regions_are_not_empty),
    ("regions end at or below 2^47", regions_end_at_or_below_the_top),
    ("regions share no frame", regions_share_no_frame),
    ("every token's block lies in the union of the regions", tokens_lie_in_the_regions),
];

/// 'Sound': the first clause that fails.
pub fn unsound_because(state: State, pool: &[u32]) -> Option<&'static str> {
    let view = View::read(state, pool);
    CLAUSES.iter().find(|clause| !clause.1(&view)).map(|clause| clause.0)
}

/// 'Sound': no clause fails.
pub fn sound(state: State, pool: &[u32]) -> bool {
    unsound_because(state, pool).is_none()
}

/// 'Sound': used is at least 1.
pub fn used_is_at_least_1(view: &View) -> bool {
    view.state.used >= 1
}

/// 'Sound': used is at most the pool's length.
pub fn used_is_at_most_the_length(view: &View) -> bool {
    view.state.used <= view.pool.len() as u64
}

/// 'Sound': the pool's length is within its limit.
pub fn length_is_within_its_limit(view: &View) -> bool {
    (1..=POOL_LIMIT).contains(&view.pool.len())
}

/// 'Sound': levels match the tree.
pub fn levels_match_the_tree(view: &View) -> bool {
    view.nodes.iter().all(|node| node.word().level == node.code)
}

/// 'Sound': a node of code 1 has link 0.
pub fn code_1_has_link_0(view: &View) -> bool {
    view.nodes.iter().all(|node| node.code != FRAME || node.word().link == 0)
}

/// 'Sound': the header that a link names is in range and names the link's node.
pub fn links_and_headers_name_each_other(view: &View) -> bool {
    view.blocks.iter().all(|block| block.header < view.known() && view.pool[block.header] as usize == block.parent)
}

/// 'Sound': every place from 1 to used - 1 belongs to exactly one block, and no block has other places.
pub fn blocks_fill_the_places(view: &View) -> bool {
    let mut taken = vec![false; view.known()];
    for &block in &view.blocks {
        if !view.holds(block) || taken[block.places()].contains(&true) {
            return false;
        }
        taken[block.places()].fill(true);
    }
    let all_in_the_pool = view.known() as u64 == view.state.used;
    all_in_the_pool && taken.iter().skip(1).all(|&taken| taken)
}

/// 'Sound': each block lies behind its parent.
pub fn blocks_lie_behind_their_parents(view: &View) -> bool {
    view.blocks.iter().all(|block| block.header > block.parent)
}

/// 'Sound': a token node has max = level.
pub fn token_has_max_of_its_level(view: &View) -> bool {
    view.nodes.iter().all(|node| !node.word().token || node.word().max == node.word().level)
}

/// 'Sound': a token node has nothing offered below it.
pub fn token_has_nothing_offered_below(view: &View) -> bool {
    view.nodes.iter().all(|node| !(node.word().token && node.below_token))
}

/// 'Sound': an unopened node without token has max 0.
pub fn unopened_without_token_has_max_0(view: &View) -> bool {
    view.nodes.iter().all(|node| node.word().link != 0 || node.word().token || node.word().max == 0)
}

/// 'Sound': an opened node without token.
fn is_opened_without_token(node: &&Node) -> bool {
    node.word().link != 0 && !node.word().token
}

/// 'Sound': an opened node without token has the maximum of its children.
pub fn opened_has_the_maximum_of_its_children(view: &View) -> bool {
    let maximum = |node| view.children(node).map(|child| child.max).max().unwrap_or(0);
    view.nodes.iter().filter(is_opened_without_token).all(|node| node.word().max == maximum(node))
}

/// 'Sound': not all children of an opened node without token have tokens.
pub fn opened_has_a_child_without_token(view: &View) -> bool {
    let all_have_tokens = |node| view.children(node).all(|child| child.token);
    view.nodes.iter().filter(is_opened_without_token).all(|node| !all_have_tokens(node))
}

/// 'Sound': region places are filled from the first without a gap and all behind them are zero.
pub fn region_places_are_filled_from_the_first(view: &View) -> bool {
    region_places(view.state).iter().skip_while(|&&place| place != (0, 0)).all(|&place| place == (0, 0))
}

/// 'Sound': regions are page-aligned.
pub fn regions_are_page_aligned(view: &View) -> bool {
    regions(view.state).iter().all(|region| is_page_aligned(region.0) && is_page_aligned(region.1))
}

/// 'Sound': regions are not empty.
pub fn regions_are_not_empty(view: &View) -> bool {
    regions(view.state).iter().all(|region| region.0 < region.1)
}

/// 'Sound': regions end at or below 2^47.
pub fn regions_end_at_or_below_the_top(view: &View) -> bool {
    regions(view.state).iter().all(|region| region.1 <= TOP)
}

/// 'Sound': regions share no frame.
pub fn regions_share_no_frame(view: &View) -> bool {
    let regions = regions(view.state);
    (0..regions.len()).all(|later| (0..later).all(|earlier| !share(regions[earlier], regions[later])))
}

/// 'Sound': every token's block lies in the union of the regions.
pub fn tokens_lie_in_the_regions(view: &View) -> bool {
    let union = union(&regions(view.state));
    view.nodes.iter().all(|node| !node.word().token || lies_in(block_range(node.base, node.code), &union))
}

/// 'Sizes': a multiple of the smallest size.
pub fn is_page_aligned(address: u64) -> bool {
    address.is_multiple_of(BYTES[FRAME])
}

// ---- What is free ----

/// The free bytes of a sound store: the union of its tokens' blocks.
pub fn free_ranges(state: State, pool: &[u32]) -> Vec<Range> {
    let view = View::read(state, pool);
    let tokens = view.nodes.iter().filter(|node| node.word().token);
    let blocks: Vec<Range> = tokens.map(|node| block_range(node.base, node.code)).collect();
    union(&blocks)
}

/// Whether some aligned block of the code lies wholly in the free ranges.
pub fn has_free_block(free: &[Range], code: usize) -> bool {
    free.iter().any(|range| {
        let first = range.0.div_ceil(BYTES[code]) * BYTES[code];
        first + BYTES[code] <= range.1
    })
}

// ---- 'Opening', 'Store', 'Acquire', on a copy whose pool has no end ----

/// A copy of used count and words that a call is tried on.
struct Trial {
    used: usize,
    words: Vec<u32>,
}

impl Trial {
    /// A copy of a sound store.
    fn of(state: State, pool: &[u32]) -> Trial {
        Trial { used: state.used as usize, words: pool.to_vec() }
    }

    /// The node word at a place; a place past the copy's end reads as zero.
    fn word(&self, place: usize) -> Word {
        unpack(self.words.get(place).copied().unwrap_or(0))
    }

    /// Writes a word, and makes the copy longer where it is too short.
    fn write(&mut self, place: usize, word: u32) {
        if place >= self.words.len() {
            self.words.resize(place + 1, 0);
        }
        self.words[place] = word;
    }

    /// Sets the token of a node, and its max to its code or to 0.
    fn set_token(&mut self, place: usize, code: usize, token: bool) {
        let max = if token { code } else { 0 };
        self.write(place, pack(Word { max, token, ..self.word(place) }));
    }

    /// 'State and pool words': the places of an opened node's children, in address order.
    fn children(&self, place: usize, code: usize) -> std::ops::Range<usize> {
        Block { header: self.word(place).link, parent: place, code }.children()
    }

    /// 'Opening': a new child block goes at the used count, which grows by fan-out + 1.
    fn open(&mut self, place: usize, code: usize) {
        if self.word(place).link != 0 {
            return;
        }
        let header = self.used;
        self.write(place, pack(Word { link: header, ..self.word(place) }));
        self.write(header, u32::try_from(place).expect("a place fits a word"));
        for child in self.children(place, code) {
            self.write(child, pack(new_node(code - 1)));
        }
        self.used += FAN_OUT[code] + 1;
    }

    /// 'Store', 'Acquire': max becomes the children's maximum.
    fn refresh(&mut self, place: usize, code: usize) {
        let max = self.children(place, code).map(|child| self.word(child).max).max().unwrap_or(0);
        self.write(place, pack(Word { max, ..self.word(place) }));
    }

    /// 'Store': where all children have tokens, theirs are cleared and the node gets one; otherwise max is refreshed.
    fn merge(&mut self, place: usize, code: usize) {
        if self.children(place, code).all(|child| self.word(child).token) {
            for child in self.children(place, code) {
                self.set_token(child, code - 1, false);
            }
            self.set_token(place, code, true);
        } else {
            self.refresh(place, code);
        }
    }

    /// 'Store': opens the proper ancestors from the top down, sets token and max, and merges going up.
    fn store(&mut self, base: u64, code: usize) {
        let mut ancestors = Vec::new();
        let mut place = 0;
        for ancestor in (code + 1..=ROOT).rev() {
            self.open(place, ancestor);
            ancestors.push((place, ancestor));
            place = self.children(place, ancestor).start + child_number(base, ancestor) as usize;
        }
        self.set_token(place, code, true);
        for &(place, ancestor) in ancestors.iter().rev() {
            self.merge(place, ancestor);
        }
    }

    /// 'Seed': from start on, the largest block that is aligned and ends at or before end; then on behind it.
    fn store_range(&mut self, start: u64, end: u64) {
        let mut at = start;
        while at < end {
            let code = largest_block(at, end);
            self.store(at, code);
            at += BYTES[code];
        }
    }

    /// 'Acquire': a node with a token hands it on to all its children.
    fn hand_on(&mut self, place: usize, code: usize) {
        if self.word(place).token {
            self.set_token(place, code, false);
            for child in self.children(place, code) {
                self.set_token(child, code - 1, true);
            }
        }
    }

    /// 'Acquire': the first child whose max is at least the code, as its number, and how many were looked at.
    fn look(&self, place: usize, parent: usize, code: usize) -> (usize, u64) {
        let mut looked_at = 0;
        for (number, child) in self.children(place, parent).enumerate() {
            looked_at += 1;
            if self.word(child).max >= code {
                return (number, looked_at);
            }
        }
        panic!("a sound node's max is that of one of its children");
    }

    /// 'Acquire': takes the first free block of a code that the root's max allows; gives its base and the probes.
    fn take(&mut self, code: usize) -> (u64, u64) {
        let mut ancestors = Vec::new();
        let (mut place, mut base, mut probes) = (0, 0, 0);
        for ancestor in (code + 1..=ROOT).rev() {
            self.open(place, ancestor);
            self.hand_on(place, ancestor);
            ancestors.push((place, ancestor));
            let (number, looked_at) = self.look(place, ancestor, code);
            probes += looked_at;
            base += number as u64 * BYTES[ancestor - 1];
            place = self.children(place, ancestor).start + number;
        }
        self.set_token(place, code, false);
        for &(place, ancestor) in ancestors.iter().rev() {
            self.refresh(place, ancestor);
        }
        (base, probes)
    }

    /// Refusal 9 if used is past the pool's length now; otherwise the copy's words become the pool's.
    fn commit(self, given: State, wanted: State, pool: &mut [u32], results: Vec<u64>) -> Answer {
        if self.used > pool.len() {
            return refused(9, given, results.len());
        }
        pool.copy_from_slice(&self.words[..pool.len()]);
        Answer { refusal: 0, state: State { used: self.used as u64, ..wanted }, results }
    }
}

/// 'Seed': the largest block that is aligned at the address and ends at or before end.
pub fn largest_block(at: u64, end: u64) -> usize {
    let fits = |code: &usize| at.is_multiple_of(BYTES[*code]) && BYTES[*code] <= end - at;
    (FRAME..=ROOT).rev().find(fits).expect("a frame fits between page-aligned addresses")
}

/// 'Acquire': the probe count as it follows from base and code.
pub fn probe_sum(base: u64, code: usize) -> u64 {
    (code + 1..=ROOT).map(|ancestor| child_number(base, ancestor) + 1).sum()
}

// ---- 'What the calls do', with 'Refusal numbers' ----

/// The six calls.
pub const CALLS: Calls = Calls { fresh, seed, acquire, release, report, check };

/// 'Refusal numbers': a refusal hands back the state it got and answers zeros.
fn refused(refusal: u64, state: State, results: usize) -> Answer {
    Answer { refusal, state, results: vec![0; results] }
}

/// 'Fresh' writes 96 to word 0; used is 1, no regions.
pub fn fresh(pool: &mut [u32]) -> Answer {
    if !(1..=POOL_LIMIT).contains(&pool.len()) {
        return refused(11, State::default(), 0);
    }
    pool[0] = pack(new_node(ROOT));
    Answer { refusal: 0, state: State { used: 1, ..State::default() }, results: Vec::new() }
}

/// 'Seed': refusals 10, 2, 3, 5, 4, 9.
pub fn seed(state: State, pool: &mut [u32], start: u64, end: u64) -> Answer {
    let refusal = seed_refusal(state, pool, start, end);
    if refusal != 0 {
        return refused(refusal, state, 0);
    }
    let mut wanted = state;
    let place = regions(state).len();
    wanted.starts[place] = start;
    wanted.ends[place] = end;
    let mut trial = Trial::of(state, pool);
    trial.store_range(start, end);
    trial.commit(state, wanted, pool, Vec::new())
}

/// 'Refusal numbers', seed: the first of 10, 2, 3, 5, 4, or 0.
fn seed_refusal(state: State, pool: &[u32], start: u64, end: u64) -> u64 {
    if !sound(state, pool) {
        10
    } else if !is_page_aligned(start) || !is_page_aligned(end) || start >= end {
        2
    } else if end > TOP {
        3
    } else if regions(state).len() == REGIONS {
        5
    } else if regions(state).iter().any(|&region| share(region, (start, end))) {
        4
    } else {
        0
    }
}

/// 'Acquire': refusals 10, 1, 8, 9; answers base and probes.
pub fn acquire(state: State, pool: &mut [u32], code: u64) -> Answer {
    if !sound(state, pool) {
        return refused(10, state, 2);
    }
    let Some(code) = code_of(code) else {
        return refused(1, state, 2);
    };
    let largest = unpack(pool[0]).max;
    debug_assert_eq!(largest >= code, has_free_block(&free_ranges(state, pool), code));
    if largest < code {
        return refused(8, state, 2);
    }
    let mut trial = Trial::of(state, pool);
    let (base, probes) = trial.take(code);
    debug_assert_eq!(probes, probe_sum(base, code));
    trial.commit(state, state, pool, vec![base, probes])
}

/// 'Release': refusals 10, 1, 2, 3, 6, 7, 9.
pub fn release(state: State, pool: &mut [u32], base: u64, code: u64) -> Answer {
    if !sound(state, pool) {
        return refused(10, state, 0);
    }
    let Some(code) = code_of(code) else {
        return refused(1, state, 0);
    };
    let refusal = release_refusal(state, pool, base, code);
    if refusal != 0 {
        return refused(refusal, state, 0);
    }
    let mut trial = Trial::of(state, pool);
    trial.store(base, code);
    trial.commit(state, state, pool, Vec::new())
}

/// 'Refusal numbers', release of a block on a sound store: the first of 2, 3, 6, 7, or 0.
fn release_refusal(state: State, pool: &[u32], base: u64, code: usize) -> u64 {
    if !base.is_multiple_of(BYTES[code]) {
        2
    } else if base > TOP - BYTES[code] {
        3
    } else if !lies_in(block_range(base, code), &union(&regions(state))) {
        6
    } else if free_ranges(state, pool).iter().any(|&free| share(free, block_range(base, code))) {
        7
    } else {
        0
    }
}

/// 'Report': refusal 10; answers seeded bytes, free bytes, largest, used words.
pub fn report(state: State, pool: &mut [u32]) -> Answer {
    if !sound(state, pool) {
        return refused(10, state, 4);
    }
    let seeded = total_bytes(&regions(state));
    let free = total_bytes(&free_ranges(state, pool));
    let largest = unpack(pool[0]).max as u64;
    Answer { refusal: 0, state, results: vec![seeded, free, largest, state.used] }
}

/// The bytes of ranges that share none.
fn total_bytes(ranges: &[Range]) -> u64 {
    ranges.iter().map(|range| range.1 - range.0).sum()
}

/// 'Check': yes exactly when state and pool are sound.
pub fn check(state: State, pool: &[u32]) -> bool {
    sound(state, pool)
}

// ---- 'Journal' ----

/// 'Journal': the printed lines of a run with a pool of 16,384 words.
pub fn replay(journal: &[u8]) -> String {
    let mut pool = vec![0; JOURNAL_POOL];
    let mut state = fresh(&mut pool).state;
    let mut printed = format!("pool {}\n", pool.len());
    let mut rest = journal;
    let mut number = 0;
    while let Some((&kind, behind)) = rest.split_first() {
        number += 1;
        let Some(length) = body_length(kind) else {
            return printed + &format!("{number} bad 12\n");
        };
        if behind.len() < length {
            return printed + &format!("{number} bad 13\n");
        }
        let (body, next) = behind.split_at(length);
        let (name, answer) = do_entry(kind, body, state, &mut pool);
        printed += &line(number, name, &answer);
        state = answer.state;
        rest = next;
    }
    printed
}

/// 'Journal': the length of the body, which the kind fixes; none for an unknown kind.
fn body_length(kind: u8) -> Option<usize> {
    match kind {
        1 => Some(16),
        2 => Some(1),
        3 => Some(9),
        4 => Some(0),
        _ => None,
    }
}

/// 'Journal': does one entry of a known kind with a whole body; gives its name and answer.
fn do_entry(kind: u8, body: &[u8], state: State, pool: &mut [u32]) -> (&'static str, Answer) {
    match kind {
        1 => ("seed", seed(state, pool, little_endian(&body[..8]), little_endian(&body[8..]))),
        2 => ("acquire", acquire(state, pool, little_endian(body))),
        3 => ("release", release(state, pool, little_endian(&body[..8]), little_endian(&body[8..]))),
        _ => ("report", report(state, pool)),
    }
}

/// 'Journal': numbers are little-endian.
fn little_endian(bytes: &[u8]) -> u64 {
    bytes.iter().rev().fold(0, |number, &byte| number * 256 + u64::from(byte))
}

/// 'Journal': a line is the entry's number, name, refusal number and results.
fn line(number: u64, name: &str, answer: &Answer) -> String {
    let mut line = format!("{number} {name} {}", answer.refusal);
    for result in &answer.results {
        line += &format!(" {result}");
    }
    line + "\n"
}
