//! The Rust itself as a judge: `allocator.rs` and `page_size.rs` carried over (EDITS.md lists every edit), below them
//! the stand-ins of document 01, and here a driver that keeps to the domain in which the document asks for answers.

// Laid out as the original is, which has wider lines, so that the two can be read side by side.
#[rustfmt::skip]
#[allow(clippy::empty_line_after_doc_comments, clippy::let_and_return)]
pub mod allocator;
pub mod bare;
#[rustfmt::skip]
pub mod page_size;
mod stand_ins;

use crate::guard::guarded;
use crate::journal::{Entry, decode};
use allocator::PageAllocator;
use page_size::PageSize;
use stand_ins::{ConfidentialMemoryAddress, Error, Page};
use std::collections::BTreeMap;

/// What the original says to an entry.
#[derive(Clone, Copy, Debug, PartialEq, Eq)]
pub enum Told {
    /// The document's number for its `Ok` or error, and the base of the page that it hands out (0 if none).
    Answered { refusal: u64, base: u64 },
    /// One of its asserts fails.
    Panicked,
    /// It has no such call, or the document does not ask it; nothing is driven and the tree stays as it is.
    Outside,
}

/// The original with an empty tree, and what the driver must remember to keep to the domain.
pub struct Original {
    allocator: PageAllocator,
    /// The accepted seeds, a start and an end each.
    seeded: Vec<(u64, u64)>,
    held: Held,
    /// A panic has left the tree in the middle of a change: its answers mean nothing from then on.
    broken: bool,
}

impl Default for Original {
    fn default() -> Self {
        Self::new()
    }
}

impl Original {
    pub fn new() -> Self {
        Self { allocator: PageAllocator::empty(), seeded: Vec::new(), held: Held::default(), broken: false }
    }

    /// Drives the original with an entry. Refusals that the document adds (a ninth region, a full pool) are unknown
    /// to it: it accepts there.
    pub fn answer(&mut self, entry: Entry) -> Told {
        match entry {
            Entry::Seed { start, end } => self.seed(start, end),
            Entry::Acquire { code } => self.acquire(code),
            Entry::Release { base, code } => self.release(base, code),
            Entry::Report => Told::Outside,
        }
    }

    /// Drives the original also where that is outside the domain, as nothing in the Rust stops a caller. What it does
    /// then is what the document's added refusals are for; the driver's own accounts stay as they are.
    pub fn forced(&mut self, entry: Entry) -> Told {
        match entry {
            Entry::Seed { start, end } => self.drive(true, |allocator| add_region(allocator, start, end)),
            Entry::Acquire { code } => self.sized(code, deal_page),
            Entry::Release { base, code } => self.sized(code, |allocator, size| store_page(allocator, base, size)),
            Entry::Report => Told::Outside,
        }
    }

    /// Drives a call that takes a size, where the code is one.
    fn sized(&mut self, code: u8, call: impl FnOnce(&mut PageAllocator, PageSize) -> Result<u64, Error>) -> Told {
        size_of(code).map_or(Told::Outside, |size| self.drive(true, |allocator| call(allocator, size)))
    }

    /// How many pool words its opened nodes would take.
    pub fn opened_words(&self) -> u64 {
        self.allocator.opened_words() as u64
    }

    /// The code of the largest page that its root offers, 0 for none.
    pub fn largest(&self) -> u64 {
        code_of(self.allocator.max_allocable_page_size())
    }

    /// Only a seed that the original would store is held against the earlier ones: any other it turns away by itself
    /// and unchanged, whether or not it shares a frame. Its three asserts are the first statements of
    /// `add_memory_region` and read nothing but its arguments; `TooMuchMemory` comes next; behind them stands the
    /// first change.
    fn seed(&mut self, start: u64, end: u64) -> Told {
        let smallest = bytes(PageSize::smallest());
        let past_asserts = start.is_multiple_of(smallest) && end.is_multiple_of(smallest) && start < end;
        let stored = past_asserts && end <= bytes(PageSize::largest());
        if stored && self.seeded.iter().any(|&(from, to)| start < to && from < end) {
            return Told::Outside;
        }
        let told = self.drive(past_asserts, |allocator| add_region(allocator, start, end));
        if let Told::Answered { refusal: 0, .. } = told {
            self.seeded.push((start, end));
        }
        told
    }

    fn acquire(&mut self, code: u8) -> Told {
        let Some(size) = size_of(code) else { return Told::Outside };
        let told = self.drive(true, |allocator| deal_page(allocator, size));
        if let Told::Answered { refusal: 0, base } = told {
            self.held.add(base, base + bytes(size));
        }
        told
    }

    fn release(&mut self, base: u64, code: u8) -> Told {
        let Some(size) = size_of(code) else { return Told::Outside };
        let Some(end) = base.checked_add(bytes(size)) else { return Told::Outside };
        if !base.is_multiple_of(bytes(size)) || self.held.around(base, end).is_none() {
            return Told::Outside;
        }
        let told = self.drive(true, |allocator| store_page(allocator, base, size));
        if let Told::Answered { .. } = told {
            self.held.remove(base, end);
        }
        told
    }

    /// Runs a call that gives a base or an error. `changes` says that a panic of it may stand behind a change.
    fn drive(&mut self, changes: bool, call: impl FnOnce(&mut PageAllocator) -> Result<u64, Error>) -> Told {
        if self.broken {
            return Told::Panicked;
        }
        let told = guarded(|| match call(&mut self.allocator) {
            Ok(base) => Told::Answered { refusal: 0, base },
            Err(error) => Told::Answered { refusal: refusal_of(error), base: 0 },
        });
        self.broken = changes && told.is_err();
        told.unwrap_or(Told::Panicked)
    }
}

/// What the original says of every size, of some children, and of rows of an address and an end each, little-endian.
/// An address is page-aligned and below its end: there alone the original says what it answers.
pub fn sizes(rows: &[u8]) -> String {
    let mut lines = String::new();
    for code in 1..=6 {
        lines += &size_lines(code);
    }
    for row in rows.chunks_exact(16) {
        let number = |at: usize| u64::from_le_bytes(row[at..at + 8].try_into().expect("eight bytes"));
        let (start, end) = (number(0), number(8));
        let size = PageAllocator::largest_page_size_at(address(start), end as usize);
        lines += &format!("largest {start} {end} {}\n", code_of(Some(size)));
    }
    lines
}

/// A size by its code, with the first, the second and the last child of its second node; the largest has one node only.
fn size_lines(code: u8) -> String {
    let Some(size) = size_of(code) else { return String::new() };
    let (smaller, larger, pages) = (code_of(size.smaller()), code_of(size.larger()), size.number_of_smaller_pages());
    let mut lines = format!("size {code} {} {smaller} {larger} {pages}\n", size.in_bytes());
    let base = if size == PageSize::largest() { 0 } else { size.in_bytes() };
    let indices: &[usize] = if pages > 1 { &[0, 1, pages - 1] } else { &[] };
    for &index in indices {
        let (start, below, back) = PageAllocator::child_of(base, size, index);
        lines += &format!("child {base} {code} {index} {start} {} {back}\n", code_of(Some(below)));
    }
    lines
}

/// The code of a size, 0 for none.
fn code_of(size: Option<PageSize>) -> u64 {
    (1..=6).find(|&code| size.is_some() && size_of(code) == size).map_or(0, u64::from)
}

fn add_region(allocator: &mut PageAllocator, start: u64, end: u64) -> Result<u64, Error> {
    allocator.add_memory_region(address(start), end as usize).map(|()| 0)
}

fn deal_page(allocator: &mut PageAllocator, size: PageSize) -> Result<u64, Error> {
    allocator.acquire_page(size).map(|page| page.start_address() as u64)
}

fn store_page(allocator: &mut PageAllocator, base: u64, size: PageSize) -> Result<u64, Error> {
    allocator.release_pages(vec![Page::init(address(base), size)]);
    Ok(0)
}

/// Whether the original is asked where document 01 refuses with this number. It has no limits of regions (5) and of
/// pool words (9): it would accept there, and its tree would be another one from then on.
pub fn is_asked(refusal: u64) -> bool {
    !matches!(refusal, 5 | 9)
}

/// The line of an entry, with its number, its name and what the original says if it is asked.
pub fn line(number: usize, entry: Entry, told: Option<Told>) -> String {
    let told = match (told, entry) {
        (Some(Told::Answered { refusal, base }), Entry::Acquire { .. }) => format!("{refusal} {base}"),
        (Some(Told::Answered { refusal, .. }), _) => refusal.to_string(),
        (Some(Told::Panicked), _) => "panic".to_string(),
        (Some(Told::Outside), _) => "outside".to_string(),
        (None, _) => "not asked".to_string(),
    };
    format!("{number} {} {told}\n", entry.name())
}

/// Replays a journal: one line an entry.
pub fn replay(bytes: &[u8]) -> String {
    let (entries, bad) = decode(bytes);
    let mut original = Original::new();
    let mut lines = String::new();
    for (index, &entry) in entries.iter().enumerate() {
        lines += &line(index + 1, entry, Some(original.answer(entry)));
    }
    if let Some(bad) = bad {
        lines += &format!("{} bad {}\n", entries.len() + 1, bad.refusal());
    }
    lines
}

/// The bytes that acquires have given and no release has taken back: disjoint ranges, start to end, none touching the
/// next, so that joined pages are one range.
#[derive(Default)]
struct Held(BTreeMap<u64, u64>);

impl Held {
    /// The range in which all of start to end lies.
    fn around(&self, start: u64, end: u64) -> Option<(u64, u64)> {
        let (&from, &to) = self.0.range(..=start).next_back()?;
        (end <= to).then_some((from, to))
    }

    /// Adds a range that shares no byte with the held ones.
    fn add(&mut self, start: u64, end: u64) {
        let before = self.0.range(..end).next_back().map(|(&from, &to)| (from, to));
        assert!(before.is_none_or(|(_, to)| to <= start), "the original hands out what is held");
        let from = before.filter(|&(_, to)| to == start).map_or(start, |(from, _)| from);
        let to = self.0.remove(&end).unwrap_or(end);
        self.0.insert(from, to);
    }

    /// Takes out a range that is wholly held.
    fn remove(&mut self, start: u64, end: u64) {
        let (from, to) = self.around(start, end).expect("a held range");
        self.0.remove(&from);
        if from < start {
            self.0.insert(from, start);
        }
        if end < to {
            self.0.insert(end, to);
        }
    }
}

/// The size that the document numbers with this code.
fn size_of(code: u8) -> Option<PageSize> {
    match code {
        1 => Some(PageSize::Size4KiB),
        2 => Some(PageSize::Size16KiB),
        3 => Some(PageSize::Size2MiB),
        4 => Some(PageSize::Size1GiB),
        5 => Some(PageSize::Size512GiB),
        6 => Some(PageSize::Size128TiB),
        _ => None,
    }
}

/// The number that the document gives to an error.
fn refusal_of(error: Error) -> u64 {
    match error {
        Error::TooMuchMemory() => 3,
        Error::OutOfPages() => 8,
        Error::AddressNotInConfidentialMemory() => unreachable!("no call hands it on"),
    }
}

fn bytes(size: PageSize) -> u64 {
    size.in_bytes() as u64
}

fn address(number: u64) -> ConfidentialMemoryAddress {
    ConfidentialMemoryAddress::new(number as usize)
}

#[cfg(test)]
mod tests {
    use super::stand_ins::MemoryLayout;
    use super::*;
    use crate::journal::{DOCUMENT, acquire, encode, release, seed};
    use std::collections::BTreeSet;

    const KIB_4: u64 = 4_096;
    const KIB_16: u64 = 16_384;
    const MIB_2: u64 = 2_097_152;
    const GIB_2: u64 = 2_147_483_648;
    const TIB_128: u64 = 140_737_488_355_328;

    const DONE: Told = Told::Answered { refusal: 0, base: 0 };
    const TOO_MUCH: Told = Told::Answered { refusal: 3, base: 0 };
    const OUT_OF_PAGES: Told = Told::Answered { refusal: 8, base: 0 };

    fn page(base: u64) -> Told {
        Told::Answered { refusal: 0, base }
    }

    /// Drives a new original and looks at each answer.
    fn run(steps: &[(Entry, Told)]) -> Original {
        let mut original = Original::new();
        go_on(&mut original, steps);
        original
    }

    fn go_on(original: &mut Original, steps: &[(Entry, Told)]) {
        for (index, &(entry, told)) in steps.iter().enumerate() {
            assert_eq!(original.answer(entry), told, "step {index}: {entry:?}");
        }
    }

    /// Acquires the smallest pages until none is left.
    fn drain(original: &mut Original) -> Vec<u64> {
        let mut bases = Vec::new();
        while let Told::Answered { refusal: 0, base } = original.answer(acquire(1)) {
            bases.push(base);
        }
        bases
    }

    /// All orders of four things.
    fn orders() -> Vec<[u64; 4]> {
        let mut orders = Vec::new();
        for number in 0..256 {
            let order = [number & 3, number >> 2 & 3, number >> 4 & 3, number >> 6];
            if BTreeSet::from(order).len() == 4 {
                orders.push(order);
            }
        }
        assert_eq!(orders.len(), 24);
        orders
    }

    #[test]
    fn sizes_are_those_of_the_document() {
        let sizes = [KIB_4, KIB_16, MIB_2, GIB_2 / 2, 549_755_813_888, TIB_128];
        for (code, size) in (1..=6).zip(sizes) {
            assert_eq!(size_of(code).map(bytes), Some(size));
        }
        for code in [0, 7, 255] {
            assert_eq!(size_of(code), None);
        }
    }

    #[test]
    fn the_documents_journal() {
        let lines = "1 seed 0\n2 acquire 0 2147483648\n3 acquire 8 0\n4 acquire 0 2147487744\n\
                     5 release 0\n6 release outside\n7 report outside\n";
        assert_eq!(replay(&encode(&DOCUMENT)), lines);
    }

    #[test]
    fn journals_that_end_early() {
        assert_eq!(replay(&[]), "");
        assert_eq!(replay(&[4, 5]), "1 report outside\n2 bad 12\n");
        assert_eq!(replay(&[0]), "1 bad 12\n");
        assert_eq!(replay(&[2, 1, 2]), "1 acquire 8 0\n2 bad 13\n");
        assert_eq!(replay(&[2, 0, 2, 7]), "1 acquire outside\n2 acquire outside\n");
        let journal = encode(&[seed(1, KIB_4), seed(0, TIB_128 + KIB_4), seed(0, KIB_4), seed(0, KIB_4)]);
        assert_eq!(replay(&journal), "1 seed panic\n2 seed 3\n3 seed 0\n4 seed outside\n");
        assert_eq!(replay(&journal[..journal.len() - 1]), "1 seed panic\n2 seed 3\n3 seed 0\n4 bad 13\n");
    }

    #[test]
    fn nothing_seeded() {
        for code in 1..=6 {
            run(&[(acquire(code), OUT_OF_PAGES), (release(0, code), Told::Outside)]);
        }
    }

    #[test]
    fn everything_seeded() {
        let mut original = run(&[(seed(0, TIB_128), DONE), (acquire(6), page(0))]);
        for code in 1..=6 {
            go_on(&mut original, &[(acquire(code), OUT_OF_PAGES)]);
        }
        go_on(&mut original, &[(release(0, 6), DONE), (acquire(6), page(0))]);
    }

    #[test]
    fn four_small_pages_merge_in_any_order() {
        for order in orders() {
            let mut original = run(&[(seed(GIB_2, GIB_2 + KIB_16), DONE)]);
            assert_eq!(drain(&mut original), [0, 1, 2, 3].map(|index| GIB_2 + index * KIB_4));
            for index in order {
                go_on(&mut original, &[(acquire(2), OUT_OF_PAGES), (release(GIB_2 + index * KIB_4, 1), DONE)]);
            }
            go_on(&mut original, &[(acquire(3), OUT_OF_PAGES), (acquire(2), page(GIB_2))]);
        }
    }

    #[test]
    fn merging_goes_up_to_the_root() {
        let mut original = run(&[(seed(0, TIB_128), DONE), (acquire(1), page(0)), (acquire(6), OUT_OF_PAGES)]);
        go_on(&mut original, &[(release(0, 1), DONE), (acquire(6), page(0))]);
    }

    #[test]
    fn regions_merge_with_each_other() {
        for order in orders() {
            let mut original = Original::new();
            for index in order {
                let start = GIB_2 + index * KIB_4;
                go_on(&mut original, &[(acquire(2), OUT_OF_PAGES), (seed(start, start + KIB_4), DONE)]);
            }
            go_on(&mut original, &[(acquire(2), page(GIB_2))]);
        }
    }

    #[test]
    fn bad_seeds_panic_and_change_nothing() {
        let bad = [
            (GIB_2 + 1, GIB_2 + KIB_16),
            (GIB_2, GIB_2 + KIB_16 + 1),
            (GIB_2 + KIB_16 - 1, GIB_2 + 2 * KIB_16),
            (GIB_2 + 2 * KIB_16, GIB_2 + 2 * KIB_16),
            (GIB_2 + 3 * KIB_16, GIB_2 + 2 * KIB_16),
            (KIB_4, KIB_4),
            (0, 0),
            (1, TIB_128 + KIB_4),
        ];
        let steps = [(seed(GIB_2, GIB_2 + KIB_16), DONE), (acquire(1), page(GIB_2))];
        let bases = drain(&mut run(&steps));
        for (start, end) in bad {
            let mut fresh = run(&[(seed(start, end), Told::Panicked), (acquire(1), OUT_OF_PAGES)]);
            go_on(&mut fresh, &steps);
            let mut original = run(&steps);
            go_on(&mut original, &[(seed(start, end), Told::Panicked), (acquire(2), OUT_OF_PAGES)]);
            assert_eq!(drain(&mut original), bases);
            for base in bases.iter().copied().chain([GIB_2]) {
                go_on(&mut original, &[(release(base, 1), DONE)]);
            }
            go_on(&mut original, &[(acquire(2), page(GIB_2)), (acquire(1), OUT_OF_PAGES)]);
        }
    }

    #[test]
    fn seeds_that_share_a_frame_are_not_driven() {
        let mut original = run(&[(seed(GIB_2, GIB_2 + KIB_16), DONE)]);
        for (start, end) in [(GIB_2, GIB_2 + KIB_4), (0, TIB_128), (GIB_2 + 3 * KIB_4, GIB_2 + 5 * KIB_4)] {
            go_on(&mut original, &[(seed(start, end), Told::Outside)]);
        }
        // What the original turns away by itself is driven, though it shares frames too.
        go_on(&mut original, &[(seed(GIB_2, TIB_128 + KIB_4), TOO_MUCH), (seed(GIB_2, GIB_2), Told::Panicked)]);
        go_on(&mut original, &[(seed(GIB_2 - KIB_4, GIB_2), DONE), (acquire(1), page(GIB_2 - KIB_4))]);
        assert_eq!(drain(&mut original).len(), 4);
    }

    #[test]
    fn parts_of_a_held_page() {
        run(&[
            (seed(GIB_2, GIB_2 + KIB_16), DONE),
            (acquire(2), page(GIB_2)),
            (release(GIB_2 + KIB_4, 2), Told::Outside),
            (release(GIB_2 + KIB_4, 1), DONE),
            (release(GIB_2 + KIB_4, 1), Told::Outside),
            (release(GIB_2, 2), Told::Outside),
            (acquire(2), OUT_OF_PAGES),
            (acquire(1), page(GIB_2 + KIB_4)),
            (acquire(1), OUT_OF_PAGES),
            (release(GIB_2, 2), DONE),
            (acquire(2), page(GIB_2)),
        ]);
    }

    #[test]
    fn held_pages_joined() {
        let mut original = run(&[(seed(MIB_2, 2 * MIB_2), DONE)]);
        for index in 0..128 {
            go_on(&mut original, &[(acquire(2), page(MIB_2 + index * KIB_16))]);
        }
        go_on(&mut original, &[(acquire(1), OUT_OF_PAGES), (release(0, 4), Told::Outside)]);
        // Wholly held, but no multiple of the size.
        go_on(&mut original, &[(release(MIB_2 + KIB_4, 2), Told::Outside), (release(MIB_2 + 1, 1), Told::Outside)]);
        go_on(&mut original, &[(release(MIB_2, 3), DONE), (acquire(3), page(MIB_2)), (acquire(1), OUT_OF_PAGES)]);
    }

    #[test]
    fn the_last_frame() {
        let last = 140_737_488_351_232;
        run(&[
            (seed(last, TIB_128), DONE),
            (acquire(2), OUT_OF_PAGES),
            (acquire(1), page(last)),
            (acquire(1), OUT_OF_PAGES),
            (release(TIB_128, 1), Told::Outside),
            (release(last, 1), DONE),
            (acquire(1), page(last)),
        ]);
    }

    #[test]
    fn numbers_near_the_top() {
        let top = u64::MAX - (KIB_4 - 1);
        let mut original = run(&[
            (seed(0, u64::MAX), Told::Panicked),
            (seed(u64::MAX, u64::MAX), Told::Panicked),
            (seed(top, top), Told::Panicked),
            (seed(top, 0), Told::Panicked),
            (seed(top - KIB_4, top), TOO_MUCH),
            (seed(0, top), TOO_MUCH),
            (seed(0, TIB_128 + KIB_4), TOO_MUCH),
            (seed(TIB_128, TIB_128 + KIB_4), TOO_MUCH),
            (seed(0, TIB_128), DONE),
            (acquire(6), page(0)),
        ]);
        for code in 1..=6 {
            let size = size_of(code).map_or(0, bytes);
            for base in [u64::MAX, top, u64::MAX - (size - 1), u64::MAX - size, TIB_128] {
                go_on(&mut original, &[(release(base, code), Told::Outside)]);
            }
        }
        let bounded = |base, offset, end| {
            MemoryLayout::read().confidential_address_at_offset_bounded(&address(base), offset, end).ok()
        };
        assert_eq!(bounded(top, 4_095, usize::MAX), None);
        assert_eq!(bounded(top, 4_096, usize::MAX), None);
        assert_eq!(bounded(top, usize::MAX, usize::MAX), None);
        assert_eq!(bounded(top, 4_094, usize::MAX), Some(address(u64::MAX - 1)));
        assert_eq!(bounded(KIB_4, 4_095, 8_192), Some(address(8_191)));
        assert_eq!(bounded(KIB_4, 4_096, 8_192), None);
    }

    #[test]
    fn initialize_is_one_region_in_an_empty_tree() {
        let first = |end| {
            let mut allocator = PageAllocator::initialize(address(GIB_2), end).ok()?;
            allocator.acquire_page(PageSize::Size16KiB).ok().map(|page| page.start_address())
        };
        assert_eq!(first(2_147_483_648 + 16_384), Some(2_147_483_648));
        assert_eq!(first(2_147_483_648 + 12_288), None);
        assert_eq!(first(140_737_488_355_328 + 4_096), None);
    }

    #[test]
    fn a_panic_behind_a_change_stays_visible() {
        let mut original = run(&[(seed(GIB_2, GIB_2 + KIB_16), DONE)]);
        let told = original.drive(true, |allocator| {
            allocator.release_pages(vec![Page::init(address(KIB_4), PageSize::Size16KiB)]);
            Ok(0)
        });
        assert_eq!(told, Told::Panicked);
        go_on(&mut original, &[(acquire(1), Told::Panicked), (seed(0, KIB_4), Told::Panicked)]);
        go_on(&mut original, &[(Entry::Report, Told::Outside), (acquire(0), Told::Outside)]);
    }

    /// Every acquire gives the lowest block whose frames are all free, and no assert fails in the domain.
    #[test]
    fn random_steps_against_free_frames() {
        let mut random = 0x2545_f491_4f6c_dd1d_u64;
        let mut next = move |below: u64| {
            random ^= random << 13;
            random ^= random >> 7;
            random ^= random << 17;
            (random >> 11) % below
        };
        let starts = [0, GIB_2 - 3 * KIB_4, 5 * GIB_2 + MIB_2 - KIB_16, TIB_128 - MIB_2 - 40 * KIB_4];
        for _ in 0..60 {
            let mut original = Original::new();
            let mut free = BTreeSet::new();
            let mut held = BTreeSet::new();
            let mut unseeded = starts.to_vec();
            for _ in 0..400 {
                let code = 1 + next(3) as u8;
                let size = size_of(code).map_or(0, bytes);
                let frames = |base: u64| (base..base + size).step_by(KIB_4 as usize);
                match next(20) {
                    0 if !unseeded.is_empty() => {
                        let start = unseeded.swap_remove(next(unseeded.len() as u64) as usize);
                        let end = start + (1 + next(552)) * KIB_4;
                        assert_eq!(original.answer(seed(start, end)), DONE);
                        free.extend((start..end).step_by(KIB_4 as usize));
                    }
                    0..12 => {
                        let fits = |&base: &u64| base % size == 0 && frames(base).all(|frame| free.contains(&frame));
                        let lowest = free.iter().copied().find(fits);
                        assert_eq!(original.answer(acquire(code)), lowest.map_or(OUT_OF_PAGES, page));
                        for frame in lowest.into_iter().flat_map(frames) {
                            free.remove(&frame);
                            held.insert(frame);
                        }
                    }
                    _ => {
                        let Some(&frame) = held.iter().nth(next(1 + held.len() as u64) as usize) else { continue };
                        let base = frame - frame % size;
                        if !frames(base).all(|frame| held.contains(&frame)) {
                            assert_eq!(original.answer(release(base, code)), Told::Outside);
                            continue;
                        }
                        assert_eq!(original.answer(release(base, code)), DONE);
                        for frame in frames(base) {
                            held.remove(&frame);
                            free.insert(frame);
                        }
                    }
                }
            }
        }
    }
}
