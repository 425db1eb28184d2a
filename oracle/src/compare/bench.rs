//! All judges side by side, each with its own state, and what one entry demands of them.

use super::difference::{of_answer, of_frames, of_original, of_ranges, of_state, of_words};
use super::printed::line;
use super::words::Opened;
use super::{Difference, REFUSALS, Run};
use crate::frames::{FRAME, Frames, Range, size};
use crate::generate::room::Room;
use crate::guard::guarded;
use crate::journal::Entry;
use crate::original::{self, Original};
use crate::reference;
use crate::store::{Answer, Calls, POOL_LIMIT, State};

/// After how many entries the pool words are made by brute force, besides every report and the end.
const WORDS_EVERY: usize = 4;

/// What judges say, each with its name.
type Said = Vec<(&'static str, String)>;

/// The name of the judge of refusal 9, the state and the pool words.
const ROOM: &str = "frames and opened blocks";

/// A store that has the calls of document 01: its state and its own pool.
pub(super) struct Store {
    pub calls: Calls,
    pub state: State,
    pub pool: Vec<u32>,
}

impl Store {
    pub fn call(&mut self, entry: Entry) -> Answer {
        let answer = self.calls.answer(self.state, &mut self.pool, entry);
        self.state = answer.state;
        answer
    }
}

/// The judges on one journal. After a difference its state means nothing.
pub struct Bench {
    pub(super) reference: Store,
    pub(super) candidate: Option<Store>,
    /// The free frames, with the blocks that are opened: these tell the room that a call needs.
    room: Room,
    opened: Opened,
    original: Original,
    /// Whether fresh is refused. Then every call is refused with 10, and only stores with a pool are asked.
    pub(super) refused: bool,
    /// Whether the journal's own entries are over.
    pub(super) closing: bool,
    /// The reference's pool before the call.
    before: Vec<u32>,
    pub(super) entries: Vec<Entry>,
    pub(super) lines: String,
    /// What the original says, a line for each entry.
    pub(super) told: String,
    pub(super) run: Run,
}

/// Words that no call would write in this order, so that a word written or read past the used count shows.
pub(super) fn unwritten(pool_words: usize) -> Vec<u32> {
    (0..pool_words as u32).map(|place| place.wrapping_mul(0x9e37_79b9) ^ 0x5bd1_e995).collect()
}

impl Bench {
    /// The judges with fresh done on a pool of that length.
    pub fn new(candidate: Option<Calls>, pool_words: usize) -> Result<Bench, Difference> {
        let store = |calls| Store { calls, state: State::default(), pool: unwritten(pool_words) };
        let mut bench = Bench {
            reference: store(reference::CALLS),
            candidate: candidate.map(store),
            room: Room::new(pool_words),
            opened: Opened::default(),
            original: Original::new(),
            refused: !(1..=POOL_LIMIT).contains(&pool_words),
            closing: false,
            before: unwritten(pool_words),
            entries: Vec::new(),
            lines: format!("pool {pool_words}\n"),
            told: String::new(),
            run: Run::default(),
        };
        bench.do_fresh()?;
        Ok(bench)
    }

    /// The store over frames.
    pub(super) fn frames(&self) -> &Frames {
        &self.room.frames
    }

    /// The entries that are run, those that give everything back included.
    pub fn entries(&self) -> &[Entry] {
        &self.entries
    }

    /// Runs one entry on every judge that may be asked, and gives the reference's answer.
    pub fn step(&mut self, entry: Entry) -> Result<Answer, Difference> {
        self.entries.push(entry);
        let state = self.reference.state;
        self.before.copy_from_slice(&self.reference.pool);
        let given = guarded(|| self.reference.call(entry));
        let answer = given.map_err(|text| self.panicked("reference", text))?;
        self.look_at_reference(entry, state, &answer)?;
        self.ask_candidate(entry, &answer)?;
        if self.refused {
            let said = || vec![("reference", of_answer(&answer))];
            self.expect(answer.refusal == 10, "a call on a store whose fresh is refused", said)?;
        } else {
            self.ask_frames(entry, &answer)?;
            self.ask_room(entry, &answer)?;
            self.ask_original(entry, &answer)?;
        }
        self.note(entry, &answer);
        Ok(answer)
    }

    /// What every judge says to an entry, not compared. The bench is of no use behind it.
    pub fn ask_all(mut self, entry: Entry) -> Vec<(&'static str, String)> {
        let answer = guarded(|| self.reference.call(entry));
        let driven = answer.as_ref().map_or(true, |answer| original::is_asked(answer.refusal));
        let mut said = vec![("reference", answer.map_or_else(|text| text, |answer| of_answer(&answer)))];
        if let Some(candidate) = &mut self.candidate {
            let answer = guarded(|| candidate.call(entry));
            said.push(("candidate", answer.map_or_else(|text| text, |answer| of_answer(&answer))));
        }
        let told = guarded(|| self.frames().judge(entry));
        said.push(("frames", told.map_or_else(|text| text, |told| of_frames(&told))));
        let told = guarded(|| self.room.answer(entry));
        said.push((ROOM, told.map_or_else(|text| text, |told| of_answer(&told))));
        if driven {
            let told = guarded(|| self.original.answer(entry));
            said.push(("original", told.map_or_else(|text| text, of_original)));
        } else {
            said.push(("original", "not asked: it has no such refusal".to_string()));
        }
        said
    }

    pub(super) fn difference(&self, matter: &str, said: Said) -> Difference {
        let entry = self.entries.last().copied();
        Difference { number: self.entries.len(), entry, matter: matter.to_string(), said }
    }

    pub(super) fn expect(&self, holds: bool, matter: &str, said: impl FnOnce() -> Said) -> Result<(), Difference> {
        if holds { Ok(()) } else { Err(self.difference(matter, said())) }
    }

    pub(super) fn panicked(&self, judge: &'static str, text: String) -> Difference {
        self.difference("a judge panics", vec![(judge, text)])
    }

    /// Fresh, refused exactly for a pool length outside its limits.
    fn do_fresh(&mut self) -> Result<(), Difference> {
        let given = guarded(|| (self.reference.calls.fresh)(&mut self.reference.pool));
        let answer = given.map_err(|text| self.panicked("reference", text))?;
        self.reference.state = answer.state;
        self.run.used = answer.state.used;
        let used = u64::from(!self.refused);
        let mut words = self.before.clone();
        if !self.refused {
            words[0] = 96;
        }
        let wanted = Answer {
            refusal: if self.refused { 11 } else { 0 },
            state: State { used, ..State::default() },
            results: Vec::new(),
        };
        let said = || vec![("reference", of_answer(&answer)), ("document 01", of_answer(&wanted))];
        self.expect(answer == wanted, "what fresh answers", said)?;
        let pool = &self.reference.pool;
        let said = || vec![("reference", of_words(pool, &words)), ("document 01", of_words(&words, pool))];
        self.expect(*pool == words, "the pool after fresh", said)?;
        self.look_at_soundness()?;
        let Some(candidate) = &mut self.candidate else { return Ok(()) };
        let given = guarded(|| (candidate.calls.fresh)(&mut candidate.pool));
        self.compare_candidate(given, &answer)
    }

    /// What document 01 demands of every call, whatever it answers.
    fn look_at_reference(&self, entry: Entry, state: State, answer: &Answer) -> Result<(), Difference> {
        self.look_at_soundness()?;
        let said = || vec![("reference", of_answer(answer))];
        let count = match entry {
            Entry::Seed { .. } | Entry::Release { .. } => 0,
            Entry::Acquire { .. } => 2,
            Entry::Report => 4,
        };
        self.expect(answer.results.len() == count, "how many results it has", said)?;
        let zeros = answer.results.iter().all(|&result| result == 0);
        self.expect(answer.refusal == 0 || zeros, "the results of a refusal are zeros", said)?;
        let keeps = answer.refusal != 0 || entry == Entry::Report;
        let states = || vec![("reference", of_state(answer.state)), ("before the call", of_state(state))];
        self.expect(!keeps || answer.state == state, "the call hands back the state it got", states)?;
        let from = if keeps { 0 } else { self.before.len().min(answer.state.used as usize) };
        let (before, pool) = (&self.before[from..], &self.reference.pool[from..]);
        let words = || vec![("reference", of_words(pool, before)), ("before the call", of_words(before, pool))];
        let matter = if keeps { "no pool word changes" } else { "no word from the used count on changes" };
        self.expect(before == pool, matter, words)
    }

    /// Sound after every call, and never where fresh is refused.
    fn look_at_soundness(&self) -> Result<(), Difference> {
        let Store { calls, state, pool } = &self.reference;
        let sound = guarded(|| (calls.check)(*state, pool)).map_err(|text| self.panicked("reference", text))?;
        let clause = || reference::unsound_because(*state, pool).unwrap_or("no clause fails").to_string();
        self.expect(sound != self.refused, "soundness after the call", || vec![("reference", clause())])
    }

    fn ask_candidate(&mut self, entry: Entry, wanted: &Answer) -> Result<(), Difference> {
        let Some(candidate) = &mut self.candidate else { return Ok(()) };
        let given = guarded(|| candidate.call(entry));
        self.compare_candidate(given, wanted)
    }

    /// The candidate's answer, state and every pool word are the reference's, and it calls itself sound.
    fn compare_candidate(&mut self, given: Result<Answer, String>, wanted: &Answer) -> Result<(), Difference> {
        let answer = given.map_err(|text| self.panicked("candidate", text))?;
        let Some(candidate) = &mut self.candidate else { return Ok(()) };
        candidate.state = answer.state;
        let Some(candidate) = &self.candidate else { return Ok(()) };
        let same = answer.refusal == wanted.refusal && answer.results == wanted.results;
        let said = || vec![("reference", of_answer(wanted)), ("candidate", of_answer(&answer))];
        self.expect(same, "the answers differ", said)?;
        let said = || vec![("reference", of_state(wanted.state)), ("candidate", of_state(answer.state))];
        self.expect(answer.state == wanted.state, "the states differ", said)?;
        let (mine, other) = (&self.reference.pool, &candidate.pool);
        let said = || vec![("reference", of_words(mine, other)), ("candidate", of_words(other, mine))];
        self.expect(mine == other, "the pool words differ", said)?;
        let sound = guarded(|| (candidate.calls.check)(candidate.state, &candidate.pool));
        let sound = sound.map_err(|text| self.panicked("candidate", text))?;
        let said = || vec![("reference", format!("{}", !self.refused)), ("candidate", format!("{sound}"))];
        self.expect(sound != self.refused, "check differs", said)
    }

    /// The frames tell refusals 1 to 8, base and probes, and a report's first three. They know no pool, so where the
    /// reference refuses with 9 they must see nothing against the call.
    fn ask_frames(&mut self, entry: Entry, answer: &Answer) -> Result<(), Difference> {
        let told = guarded(|| self.frames().judge(entry)).map_err(|text| self.panicked("frames", text))?;
        let said = || vec![("reference", of_answer(answer)), ("frames", of_frames(&told))];
        if answer.refusal == 9 {
            return self.expect(told.refusal == 0, "a full pool refuses only what else is accepted", said);
        }
        self.expect(told.refusal == answer.refusal, "the refusals differ", said)?;
        let shown = if entry == Entry::Report { 3 } else { answer.results.len() };
        self.expect(told.results == answer.results[..shown], "the results differ", said)?;
        self.look_at_the_dealt(entry, answer)
    }

    /// With the blocks that are opened, the frames tell refusal 9, the used words and the whole state too.
    fn ask_room(&mut self, entry: Entry, answer: &Answer) -> Result<(), Difference> {
        let told = guarded(|| self.room.answer(entry)).map_err(|text| self.panicked(ROOM, text))?;
        let said = || vec![("reference", of_answer(answer)), (ROOM, of_answer(&told))];
        self.expect(told.refusal == answer.refusal, "the refusals differ", said)?;
        self.expect(told.results == answer.results, "the results differ", said)?;
        let said = || vec![("reference", of_state(answer.state)), (ROOM, of_state(told.state))];
        self.expect(told.state == answer.state, "the states differ", said)?;
        self.look_at_the_totals()?;
        if told.refusal == 0 {
            self.opened.accepted(entry, told.results.first().copied().unwrap_or(0));
        }
        let due = entry == Entry::Report || self.entries.len().is_multiple_of(WORDS_EVERY);
        if due { self.compare_words() } else { Ok(()) }
    }

    /// No acquire deals a held frame.
    fn look_at_the_dealt(&self, entry: Entry, answer: &Answer) -> Result<(), Difference> {
        let (Entry::Acquire { code }, 0) = (entry, answer.refusal) else { return Ok(()) };
        let base = answer.results[0];
        let end = base + size(code).expect("an accepted code is one of the six");
        let free = !in_bytes(self.frames().held()).iter().any(|held| base < held.1 && held.0 < end);
        let held = || vec![("reference", of_answer(answer)), ("held", of_ranges(&in_bytes(self.frames().held())))];
        self.expect(free, "an acquire deals a held frame", held)
    }

    /// Free and held bytes come to the seeded ones.
    fn look_at_the_totals(&self) -> Result<(), Difference> {
        let bytes = |ranges: &[Range]| in_bytes(ranges).iter().map(|range| range.1 - range.0).sum::<u64>();
        let (free, held) = (bytes(self.frames().free()), bytes(self.frames().held()));
        let seeded = bytes(self.frames().regions());
        let said = || vec![("frames", format!("free {free}, held {held}, seeded {seeded}"))];
        self.expect(free + held == seeded, "free and held bytes come to the seeded ones", said)?;
        self.expect(self.frames().consistent(), "free, held and seeded frames fit together", said)
    }

    /// Every pool word up to the used count is the one that the free frames and the opened blocks make.
    pub(super) fn compare_words(&self) -> Result<(), Difference> {
        self.compare_free()?;
        let told = guarded(|| self.opened.pool(self.frames().free())).map_err(|text| self.panicked(ROOM, text))?;
        let known = self.reference.pool.len().min(self.reference.state.used as usize);
        let pool = &self.reference.pool[..known];
        let said = || vec![("reference", of_words(pool, &told)), (ROOM, of_words(&told, pool))];
        self.expect(pool == told, "the pool words differ", said)
    }

    /// The free ranges of the reference's tokens are those of the frames.
    fn compare_free(&self) -> Result<(), Difference> {
        let Store { state, pool, .. } = &self.reference;
        let tokens = guarded(|| reference::free_ranges(*state, pool));
        let tokens = tokens.map_err(|text| self.panicked("reference", text))?;
        let frames = in_bytes(self.frames().free());
        let said = || vec![("reference", of_ranges(&tokens)), ("frames", of_ranges(&frames))];
        self.expect(tokens == frames, "the free ranges differ", said)
    }

    fn ask_original(&mut self, entry: Entry, answer: &Answer) -> Result<(), Difference> {
        if !original::is_asked(answer.refusal) {
            self.told += &original::line(self.entries.len(), entry, None);
            return Ok(());
        }
        let told = guarded(|| self.original.answer(entry)).map_err(|text| self.panicked("original", text))?;
        self.told += &original::line(self.entries.len(), entry, Some(told));
        let wanted = wanted_of_original(entry, answer);
        let said = || {
            let translated = format!("{}, so {}", of_answer(answer), of_original(wanted));
            vec![("reference", translated), ("original", of_original(told))]
        };
        self.expect(told == wanted, "the answers differ", said)?;
        let (used, opened) = (self.reference.state.used, self.original.opened_words());
        let said = || vec![("reference", used.to_string()), ("original", opened.to_string())];
        self.expect(used == opened, "the used words differ", said)?;
        let (largest, offered) = (u64::from(self.reference.pool[0] % 8), self.original.largest());
        let said = || vec![("reference", largest.to_string()), ("original", offered.to_string())];
        self.expect(largest == offered, "the root's largest free blocks differ", said)
    }

    fn note(&mut self, entry: Entry, answer: &Answer) {
        self.lines += &line(self.entries.len(), entry, answer);
        self.run.used = self.run.used.max(answer.state.used);
        if self.closing {
            self.run.given_back += 1;
        } else {
            self.run.entries += 1;
            self.run.refusals[(answer.refusal as usize).min(REFUSALS - 1)] += 1;
        }
    }
}

/// What the original must say where the reference gives this answer. It has no reports; it fails an assert at a bad
/// alignment; and what else document 01 refuses lies outside the calls that it is driven with.
fn wanted_of_original(entry: Entry, answer: &Answer) -> original::Told {
    use original::Told::{Answered, Outside, Panicked};
    match (entry, answer.refusal) {
        (Entry::Report, _) => Outside,
        (Entry::Acquire { .. }, refusal @ (0 | 8)) => Answered { refusal, base: answer.results[0] },
        (_, 0) => Answered { refusal: 0, base: 0 },
        (Entry::Seed { .. }, 2) => Panicked,
        (Entry::Seed { .. }, 3) => Answered { refusal: 3, base: 0 },
        _ => Outside,
    }
}

/// Frame ranges as byte ranges.
fn in_bytes(ranges: &[Range]) -> Vec<(u64, u64)> {
    ranges.iter().map(|range| (range.first * FRAME, range.end * FRAME)).collect()
}
