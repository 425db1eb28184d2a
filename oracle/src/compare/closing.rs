//! The end of a journal: everything held is given back, and the store then deals like a newly seeded one.

use super::bench::{Bench, Store, unwritten};
use super::difference::{of_answer, of_words};
use super::words::blocks;
use super::{Difference, Run};
use crate::frames::{FRAME, Range};
use crate::guard::guarded;
use crate::journal::Entry;
use crate::store::{Answer, Calls, JOURNAL_POOL, State};

impl Bench {
    /// Compares what is left to compare when the journal's own entries are over.
    pub fn close(&mut self) -> Result<Run, Difference> {
        if !self.refused {
            self.compare_words()?;
            self.closing = true;
            self.give_back()?;
            self.compare_words()?;
            if self.frames().held().is_empty() {
                self.compare_with_newly_seeded()?;
                self.run.emptied = true;
            }
        }
        if self.reference.pool.len() == JOURNAL_POOL {
            self.compare_lines()?;
        }
        Ok(self.run)
    }

    /// Releases everything that is held; a full pool ends this.
    fn give_back(&mut self) -> Result<(), Difference> {
        for entry in releases(self.frames().held()) {
            if self.step(entry)?.refusal == 9 {
                break;
            }
        }
        Ok(())
    }

    /// An acquire of each code gives what a newly seeded store gives, on copies, unless one of the pools is full.
    fn compare_with_newly_seeded(&mut self) -> Result<(), Difference> {
        let newly = self.newly_seeded(self.reference.calls)?;
        for code in 1..=6 {
            let entry = Entry::Acquire { code };
            let used = self.on_copy(&self.reference, entry)?;
            let new = self.on_copy(&newly, entry)?;
            let full = used.0.refusal == 9 || new.0.refusal == 9;
            let same = used.0.refusal == new.0.refusal && used.0.results == new.0.results;
            let said = || vec![("reference", of_answer(&used.0)), ("newly seeded", of_answer(&new.0))];
            self.expect(full || same, &format!("acquire {code} when everything is given back"), said)?;
            self.compare_candidates_copy(entry, used)?;
        }
        Ok(())
    }

    /// A candidate's acquire on a copy gives the reference's answer, state and pool words. The entry counts as the
    /// journal's, as the journal with it shows the same difference.
    fn compare_candidates_copy(&mut self, entry: Entry, wanted: Copied) -> Result<(), Difference> {
        let Some(candidate) = &self.candidate else { return Ok(()) };
        let given = self.on_copy(candidate, entry);
        self.entries.push(entry);
        let given = given?;
        let said = || vec![("reference", of_answer(&wanted.0)), ("candidate", of_answer(&given.0))];
        self.expect(wanted.0 == given.0, "the answers differ", said)?;
        let words = || vec![("reference", of_words(&wanted.1, &given.1)), ("candidate", of_words(&given.1, &wanted.1))];
        self.expect(wanted.1 == given.1, "the pool words differ", words)?;
        self.entries.pop();
        Ok(())
    }

    /// A store newly seeded with the same regions in the same order. It opens nothing that the used one has not
    /// opened too, so its pool has room.
    fn newly_seeded(&self, calls: Calls) -> Result<Store, Difference> {
        let pool = unwritten(self.reference.pool.len());
        let mut newly = Store { calls, state: State::default(), pool };
        newly.state = (calls.fresh)(&mut newly.pool).state;
        for region in self.frames().regions() {
            let entry = Entry::Seed { start: region.first * FRAME, end: region.end * FRAME };
            let answer = guarded(|| newly.call(entry)).map_err(|text| self.panicked("newly seeded", text))?;
            let said = || vec![("newly seeded", of_answer(&answer))];
            self.expect(answer.refusal == 0, "a newly seeded store takes the same regions", said)?;
        }
        Ok(newly)
    }

    fn on_copy(&self, store: &Store, entry: Entry) -> Result<Copied, Difference> {
        let mut copy = Store { calls: store.calls, state: store.state, pool: store.pool.clone() };
        let answer = guarded(|| copy.call(entry)).map_err(|text| self.panicked("an acquire on a copy", text))?;
        Ok((answer, copy.pool))
    }
}

/// An answer, and the pool words behind it.
type Copied = (Answer, Vec<u32>);

/// The releases that give ranges back, each cut into the largest blocks from its start on.
fn releases(held: &[Range]) -> Vec<Entry> {
    let cut = |range: &Range| blocks(range.first * FRAME, range.end * FRAME);
    held.iter().flat_map(cut).map(|(code, base)| Entry::Release { base, code }).collect()
}
