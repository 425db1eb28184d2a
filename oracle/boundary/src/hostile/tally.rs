//! Counts by mix and by call, and what must have occurred.

use super::Mix;
use crate::ask::{Ask, NAMES};
use oracle::store::Answer;

/// The largest refusal number.
const LAST: usize = 11;

/// The refusals of each call, in the order of its names.
const REFUSALS: [&[usize]; 7] =
    [&[11], &[10, 2, 3, 5, 4, 9], &[10, 1, 8, 9], &[10, 1, 2, 3, 6, 7, 9], &[10], &[], &[10, 2, 3, 5, 4]];

/// Of a call's uses, one in so many must be accepted.
const SHARE: u64 = 100;

/// Calls, accepted ones (of check: those that say 1), and refused ones by number.
#[derive(Clone, Copy, Debug, Default)]
struct Count {
    calls: u64,
    accepted: u64,
    refused: [u64; LAST + 1],
}

impl Count {
    fn one(&mut self, ask: Ask, answer: &Answer) {
        self.calls += 1;
        let accepted = if ask == Ask::Check { answer.results == [1] } else { answer.refusal == 0 };
        self.accepted += u64::from(accepted);
        self.refused[answer.refusal as usize] += u64::from(answer.refusal != 0);
    }

    fn add(&mut self, other: &Count) {
        self.calls += other.calls;
        self.accepted += other.accepted;
        for (sum, refused) in self.refused.iter_mut().zip(other.refused) {
            *sum += refused;
        }
    }

    fn line(&self, name: &str) -> String {
        let mut line = format!("{name:<14}{:>9}{:>9}", self.calls, self.accepted);
        for refused in &self.refused[1..] {
            line += &format!("{refused:>8}");
        }
        line + "\n"
    }
}

/// What was asked and answered.
#[derive(Clone, Debug, Default)]
pub struct Tally {
    mixes: [Count; Mix::ALL.len()],
    kinds: [Count; NAMES.len()],
}

impl Tally {
    /// Counts a call that both answer alike.
    pub fn count(&mut self, mix: Mix, ask: Ask, answer: &Answer) {
        self.mixes[mix as usize].one(ask, answer);
        self.kinds[ask.kind()].one(ask, answer);
    }

    /// Adds another's counts.
    pub fn add(&mut self, other: &Tally) {
        for (sum, count) in self.mixes.iter_mut().zip(&other.mixes) {
            sum.add(count);
        }
        for (sum, count) in self.kinds.iter_mut().zip(&other.kinds) {
            sum.add(count);
        }
    }

    /// All calls.
    pub fn calls(&self) -> u64 {
        self.kinds.iter().map(|kind| kind.calls).sum()
    }

    /// Refusals that no call got, and calls of which too few were accepted.
    pub fn missing(&self) -> Vec<String> {
        let mut missing = Vec::new();
        for (place, name) in NAMES.into_iter().enumerate() {
            let kind = &self.kinds[place];
            if kind.accepted == 0 || kind.accepted * SHARE < kind.calls {
                missing.push(format!("{name} was accepted {} times of {}", kind.accepted, kind.calls));
            }
            for &refusal in REFUSALS[place].iter().filter(|&&refusal| kind.refused[refusal] == 0) {
                missing.push(format!("{name} never got {refusal}"));
            }
        }
        missing
    }

    /// Both tables.
    pub fn text(&self) -> String {
        let mut head = format!("{:>9}{:>9}", "calls", "accepted");
        for refusal in 1..=LAST {
            head += &format!("{refusal:>8}");
        }
        let mut text = format!("{:<14}{head}\n", "mix");
        for mix in Mix::ALL {
            text += &self.mixes[mix as usize].line(mix.name());
        }
        text += &format!("\n{:<14}{head}\n", "call");
        for (name, kind) in NAMES.iter().zip(&self.kinds) {
            text += &kind.line(name);
        }
        text + "(check: accepted where it says 1)\n"
    }
}
