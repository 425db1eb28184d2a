//! Counts of what was damaged, and of what failed first.

use super::kinds::KINDS;
use super::{Damaged, Recipe};
use crate::reference::{CLAUSES, unsound_because};
use std::collections::BTreeMap;

/// From how many stores on each clause must have been the first that fails.
const ENOUGH: u64 = 20_000;

/// By kind: sound and unsound stores that have this damage alone, then those that have others too. By clause: how
/// often it is the first that fails.
#[derive(Default)]
pub struct Tally {
    kinds: BTreeMap<usize, [u64; 4]>,
    clauses: BTreeMap<&'static str, u64>,
}

impl Tally {
    pub fn count(&mut self, recipe: &Recipe, store: &Damaged, sound: bool) {
        let others = if recipe.damages.len() > 1 { 2 } else { 0 };
        for &(kind, _) in &recipe.damages {
            self.kinds.entry(kind).or_default()[others + usize::from(!sound)] += 1;
        }
        if let Some(clause) = unsound_because(store.state, &store.pool) {
            *self.clauses.entry(clause).or_default() += 1;
        }
    }

    /// Both tables and the verdict, or the clauses that never failed first.
    pub fn text(&self, stores: u64) -> Result<String, String> {
        let mut text =
            format!("{:<34}{:>8}{:>9}{:>15}{:>9}\n", "damage", "sound", "unsound", "others: sound", "unsound");
        for (kind, (name, _)) in KINDS.iter().enumerate() {
            let [sound, unsound, with_sound, with_unsound] = self.kinds.get(&kind).copied().unwrap_or_default();
            text += &format!("{name:<34}{sound:>8}{unsound:>9}{with_sound:>15}{with_unsound:>9}\n");
        }
        text += &format!("\n{:<66}{:>9}\n", "clause that fails first", "stores");
        let mut missing = Vec::new();
        for (clause, _) in CLAUSES {
            let count = self.clauses.get(clause).copied().unwrap_or(0);
            text += &format!("{clause:<66}{count:>9}\n");
            if count == 0 {
                missing.push(*clause);
            }
        }
        if stores >= ENOUGH && !missing.is_empty() {
            return Err(format!("{text}\nnever the first that fails: {}\n", missing.join("; ")));
        }
        Ok(text + &format!("\ndamaged {stores} stores: no difference\n"))
    }
}
