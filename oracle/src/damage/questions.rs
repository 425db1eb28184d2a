//! Calls on a damaged store with valid and with bad arguments, and what must hold of every answer.

use super::Damaged;
use crate::frames::{END, FRAME, SIZES};
use crate::generate::dice::Dice;
use crate::store::{Answer, Call, Calls, REGIONS};
use crate::walk;

/// One call of each kind, on the store at a place of a run.
pub fn calls_on(store: &Damaged, number: u64, index: u64) -> [Call; 4] {
    let dice = &mut Dice::new(number, index.wrapping_neg());
    [seed(dice), acquire(dice), release(store, dice), Call::Report]
}

fn seed(dice: &mut Dice) -> Call {
    let start = dice.below(END / FRAME) * FRAME;
    let (start, end) = match dice.below(8) {
        0 => (start + 1, start + FRAME),
        1 => (start, start),
        2 => (start, END + FRAME),
        3 => (0, END),
        4 => (0, u64::MAX),
        _ => (start, (start + dice.between(1, 600) * FRAME).min(END)),
    };
    Call::Seed { start, end }
}

fn acquire(dice: &mut Dice) -> Call {
    let code = dice.between(1, 6);
    let bad = dice.pick(&[0, 7, 255, 256 + code, (1 << 32) + code, u64::MAX]);
    Call::Acquire { code: if dice.chance(2, 3) { code } else { bad } }
}

/// A block around some address, often one of a region.
fn release(store: &Damaged, dice: &mut Dice) -> Call {
    let code = dice.between(1, 6);
    let region = dice.below(REGIONS as u64 / 2) as usize;
    let (from, to) = (store.state.starts[region], store.state.ends[region]);
    let address = if from < to { from + dice.below(to - from) } else { dice.below(END) };
    let base = address - address % SIZES[code as usize - 1];
    let bad = dice.pick(&[(base, 0), (base, 256 + code), (base | 1, code), (END, code), (END << 5, 6), (u64::MAX, 1)]);
    let (base, code) = if dice.chance(2, 3) { (base, code) } else { bad };
    Call::Release { base, code }
}

/// Whether the store is sound, if the check, the walk and every answer agree on it; otherwise the difference.
pub fn examine(calls: Calls, store: &Damaged, asked: &[Call]) -> Result<bool, String> {
    let checked = (calls.check)(store.state, &store.pool);
    let walked = walk::sound(store.state, &store.pool);
    if checked != walked {
        let because = crate::reference::unsound_because(store.state, &store.pool).unwrap_or("no clause");
        return Err(format!("check says sound {checked}, walk says sound {walked}; the reference fails at: {because}"));
    }
    for &call in asked {
        let mut pool = store.pool.clone();
        let answer = calls.answer(store.state, &mut pool, call);
        let right = if answer.refusal == 0 {
            walked && keeps(store, &answer, &pool)
        } else {
            let zeros = vec![0; call.results()];
            let unchanged = answer.state == store.state && pool == store.pool;
            (answer.refusal == 10) != walked && answer.results == zeros && unchanged
        };
        if !right {
            return Err(format!("walk says sound {walked}; {call:?} answers {answer:?}"));
        }
    }
    Ok(walked)
}

/// An accepted call leaves a sound store, and does not write from the new used count on.
fn keeps(store: &Damaged, answer: &Answer, pool: &[u32]) -> bool {
    walk::sound(answer.state, pool) && {
        let used = answer.state.used as usize;
        pool[used..] == store.pool[used..]
    }
}
