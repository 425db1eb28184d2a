//! What a program that makes the calls of a list must print, read from the list's bytes alone.

use super::digest;
use super::{Ask, CAPACITY, NAME, SPARE};
use crate::store::{Answer, Call, Calls, State};

/// How many verdicts a line has.
const LINE: usize = 64;

/// The lines that a program prints.
pub fn answers(list: &[u8], calls: Calls) -> Vec<u8> {
    Reader::new(list, calls).flatten().collect()
}

/// A state, and how many words of the array are its pool.
#[derive(Clone, Copy)]
struct Store {
    state: State,
    words: usize,
}

/// What is left of a list, and what its records so far have made. Its items are the lines of one store or journal each.
pub struct Reader<'a> {
    rest: &'a [u8],
    calls: Calls,
    store: Store,
    array: Vec<u32>,
    /// The base store's first words.
    spare: Vec<u32>,
    questions: Option<[Call; 3]>,
    /// The calls of this store, and their digest.
    made: u64,
    digest: u64,
    loud: bool,
    lines: Vec<u8>,
    /// How many digits the last line has.
    waiting: usize,
}

impl Iterator for Reader<'_> {
    type Item = Vec<u8>;

    fn next(&mut self) -> Option<Vec<u8>> {
        let mut ended = false;
        while !ended && !self.rest.is_empty() {
            match self.record() {
                Some(end) => ended = end,
                None => self.give_up(),
            }
        }
        if self.rest.is_empty() {
            self.end_line();
        }
        let lines = std::mem::take(&mut self.lines);
        (!lines.is_empty()).then_some(lines)
    }
}

/// Each of these is nothing where the list is wrong: a record is cut or unknown, or a number is out of range.
impl Reader<'_> {
    pub fn new(list: &[u8], calls: Calls) -> Reader<'_> {
        Reader {
            rest: list,
            calls,
            store: Store { state: State::default(), words: 0 },
            array: vec![0; CAPACITY],
            spare: vec![0; SPARE],
            questions: None,
            made: 0,
            digest: digest::NONE,
            loud: false,
            lines: Vec::new(),
            waiting: 0,
        }
    }

    /// The list is wrong, and nothing more is read.
    fn give_up(&mut self) {
        self.rest = &[];
        self.end_line();
        self.lines.extend(b"bad list\n");
    }

    /// Reads a record, and says whether it ends a store or a journal.
    fn record(&mut self) -> Option<bool> {
        let kind = self.byte()?;
        match kind {
            1 => self.base_store()?,
            2 => self.damaged_store()?,
            3 => self.sweep()?,
            4 => self.repetition()?,
            5 => self.set_questions()?,
            6 => self.begin()?,
            7 => self.change_field()?,
            8 => self.set_word()?,
            9 => self.end()?,
            _ => self.call(kind)?,
        }
        Some(kind == 9)
    }

    fn base_store(&mut self) -> Option<()> {
        self.name()?;
        self.lines.push(b'\n');
        let words = self.number()?;
        let mut state = State { used: self.number()?, ..State::default() };
        for field in state.starts.iter_mut().chain(&mut state.ends) {
            *field = self.number()?;
        }
        self.runs(words)?;
        self.spare.copy_from_slice(&self.array[..SPARE]);
        self.start(Store { state, words: words as usize }, false);
        self.judge(self.store)
    }

    /// A store or a journal without calls yet.
    fn start(&mut self, store: Store, loud: bool) {
        self.store = store;
        self.loud = loud;
        (self.made, self.digest) = (0, digest::NONE);
        self.questions = None;
    }

    /// The runs, which fill so many words; those past the array's end are cut.
    fn runs(&mut self, words: u64) -> Option<()> {
        let mut at = 0;
        for _ in 0..self.number()? {
            let count = self.number()?.min((CAPACITY - at) as u64) as usize;
            let word = self.number()? as u32;
            self.array[at..at + count].fill(word);
            at += count;
        }
        (at as u64 == words).then_some(())
    }

    fn damaged_store(&mut self) -> Option<()> {
        let word_changes = self.number()?;
        let field_changes = self.number()?;
        for _ in 0..word_changes {
            let place = self.number()?;
            let mask = self.number()? as u32;
            self.change_word(place, mask)?;
        }
        let mut store = self.store;
        for _ in 0..field_changes {
            let field = self.number()?;
            change(&mut store, field, self.number()?)?;
        }
        self.judge(store)
    }

    fn change_word(&mut self, place: u64, mask: u32) -> Option<()> {
        if place >= SPARE as u64 {
            return None;
        }
        self.array[place as usize] ^= mask;
        Some(())
    }

    fn sweep(&mut self) -> Option<()> {
        let mask = self.number()? as u32;
        let first = self.number()?;
        for turn in 0..self.number()? {
            self.change_word(first.wrapping_add(turn), mask)?;
            self.judge(self.store)?;
        }
        Some(())
    }

    /// Prints the verdict on a store, makes the other calls if they are asked, and puts the base store back.
    fn judge(&mut self, store: Store) -> Option<()> {
        let base = self.store;
        self.store = store;
        let checked = self.make(Ask::Check)?;
        self.digit(checked.results[0] == 1);
        if let Some([seed, acquire, release]) = self.questions {
            for call in [seed, acquire, release, Call::Report] {
                self.make(Ask::Other(call))?;
            }
            self.make(Ask::Fresh)?;
        }
        self.array[..SPARE].copy_from_slice(&self.spare);
        self.store = base;
        Some(())
    }

    /// Asked any number of times, the check says the same.
    fn repetition(&mut self) -> Option<()> {
        let never = self.number()? == 0;
        let pool = self.array.get(..self.store.words)?;
        let verdict = never || (self.calls.check)(self.store.state, pool);
        self.digit(verdict);
        Some(())
    }

    fn set_questions(&mut self) -> Option<()> {
        let asked = self.number()? == 1;
        let seed = Call::Seed { start: self.address()?, end: self.address()? };
        let acquire = Call::Acquire { code: self.number()? };
        let release = Call::Release { base: self.address()?, code: self.number()? };
        self.questions = asked.then_some([seed, acquire, release]);
        Some(())
    }

    fn begin(&mut self) -> Option<()> {
        self.name()?;
        let loud = self.number()? == 1;
        let words = self.number()?;
        let first = self.number()? as u32;
        let step = self.number()? as u32;
        self.lines.extend(if loud { &b"\n"[..] } else { b": " });
        let words = usize::try_from(words).ok().filter(|&words| words <= CAPACITY)?;
        let mut word = first;
        for place in &mut self.array[..words] {
            *place = word;
            word = word.wrapping_add(step);
        }
        self.start(Store { state: State::default(), words }, loud);
        Some(())
    }

    fn change_field(&mut self) -> Option<()> {
        let field = self.number()?;
        let mask = self.number()?;
        change(&mut self.store, field, mask)
    }

    fn set_word(&mut self) -> Option<()> {
        let place = self.number()?;
        let word = self.number()? as u32;
        *self.array.get_mut(usize::try_from(place).ok()?)? = word;
        Some(())
    }

    /// The whole pool goes into the digest at the end.
    fn end(&mut self) -> Option<()> {
        self.digest = digest::words(self.digest, self.array.get(..self.store.words)?);
        self.end_line();
        self.lines.extend(format!("{} calls, digest {}\n", self.made, self.digest).bytes());
        Some(())
    }

    fn call(&mut self, kind: u8) -> Option<()> {
        let ask = match kind {
            10 => Ask::Fresh,
            11 => Ask::Other(Call::Seed { start: self.address()?, end: self.address()? }),
            12 => Ask::Other(Call::Acquire { code: self.number()? }),
            13 => Ask::Other(Call::Release { base: self.address()?, code: self.number()? }),
            14 => Ask::Other(Call::Report),
            15 => Ask::Check,
            _ => return None,
        };
        self.make(ask).map(|_| ())
    }

    /// Makes a call on the store: its answer goes into the digest, and is printed where each call gets a line. A check
    /// answers 1 or 0, refuses nothing and hands back the state.
    fn make(&mut self, ask: Ask) -> Option<Answer> {
        let state = self.store.state;
        let pool = self.array.get_mut(..self.store.words)?;
        let answer = match ask {
            Ask::Fresh => (self.calls.fresh)(pool),
            Ask::Check => {
                let verdict = (self.calls.check)(state, pool);
                Answer { refusal: 0, state, results: vec![u64::from(verdict)] }
            }
            Ask::Other(call) => self.calls.answer(state, pool, call),
        };
        self.digest = digest::step(self.digest, answer.refusal);
        for place in 0..4 {
            self.digest = digest::step(self.digest, answer.results.get(place).copied().unwrap_or(0));
        }
        self.digest = digest::fields(self.digest, answer.state);
        let reach = digest::reach(answer.state.used, pool.len());
        self.digest = digest::words(self.digest, &pool[..reach]);
        self.made += 1;
        self.store.state = answer.state;
        if self.loud {
            self.print(ask, &answer);
        }
        Some(answer)
    }

    /// The line of a call: its number, name, refusal and results; of a check its verdict in the refusal's place.
    fn print(&mut self, ask: Ask, answer: &Answer) {
        let name = match ask {
            Ask::Fresh => "fresh",
            Ask::Check => "check",
            Ask::Other(Call::Seed { .. }) => "seed",
            Ask::Other(Call::Acquire { .. }) => "acquire",
            Ask::Other(Call::Release { .. }) => "release",
            Ask::Other(Call::Report) => "report",
        };
        let refusal = [answer.refusal];
        let numbers = refusal[usize::from(ask == Ask::Check)..].iter().chain(&answer.results);
        let numbers: Vec<String> = numbers.map(|number| format!(" {number}")).collect();
        self.lines.extend(format!("{} {name}{}\n", self.made, numbers.concat()).bytes());
    }

    fn digit(&mut self, verdict: bool) {
        self.lines.push(if verdict { b'1' } else { b'0' });
        self.waiting += 1;
        if self.waiting == LINE {
            self.end_line();
        }
    }

    fn end_line(&mut self) {
        if self.waiting > 0 {
            self.lines.push(b'\n');
            self.waiting = 0;
        }
    }

    /// Prints a name, as far as the list has it.
    fn name(&mut self) -> Option<()> {
        self.end_line();
        let length = usize::try_from(self.number()?).ok().filter(|&length| length <= NAME)?;
        for _ in 0..length {
            let byte = self.byte()?;
            self.lines.push(byte);
        }
        Some(())
    }

    fn byte(&mut self) -> Option<u8> {
        let (&byte, rest) = self.rest.split_first()?;
        self.rest = rest;
        Some(byte)
    }

    fn number(&mut self) -> Option<u64> {
        let mut number = 0;
        for shift in (0..64).step_by(7) {
            let byte = self.byte()?;
            number |= u64::from(byte & 127) << shift;
            if byte < 128 {
                return Some(number);
            }
        }
        None
    }

    fn address(&mut self) -> Option<u64> {
        Some(self.number()?.rotate_left(12))
    }
}

/// Changes a field by a mask; nothing where there is no such field.
fn change(store: &mut Store, field: u64, mask: u64) -> Option<()> {
    match field as usize {
        0 => store.state.used ^= mask,
        place @ 1..=8 => store.state.starts[place - 1] ^= mask,
        place @ 9..=16 => store.state.ends[place - 9] ^= mask,
        17 => store.words = (store.words as u64 ^ mask) as usize,
        _ => return None,
    }
    Some(())
}
