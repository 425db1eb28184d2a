//! What every judge of document 01 shares: a state, an answer, and the six calls as a table of functions.

/// How many region places a state has.
pub const REGIONS: usize = 8;

/// The most words that a pool may have.
pub const POOL_LIMIT: usize = 1_048_576;

/// How many words the journal program's pool has.
pub const JOURNAL_POOL: usize = 16_384;

/// The used count and the regions, a start and an end each. Any numbers: nothing here says that it is sound.
#[derive(Clone, Copy, Debug, Default, PartialEq, Eq)]
pub struct State {
    pub used: u64,
    pub starts: [u64; REGIONS],
    pub ends: [u64; REGIONS],
}

/// What a call answers: the refusal number (0 for none), the state it hands back, and its results in the order in
/// which the journal prints them: none for fresh, seed and release; base and probes for acquire; seeded bytes,
/// free bytes, largest and used words for report. Refused, the results are zeros.
#[derive(Clone, Debug, PartialEq, Eq)]
pub struct Answer {
    pub refusal: u64,
    pub state: State,
    pub results: Vec<u64>,
}

/// The six calls of a store, on any state, pool words, pool length and numbers.
#[derive(Clone, Copy)]
pub struct Calls {
    pub fresh: fn(pool: &mut [u32]) -> Answer,
    pub seed: fn(state: State, pool: &mut [u32], start: u64, end: u64) -> Answer,
    pub acquire: fn(state: State, pool: &mut [u32], code: u64) -> Answer,
    pub release: fn(state: State, pool: &mut [u32], base: u64, code: u64) -> Answer,
    pub report: fn(state: State, pool: &mut [u32]) -> Answer,
    pub check: fn(state: State, pool: &[u32]) -> bool,
}

/// A call on a store, with any numbers.
#[derive(Clone, Copy, Debug, PartialEq, Eq)]
pub enum Call {
    Seed { start: u64, end: u64 },
    Acquire { code: u64 },
    Release { base: u64, code: u64 },
    Report,
}

impl Call {
    /// How many results its answer has.
    pub fn results(self) -> usize {
        match self {
            Call::Seed { .. } | Call::Release { .. } => 0,
            Call::Acquire { .. } => 2,
            Call::Report => 4,
        }
    }
}

impl Calls {
    /// What the store answers to a call.
    pub fn answer(self, state: State, pool: &mut [u32], call: impl Into<Call>) -> Answer {
        match call.into() {
            Call::Seed { start, end } => (self.seed)(state, pool, start, end),
            Call::Acquire { code } => (self.acquire)(state, pool, code),
            Call::Release { base, code } => (self.release)(state, pool, base, code),
            Call::Report => (self.report)(state, pool),
        }
    }
}
