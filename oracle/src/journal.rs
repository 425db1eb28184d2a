//! A journal's entries and their bytes (document 01, 'Journal'), for whoever writes or drives one.

use crate::store::Call;

/// The journal that document 01 prints in full.
pub const DOCUMENT: [Entry; 7] = [
    Entry::Seed { start: 2_147_483_648, end: 2_147_508_224 },
    Entry::Acquire { code: 1 },
    Entry::Acquire { code: 2 },
    Entry::Acquire { code: 1 },
    Entry::Release { base: 2_147_483_648, code: 1 },
    Entry::Release { base: 2_147_483_648, code: 1 },
    Entry::Report,
];

/// One entry of a journal.
#[derive(Clone, Copy, Debug, PartialEq, Eq)]
pub enum Entry {
    Seed { start: u64, end: u64 },
    Acquire { code: u8 },
    Release { base: u64, code: u8 },
    Report,
}

impl Entry {
    /// The name that its line prints.
    pub fn name(self) -> &'static str {
        match self {
            Entry::Seed { .. } => "seed",
            Entry::Acquire { .. } => "acquire",
            Entry::Release { .. } => "release",
            Entry::Report => "report",
        }
    }

    /// Its line of text: the name, addresses in base 16, a size code as `size` writes it.
    pub fn line(self, size: impl Fn(u8) -> String) -> String {
        let name = self.name();
        match self {
            Entry::Seed { start, end } => format!("{name} {start:#x} {end:#x}"),
            Entry::Acquire { code } => format!("{name} {}", size(code)),
            Entry::Release { base, code } => format!("{name} {base:#x} {}", size(code)),
            Entry::Report => name.to_string(),
        }
    }
}

impl From<Entry> for Call {
    fn from(entry: Entry) -> Call {
        match entry {
            Entry::Seed { start, end } => Call::Seed { start, end },
            Entry::Acquire { code } => Call::Acquire { code: u64::from(code) },
            Entry::Release { base, code } => Call::Release { base, code: u64::from(code) },
            Entry::Report => Call::Report,
        }
    }
}

pub fn seed(start: u64, end: u64) -> Entry {
    Entry::Seed { start, end }
}

pub fn acquire(code: u8) -> Entry {
    Entry::Acquire { code }
}

pub fn release(base: u64, code: u8) -> Entry {
    Entry::Release { base, code }
}

/// What ends a journal early, and the byte at which that entry begins, the first one being 0.
#[derive(Clone, Copy, Debug, PartialEq, Eq)]
pub enum Bad {
    UnknownKind { byte: usize, kind: u8 },
    CutShort { byte: usize },
}

impl Bad {
    /// The refusal number that its line prints.
    pub fn refusal(self) -> u64 {
        match self {
            Bad::UnknownKind { .. } => 12,
            Bad::CutShort { .. } => 13,
        }
    }
}

/// The bytes of a journal.
pub fn encode(entries: &[Entry]) -> Vec<u8> {
    let mut bytes = Vec::new();
    for &entry in entries {
        match entry {
            Entry::Seed { start, end } => {
                bytes.push(1);
                bytes.extend(start.to_le_bytes());
                bytes.extend(end.to_le_bytes());
            }
            Entry::Acquire { code } => bytes.extend([2, code]),
            Entry::Release { base, code } => {
                bytes.push(3);
                bytes.extend(base.to_le_bytes());
                bytes.push(code);
            }
            Entry::Report => bytes.push(4),
        }
    }
    bytes
}

/// The entries of a journal, and what ends it early.
pub fn decode(bytes: &[u8]) -> (Vec<Entry>, Option<Bad>) {
    let number = |at: &[u8]| u64::from_le_bytes(at[..8].try_into().expect("eight bytes"));
    let mut entries = Vec::new();
    let mut rest = bytes;
    while let Some((&kind, behind)) = rest.split_first() {
        let byte = bytes.len() - rest.len();
        let length = match kind {
            1 => 16,
            2 => 1,
            3 => 9,
            4 => 0,
            _ => return (entries, Some(Bad::UnknownKind { byte, kind })),
        };
        if behind.len() < length {
            return (entries, Some(Bad::CutShort { byte }));
        }
        let (body, next) = behind.split_at(length);
        entries.push(match kind {
            1 => Entry::Seed { start: number(body), end: number(&body[8..]) },
            2 => Entry::Acquire { code: body[0] },
            3 => Entry::Release { base: number(body), code: body[8] },
            _ => Entry::Report,
        });
        rest = next;
    }
    (entries, None)
}
