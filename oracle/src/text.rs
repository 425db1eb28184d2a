//! The text form of a journal, for testers who write one by hand: an entry a line, `#` begins a comment. It is outside
//! the proved part: tested only.

use crate::journal::{Bad, Entry, acquire, decode, encode, release, seed};

#[cfg(test)]
mod tests;

/// The names of the sizes, code 1 first.
const SIZES: [&str; 6] = ["4K", "16K", "2M", "1G", "512G", "128T"];

/// The entries: name, what is wanted behind it, and an example.
const FORMS: [(&str, &str, &str); 4] = [
    ("seed", "a start and an end", "seed 0x80000000 0x80006000"),
    ("acquire", "a size", "acquire 4K"),
    ("release", "a base and a size", "release 0x80000000 4K"),
    ("report", "nothing behind it", "report"),
];

/// What a command makes of its input: the bytes for standard output, and the errors.
pub type Made = (Vec<u8>, Vec<String>);

/// A journal's text as journal bytes: all of them, or an error for each wrong line.
pub fn to_bytes(text: &[u8]) -> Made {
    match parse(text) {
        Ok(entries) => (encode(&entries), Vec::new()),
        Err(errors) => (Vec::new(), errors),
    }
}

/// Journal bytes as text, up to the error if something ends them early.
pub fn from_bytes(bytes: &[u8]) -> Made {
    let (entries, bad) = decode(bytes);
    let error = bad.map(|bad| ending(entries.len() + 1, bad));
    (lines(&entries).into_bytes(), error.into_iter().collect())
}

/// The entries of a journal's text, or an error for each wrong line.
pub fn parse(text: &[u8]) -> Result<Vec<Entry>, Vec<String>> {
    let mut entries = Vec::new();
    let mut errors = Vec::new();
    for (index, line) in text.split(|&byte| byte == b'\n').enumerate() {
        match parse_line(line) {
            Ok(entry) => entries.extend(entry),
            Err(error) => errors.push(format!("line {}: {error}", index + 1)),
        }
    }
    if errors.is_empty() { Ok(entries) } else { Err(errors) }
}

/// The text of entries: a line each, addresses in base 16, sizes by name where there is one.
pub fn lines(entries: &[Entry]) -> String {
    entries.iter().map(|entry| entry.line(size) + "\n").collect()
}

/// An example of each entry, a line each.
pub fn examples() -> String {
    FORMS.map(|(_, _, example)| example).join("\n")
}

/// The entry of a line without its line end; none where only a comment stands, or nothing.
fn parse_line(line: &[u8]) -> Result<Option<Entry>, String> {
    let line = line.strip_suffix(b"\r").unwrap_or(line);
    let line = std::str::from_utf8(line).map_err(|_| "its bytes are no UTF-8; a journal's text is UTF-8")?;
    let said = line.split_once('#').map_or(line, |(said, _)| said);
    let words: Vec<&str> = said.split([' ', '\t']).filter(|word| !word.is_empty()).collect();
    words.split_first().map(|(name, rest)| entry(name, rest)).transpose()
}

/// The entry of that name with those words behind it.
fn entry(name: &str, rest: &[&str]) -> Result<Entry, String> {
    match (name, rest) {
        ("seed", [start, end]) => Ok(seed(address(start)?, address(end)?)),
        ("acquire", [size]) => Ok(acquire(code(size)?)),
        ("release", [base, size]) => Ok(release(address(base)?, code(size)?)),
        ("report", []) => Ok(Entry::Report),
        _ => Err(wanted(name)),
    }
}

/// What is wanted instead of words that make no entry.
fn wanted(name: &str) -> String {
    match FORMS.iter().find(|form| form.0 == name) {
        Some((_, wants, example)) => format!("{name} wants {wants}, as '{example}'"),
        None => format!("{} is no entry; there are {}", quoted(name), FORMS.map(|form| form.0).join(", ")),
    }
}

fn address(word: &str) -> Result<u64, String> {
    let read = match word.strip_prefix("0x") {
        Some(digits) => number(digits, 16),
        None => number(word, 10),
    };
    read.ok_or_else(|| format!("{} is no address from 0 to 2^64 - 1", quoted(word)))
}

/// The code that a size's name or a number stands for.
fn code(word: &str) -> Result<u8, String> {
    let named = SIZES.iter().position(|name| *name == word).map(|place| place as u64 + 1);
    let read = named.or_else(|| number(word, 10)).and_then(|number| u8::try_from(number).ok());
    read.ok_or_else(|| format!("{} is no size; there are {} and codes 0 to 255", quoted(word), SIZES.join(", ")))
}

/// A size's name, or its code where it has none.
fn size(code: u8) -> String {
    let name = usize::from(code).checked_sub(1).and_then(|place| SIZES.get(place));
    name.map_or_else(|| code.to_string(), |name| name.to_string())
}

/// The number that digits make, if nothing but digits is there. The library's reading takes a sign too.
fn number(digits: &str, base: u32) -> Option<u64> {
    let only_digits = digits.chars().all(|digit| digit.is_digit(base));
    only_digits.then(|| u64::from_str_radix(digits, base).ok()).flatten()
}

/// A word in quotes; what a terminal would not show, or would obey, is spelled out.
fn quoted(word: &str) -> String {
    format!("'{}'", word.escape_debug())
}

/// The error of an entry that ends a journal's bytes early.
fn ending(number: usize, bad: Bad) -> String {
    match bad {
        Bad::UnknownKind { byte, kind } => {
            format!("entry {number} (byte {byte}): {kind} is no kind of entry, so the rest is not read")
        }
        Bad::CutShort { byte } => format!("entry {number} (byte {byte}): its body is cut short"),
    }
}
