//! Writes the wrong stores: the reference's text once for each edit in the folder `mutants`, as a module each, and a
//! table of them. An edit has a line `what:` in plain words, perhaps a line `equivalent:` that says why no input can
//! tell, and pairs of lines `old:` and `new:`. An old one is a whole line that the reference has exactly once.

use std::fmt::Write;
use std::fs;
use std::path::Path;

/// How the line begins that begins a section of the reference. A section uses private names of its own only, but for
/// those from 'Opening' on.
const SECTION: &str = "// ---- ";

/// One edit as its file has it.
struct Edit {
    name: String,
    what: String,
    equivalent: Option<String>,
    pairs: Vec<(String, String)>,
}

fn main() {
    println!("cargo:rerun-if-changed=src/reference.rs");
    println!("cargo:rerun-if-changed=mutants");
    let reference = fs::read_to_string("src/reference.rs").expect("src/reference.rs can be read");
    let mut paths: Vec<_> =
        fs::read_dir("mutants").expect("the folder mutants").map(|file| file.unwrap().path()).collect();
    paths.retain(|path| path.extension().is_some_and(|extension| extension == "edit"));
    paths.sort();
    let mut modules = String::new();
    let mut table = String::new();
    for path in paths {
        println!("cargo:rerun-if-changed={}", path.display());
        let edit = read(&path);
        let name = &edit.name;
        writeln!(modules, "mod {name} {{\n{}\n}}", apply(&reference, &edit)).unwrap();
        writeln!(table, "    ({name:?}, {:?}, {:?}, {name}::CALLS),", edit.what, edit.equivalent).unwrap();
    }
    let head = "/// Name, what is wrong, why no input can tell where none can, and the calls.\n";
    let kind = "(&str, &str, Option<&str>, crate::store::Calls)";
    let text = format!("{modules}\n{head}pub const ALL: &[{kind}] = &[\n{table}];\n");
    let folder = std::env::var("OUT_DIR").expect("a folder for the result");
    fs::write(Path::new(&folder).join("mutants.rs"), text).expect("the result can be written");
}

/// Reads an edit's file; its name is the file's.
fn read(path: &Path) -> Edit {
    let name = path.file_stem().unwrap().to_string_lossy().into_owned();
    let text = fs::read_to_string(path).unwrap_or_else(|error| panic!("mutant {name}: {error}"));
    let mut edit = Edit { name, what: String::new(), equivalent: None, pairs: Vec::new() };
    let mut waiting: Option<String> = None;
    for line in text.lines() {
        let (key, value) = line.split_once(':').unwrap_or_else(|| panic!("mutant {}: no key in: {line}", edit.name));
        let value = value.strip_prefix(' ').unwrap_or(value).to_string();
        match (key, waiting.take()) {
            ("what", None) => edit.what = value,
            ("equivalent", None) => edit.equivalent = Some(value),
            ("old", None) => waiting = Some(value),
            ("new", Some(old)) => edit.pairs.push((old, value)),
            _ => panic!("mutant {}: a line out of place: {line}", edit.name),
        }
    }
    assert!(waiting.is_none(), "mutant {}: an old line without a new one", edit.name);
    assert!(!edit.what.is_empty() && !edit.pairs.is_empty(), "mutant {}: no what, or no old and new", edit.name);
    edit
}

/// The reference's text with the edit done, from the section of the first edit on; what stands before it is taken from
/// the reference itself. Debug assertions go, so that only answers and words catch a mutant.
fn apply(reference: &str, edit: &Edit) -> String {
    let lines: Vec<&str> = reference.lines().collect();
    let mut first = section(&lines, "// ---- 'Opening'");
    for (old, _) in &edit.pairs {
        let places: Vec<usize> = (0..lines.len()).filter(|&place| lines[place] == old).collect();
        let (name, times) = (&edit.name, places.len());
        assert!(times == 1, "mutant {name}: the old line is in src/reference.rs {times} times, not once: {old}");
        let start = lines[..places[0]].iter().rposition(|line| line.starts_with(SECTION));
        first = first.min(start.unwrap_or_else(|| panic!("mutant {name}: the old line is in no section: {old}")));
    }
    let mut text = String::from("use crate::reference::*;\nuse crate::store::*;\n");
    for line in &lines[first..section(&lines, "// ---- 'Journal'")] {
        let edited = edit.pairs.iter().find(|(old, _)| old == line).map_or(*line, |(_, new)| new);
        if !edited.trim_start().starts_with("debug_assert") {
            text.push_str(edited);
            text.push('\n');
        }
    }
    text
}

/// The line at which a section of the reference begins.
fn section(lines: &[&str], title: &str) -> usize {
    let found = lines.iter().position(|line| line.starts_with(title));
    found.unwrap_or_else(|| panic!("src/reference.rs has no section {title}"))
}
