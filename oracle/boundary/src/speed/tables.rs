//! What is measured, as plain tables.

use super::stores::{CHILDREN, START, STORES, Store};
use super::timing::{BLOCKS, Measured, Times, clock, measure, measure_seed, sides};

/// A seed into a new store.
pub struct Seed {
    pub name: &'static str,
    pub what: &'static str,
    pub start: u64,
    pub end: u64,
}

const GIB_1: u64 = 1_073_741_824;

/// The seeds that are measured.
pub const SEEDS: [Seed; 3] = [
    Seed { name: "seed-24K", what: "24 KiB", start: START, end: START + 24_576 },
    Seed { name: "seed-1G", what: "1 GiB", start: START, end: START + GIB_1 },
    Seed { name: "seed-1G-off", what: "1 GiB, 4 KiB off", start: START + 4_096, end: START + 4_096 + GIB_1 },
];

/// Up to how many used words a call's time less the check's is shown: beyond, it is lost in the check's noise.
const SHOWN: u64 = 3_000;

/// The stores that have free pages of 2 MiB.
const WITH_2_MIB: [&str; 4] = ["1G-free", "1G-held", "1G-16384", "1G-100000"];

/// One store with one size.
struct Row {
    store: Store,
    size: &'static str,
    measured: Measured,
}

/// Prints the names that `--count` takes.
pub fn names() {
    for store in STORES.iter().chain(&CHILDREN) {
        println!("{:<12} {}", store.name, store.what);
    }
    for seed in &SEEDS {
        println!("{:<12} a seed of {} into a new store", seed.name, seed.what);
    }
}

/// Measures everything and prints it.
pub fn all() {
    println!(
        "Times in microseconds of one call: the median of {BLOCKS} blocks or more (lowest to highest), the sides in turn."
    );
    println!("Ratios, shares and differences are medians of those of blocks that stand side by side.");
    println!("Reading the clock takes {:.3}; it is in each acquire and release, on both sides.\n", clock() / 1_000.0);
    let rows: Vec<Row> = STORES.iter().flat_map(measured).collect();
    print_stores(&rows);
    print_calls(&rows);
    print_shares(&rows);
    print_lengths(&rows);
    print_growth(&rows);
    let children: Vec<Row> = CHILDREN.iter().flat_map(measured).collect();
    print_children(&children);
    print_seeds();
}

/// Measures a store with 4 KiB, and with 2 MiB where it has some free.
fn measured(store: &Store) -> Vec<Row> {
    let mut sides = sides(store);
    let sizes = [("4 KiB", 1), ("2 MiB", 3)];
    let asked = sizes.into_iter().filter(|&(_, code)| code == 1 || WITH_2_MIB.contains(&store.name));
    asked.map(|(size, code)| Row { store: *store, size, measured: measure(&mut sides, code) }).collect()
}

/// Microseconds with three figures or so.
fn short(nanoseconds: f64) -> String {
    let microseconds = nanoseconds / 1_000.0;
    match microseconds {
        below if below < 9.995 => format!("{below:.2}"),
        below if below < 99.95 => format!("{below:.1}"),
        above => format!("{above:.0}"),
    }
}

/// The median, and the lowest and the highest block.
fn spread(times: &Times) -> String {
    format!("{} ({} to {})", short(times.median()), short(times.low()), short(times.high()))
}

fn percent(part: &Times, whole: &Times) -> String {
    format!("{:.1} %", 100.0 * part.to(whole))
}

/// Three figures or so.
fn ratio(number: f64) -> String {
    if number < 9.995 { format!("{number:.2}") } else { format!("{number:.0}") }
}

/// Prints a title, then columns that are as wide as their widest entry.
fn print_table(title: &str, head: &[&str], lines: &[Vec<String>]) {
    println!("{title}\n");
    let mut all = vec![head.iter().map(|text| text.to_string()).collect::<Vec<_>>()];
    all.push(head.iter().map(|_| "---".to_string()).collect());
    all.extend_from_slice(lines);
    let width = |column: usize| all.iter().map(|line| line[column].chars().count()).max().unwrap_or(0);
    let widths: Vec<usize> = (0..head.len()).map(width).collect();
    for line in &all {
        let cells: Vec<String> = line.iter().zip(&widths).map(|(cell, &width)| format!("{cell:<width$}")).collect();
        println!("| {} |", cells.join(" | "));
    }
    println!();
}

fn print_stores(rows: &[Row]) {
    let line = |row: &Row| vec![row.store.name.to_string(), row.store.what.to_string(), row.measured.used.to_string()];
    let first = rows.iter().filter(|row| row.size == "4 KiB");
    let lines: Vec<_> = first.map(line).collect();
    print_table("Stores; used words from the first acquire on", &["Store", "What", "Used"], &lines);
}

fn print_calls(rows: &[Row]) {
    let line = |row: &Row| {
        let Measured { proved, rust, probes, .. } = &row.measured;
        let sides = [(&proved.acquire, &rust.acquire), (&proved.release, &rust.release)];
        let mut cells = vec![row.store.name.to_string(), row.size.to_string(), probes.to_string()];
        for (ours, theirs) in sides {
            cells.extend([spread(ours), spread(theirs), ratio(ours.to(theirs))]);
        }
        cells
    };
    let lines: Vec<_> = rows.iter().map(line).collect();
    let head = ["Store", "Size", "Probes", "Acquire, proved", "Rust", "Ratio", "Release, proved", "Rust", "Ratio"];
    print_table("Acquire and release, pool of 1,048,576 words", &head, &lines);
}

fn print_shares(rows: &[Row]) {
    let line = |row: &Row| {
        let Measured { proved, rust, check, held_check, used, .. } = &row.measured;
        let acquire = (&proved.acquire, check, &rust.acquire);
        let release = (&proved.release, held_check, &rust.release);
        let mut cells = vec![row.store.name.to_string(), row.size.to_string()];
        for (ours, check, theirs) in [acquire, release] {
            let own = ours.less(check);
            let or_none = |text: String| if *used <= SHOWN { text } else { "-".to_string() };
            cells.extend([spread(check), percent(check, ours)]);
            cells.extend([or_none(short(own)), or_none(ratio(own / theirs.median()))]);
        }
        cells
    };
    let lines: Vec<_> = rows.iter().map(line).collect();
    let each = ["share", "rest", "to Rust"];
    let head = [&["Store", "Size", "Check before acquire"], &each[..], &["Check before release"], &each[..]].concat();
    print_table(
        "The check's share; the rest is the call less it (beyond 3,000 words lost in the noise)",
        &head,
        &lines,
    );
}

fn print_lengths(rows: &[Row]) {
    let line = |row: &Row| {
        let Measured { used, check, full_check, proved, full, .. } = &row.measured;
        let mut cells = vec![row.store.name.to_string(), used.to_string()];
        for (on_full, on_long) in [(full_check, check), (&full.acquire, &proved.acquire)] {
            cells.extend([spread(on_full), spread(on_long), ratio(on_long.to(on_full))]);
        }
        cells
    };
    let lines: Vec<_> = rows.iter().filter(|row| row.size == "4 KiB").map(line).collect();
    let (full, long) = ("pool of the used words", "of 1,048,576");
    let head = ["Store", "Used", &format!("Check, {full}"), long, "Ratio", &format!("Acquire, {full}"), long, "Ratio"];
    print_table("The pool's length", &head, &lines);
}

fn print_growth(rows: &[Row]) {
    let line = |row: &Row| {
        let Measured { proved, rust, check, report, walk, used, .. } = &row.measured;
        let word = |time: f64| format!("{:.2}", time / *used as f64);
        let ours = proved.acquire.median() + proved.release.median();
        let theirs = rust.acquire.median() + rust.release.median();
        let mut cells = vec![row.store.name.to_string(), used.to_string(), spread(check), word(check.median())];
        cells.extend([short(ours), word(ours), short(theirs), ratio(ours / theirs)]);
        cells.extend([spread(report), word(report.median()), spread(walk), word(walk.median())]);
        cells
    };
    let lines: Vec<_> = rows.iter().filter(|row| row.size == "4 KiB").map(line).collect();
    let head = [
        "Store",
        "Used",
        "Check",
        "ns a word",
        "Acquire + release",
        "ns a word",
        "Rust",
        "Ratio",
        "Report",
        "ns a word",
        "Walk of the Rust's tree",
        "ns a word",
    ];
    print_table(
        "Growth with used. The Rust has no report and no check; beside them a walk that counts its nodes",
        &head,
        &lines,
    );
}

fn print_children(rows: &[Row]) {
    let line = |row: &Row| {
        let Measured { proved, rust, check, held_check, used, probes, .. } = &row.measured;
        let mut cells = vec![row.store.name.to_string(), used.to_string(), probes.to_string(), spread(check)];
        cells.extend([spread(&proved.acquire), short(proved.acquire.less(check)), spread(&rust.acquire)]);
        cells.extend([spread(&proved.release), short(proved.release.less(held_check)), spread(&rust.release)]);
        cells
    };
    let lines: Vec<_> = rows.iter().map(line).collect();
    let head = ["Store", "Used", "Probes", "Check", "Acquire", "less check", "Rust", "Release", "less check", "Rust"];
    print_table(
        "Growth with the children looked at: the one free 4 KiB in 2 MiB number 0, 100, 300, 511 of 1 GiB",
        &head,
        &lines,
    );
}

fn print_seeds() {
    let line = |seed: &Seed| {
        let (ours, theirs, used) = measure_seed(seed.start, seed.end);
        vec![seed.what.to_string(), used.to_string(), spread(&ours), spread(&theirs), ratio(ours.to(&theirs))]
    };
    let lines: Vec<_> = SEEDS.iter().map(line).collect();
    print_table("Seed into a new store", &["Region", "Used then", "Proved", "Rust", "Ratio"], &lines);
}
