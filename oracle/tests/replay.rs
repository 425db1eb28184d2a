//! A program that replays journals is compared with the judges, by the command and by the check of the fixed sample.
//! Its stand-in is the reference behind a shell script that may spoil the lines.

use oracle::compare::{Job, agree};
use oracle::generate::Profile;
use oracle::journal::decode;
use oracle::sample;
use oracle::store::JOURNAL_POOL;
use std::collections::BTreeMap;
use std::path::{Path, PathBuf};
use std::process::{Command, Output};
use std::sync::LazyLock;

/// What a right program does.
const RIGHT: &str = r#""$ORACLE" reference"#;

const ORACLE: &str = env!("CARGO_BIN_EXE_oracle");
const STAND_IN: &str = concat!(env!("CARGO_MANIFEST_DIR"), "/tests/programs/stand-in");
const CHECK: &str = concat!(env!("CARGO_MANIFEST_DIR"), "/../journals/check");

/// The files of the sample, made once for all tests.
static SAMPLE: LazyLock<BTreeMap<String, Vec<u8>>> =
    LazyLock::new(|| sample::files().expect("the judges agree").into_iter().collect());

/// An empty folder of this test run.
fn folder(name: &str) -> PathBuf {
    let folder = Path::new(env!("CARGO_TARGET_TMPDIR")).join(name);
    if folder.exists() {
        std::fs::remove_dir_all(&folder).expect("the old folder goes");
    }
    std::fs::create_dir_all(&folder).expect("a folder");
    folder
}

/// Runs a program in a folder; the stand-in does what the shell commands say.
fn run(program: &str, arguments: &[&str], folder: &Path, stand_in: &str) -> Output {
    let mut command = Command::new(program);
    command.args(arguments).current_dir(folder).env("ORACLE", ORACLE).env("STAND_IN", stand_in);
    command.output().expect("it starts")
}

/// The text that a failing run prints to its standard error.
fn failure(output: &Output) -> String {
    assert_eq!(output.status.code(), Some(1), "{output:?}");
    String::from_utf8_lossy(&output.stderr).into_owned()
}

#[test]
#[ignore = "the test command does it, with the proved program"]
fn a_right_program_passes() {
    let output = run(ORACLE, &["replay", STAND_IN, "600", "2"], &folder("right"), RIGHT);
    let text = String::from_utf8_lossy(&output.stdout).into_owned();
    assert!(output.status.success(), "{output:?}");
    let lines: Vec<&str> = text.lines().collect();
    assert!(lines[10].starts_with("beside them 2 long journals of 40000 entries and "), "{text}");
    assert!(lines[11].ends_with(" journals cut short, 520 of random bytes, 90 around the end of a buffer"), "{text}");
    assert_eq!(lines[12], "11 of the journals again in pieces of [1, 7, 4095, 4097] bytes");
    assert!(lines[13].starts_with("compared 600 entries in ") && lines[13].ends_with(" s: no difference"), "{text}");
}

/// Each wrong program, and what is told of it.
const WRONG: [(&str, &[&str]); 8] = [
    (
        r#""$ORACLE" reference | sed 3d"#,
        &["few-frames 2 of 50 entries differs: ", "line 3 of the program: \"3 ", "line 3 of the reference: \"2 "],
    ),
    (r#""$ORACLE" reference | sed '2s/ 0/ 7/'"#, &["line 2 of the program: \"1 seed 7\\n\"", "\"1 seed 0\\n\""]),
    (r#""$ORACLE" reference; echo more"#, &["of the program: \"more\\n\"", "of the reference: no more lines"]),
    (r#"printf %s "$("$ORACLE" reference)""#, &["few-frames 2 of 50 entries differs: "]),
    (r#""$ORACLE" reference; exit 1"#, &["it ends with exit status: 1"]),
    (r#""$ORACLE" reference; echo oh >&2"#, &["its standard error begins: oh"]),
    ("true", &["line 1 of the program: no more lines", "line 1 of the reference: \"pool 16384\\n\""]),
    (r#""$ORACLE" reference; kill -9 $$"#, &["it ends with signal: 9"]),
];

#[test]
fn wrong_programs_are_found() {
    for (place, (stand_in, told)) in WRONG.into_iter().enumerate() {
        let folder = folder(&format!("wrong-{place}"));
        let text = failure(&run(ORACLE, &["replay", STAND_IN, "50", "2", "few-frames"], &folder, stand_in));
        for part in told {
            assert!(text.contains(part), "{stand_in}: {text}");
        }
        assert!(text.ends_with("the journal's bytes are in difference.journal\n"), "{text}");
        let bytes = std::fs::read(folder.join("difference.journal")).expect("the journal is kept");
        let (entries, bad) = decode(&bytes);
        assert!(entries.len() >= 50 && bad.is_none(), "{stand_in}");
    }
}

/// Programs that are right on whole journals alone, or on long ones not: each is found where the generated journals
/// show nothing.
#[test]
fn wrong_readings_are_found() {
    let first_read = r#"dd bs=4096 count=1 status=none | "$ORACLE" reference"#;
    let text = failure(&run(ORACLE, &["replay", STAND_IN, "50", "1", "parts-and-joins"], &folder("first"), first_read));
    assert!(text.contains("written in pieces of 1 bytes"), "{text}");
    let first_buffer = r#"head -c 65536 | "$ORACLE" reference"#;
    let text = failure(&run(ORACLE, &["replay", STAND_IN, "50", "1", "limits"], &folder("buffer"), first_buffer));
    assert!(text.starts_with("season 1 of 20000 entries differs: "), "{text}");
}

#[test]
fn a_missing_program_is_told() {
    let text = failure(&run(ORACLE, &["replay", "no/such/program", "50"], &folder("missing"), RIGHT));
    assert!(text.starts_with("no/such/program cannot be started: "), "{text}");
}

#[test]
fn the_journals_pool_runs_dry_often() {
    let mut nines = 0;
    for number in 1..=5 {
        let job = Job { profile: Profile::DryPools, number, length: 300 };
        let run = agree(job).map_err(|differing| differing.0).expect("no difference").run;
        assert!(run.used <= JOURNAL_POOL as u64);
        nines += run.refusals[9];
    }
    assert!(nines >= 150, "{nines} of 1500");
}

/// The third word of each printed line of a file, counted.
fn third_words(bytes: &[u8]) -> BTreeMap<String, usize> {
    let mut counts = BTreeMap::new();
    for line in String::from_utf8_lossy(bytes).lines().filter(|line| !line.starts_with("bytes ")) {
        *counts.entry(line.split(' ').nth(2).unwrap_or_default().to_string()).or_default() += 1;
    }
    counts
}

#[test]
fn the_sample_has_what_it_is_for() {
    let files = &*SAMPLE;
    let bytes: usize = files.values().map(Vec::len).sum();
    assert!(bytes < 1_500_000, "{bytes}");
    assert!(files["long.journal"].len() > 65_536);
    assert_eq!(files.keys().filter(|name| name.ends_with(".journal")).count(), 9 * 4 + 1);
    let all: Vec<u8> = files.iter().filter(|file| file.0.ends_with(".lines")).flat_map(|file| file.1.clone()).collect();
    let words = third_words(&all);
    for number in 0..=9 {
        assert!(words.contains_key(&number.to_string()), "no refusal {number}");
    }
    assert!(third_words(&files["dry-pools-4.lines"])["9"] >= 100);
    assert!(third_words(&files["random.lines"])["12"] >= 100);
    assert_eq!(third_words(&files["cuts.lines"])["13"], 16 + 3 + 2 * 9, "the cuts inside an entry");
    let headings = |name: &str| String::from_utf8_lossy(&files[name]).matches("bytes ").count();
    assert_eq!((headings("cuts.lines"), headings("random.lines")), (45, 130));
}

/// Where the lines refuse with 5 or 9 the original is not asked, and nowhere else.
#[test]
fn the_samples_originals_fit_its_lines() {
    let files = &*SAMPLE;
    let mut not_asked = 0;
    for (name, original) in files.iter().filter(|file| file.0.ends_with(".original")) {
        let lines = String::from_utf8_lossy(&files[&name.replace(".original", ".lines")]).into_owned();
        let original = String::from_utf8_lossy(original).into_owned();
        assert_eq!(original.lines().count() + 1, lines.lines().count(), "{name}");
        for (told, line) in original.lines().zip(lines.lines().skip(1)) {
            let limit = matches!(line.split(' ').nth(2), Some("5" | "9"));
            assert_eq!(told.ends_with(" not asked"), limit, "{name}: {told}, {line}");
            not_asked += u64::from(limit);
        }
    }
    assert!(not_asked >= 100, "{not_asked}");
}

/// A folder that has the sample in its folder `made`.
fn written_sample(name: &str) -> PathBuf {
    let folder = folder(name);
    std::fs::create_dir(folder.join("made")).expect("a folder");
    for (name, bytes) in &*SAMPLE {
        std::fs::write(folder.join("made").join(name), bytes).expect("a file");
    }
    folder
}

#[test]
#[ignore = "the test command does it"]
fn the_command_writes_the_sample() {
    let folder = folder("sample");
    let output = run(ORACLE, &["sample", "new/made"], &folder, "");
    assert!(output.status.success(), "{output:?}");
    let made = std::fs::read_dir(folder.join("new/made")).expect("the folder is made").count();
    assert_eq!(made, SAMPLE.len());
    for (name, bytes) in &*SAMPLE {
        assert!(std::fs::read(folder.join("new/made").join(name)).ok().as_ref() == Some(bytes), "{name}");
    }
    std::fs::write(folder.join("file"), "").expect("a file");
    let text = failure(&run(ORACLE, &["sample", "file"], &folder, ""));
    assert!(text.starts_with("file cannot be made: "), "{text}");
}

#[test]
fn the_check_passes_a_right_program_from_any_folder() {
    let folder = written_sample("check-right");
    std::os::unix::fs::symlink(STAND_IN, folder.join("program")).expect("a link");
    for program in ["program", STAND_IN] {
        let output = run(CHECK, &[program, "made"], &folder, RIGHT);
        assert!(output.status.success(), "{output:?}");
        let text = String::from_utf8_lossy(&output.stdout).into_owned();
        let last = text.lines().last().unwrap_or_default();
        assert!(last.starts_with("compared 212 journals, ") && last.ends_with(": no difference"), "{text}");
    }
}

#[test]
fn the_check_finds_wrong_programs() {
    let folder = written_sample("check-wrong");
    let wrong: [(&str, &[&str]); 6] = [
        (r#""$ORACLE" reference | sed 3d"#, &["cascades-1.journal differs at line 3\n  program: 3 "]),
        (r#"printf %s "$("$ORACLE" reference)""#, &["the ends of the last lines differ"]),
        ("true", &["line 1\n  program: no more lines\n  sample:  pool 16384\n"]),
        (r#""$ORACLE" reference; exit 3"#, &["ends with status 3"]),
        (r#""$ORACLE" reference; echo oh >&2"#, &["prints errors: oh"]),
        (
            r#""$ORACLE" reference | sed 's/ bad 13/ bad 12/'"#,
            &["cuts.bytes, 1 bytes from byte 0 on, differs at line 2"],
        ),
    ];
    for (stand_in, told) in wrong {
        let text = failure(&run(CHECK, &[STAND_IN, "made"], &folder, stand_in));
        for part in told {
            assert!(text.contains(part), "{stand_in}: {text}");
        }
    }
    let text = failure(&run(CHECK, &["no-program", "made"], &folder, RIGHT));
    assert_eq!(text, "check: ./no-program is no program\n");
    let text = failure(&run(CHECK, &[STAND_IN, "."], &folder, RIGHT));
    assert_eq!(text, "check: . has no journals\n");
}

/// The original's answers are compared by themselves: an edit of one of them, or of a base, is found.
#[test]
fn the_check_asks_the_original() {
    let folder = written_sample("check-original");
    let path = folder.join("made/few-frames-1.original");
    let original = std::fs::read_to_string(&path).expect("the original's lines");
    let acquired = original.lines().find(|line| line.contains(" acquire 0 ")).expect("an acquire").to_string();
    for wrong in [acquired.replace("acquire 0", "acquire 8"), acquired.clone() + "0"] {
        std::fs::write(&path, original.replacen(&acquired, &wrong, 1)).expect("a wrong answer");
        let text = failure(&run(CHECK, &[STAND_IN, "made"], &folder, RIGHT));
        assert!(text.contains("few-frames-1.journal differs from the original at entry "), "{text}");
        assert!(text.contains(&format!("original: {wrong}\n")), "{text}");
    }
}
