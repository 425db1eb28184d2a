//! The program that turns the text form of a journal into journal bytes and back.

use std::fs;
use std::io::Write;
use std::path::{Path, PathBuf};
use std::process::Output;

mod program;

const PROGRAM: &str = env!("CARGO_BIN_EXE_journal");

/// The text of document 01's example as it is read back.
const TEXT: &str = "seed 0x80000000 0x80006000\nacquire 4K\nacquire 16K\nacquire 4K\nrelease 0x80000000 4K\n\
                    release 0x80000000 4K\nreport\n";

/// The journal of that name in the folder `journals`.
fn journal(name: &str) -> PathBuf {
    Path::new(env!("CARGO_MANIFEST_DIR")).join("../journals").join(name)
}

fn program(arguments: &[&str], bytes: &[u8]) -> Output {
    program::run(PROGRAM, arguments, bytes)
}

/// The exit status, standard output and standard error.
fn told(output: &Output) -> (Option<i32>, String, String) {
    let text = |bytes: &[u8]| String::from_utf8_lossy(bytes).into_owned();
    (output.status.code(), text(&output.stdout), text(&output.stderr))
}

#[test]
fn the_documents_text_makes_its_journal() {
    let bytes = fs::read(journal("document.journal")).expect("the journal can be read");
    let text = fs::read(journal("document.txt")).expect("the text can be read");
    assert_eq!(bytes.len(), 44);
    let file = journal("document.txt");
    for output in [program(&["bytes", file.to_str().expect("a path")], &[]), program(&["bytes"], &text)] {
        assert_eq!((output.status.code(), output.stdout, output.stderr), (Some(0), bytes.clone(), Vec::new()));
    }
}

#[test]
fn the_documents_journal_is_read_back() {
    let bytes = fs::read(journal("document.journal")).expect("the journal can be read");
    let file = journal("document.journal");
    for output in [program(&["text", file.to_str().expect("a path")], &[]), program(&["text"], &bytes)] {
        assert_eq!(told(&output), (Some(0), TEXT.to_string(), String::new()));
    }
}

#[test]
fn wrong_lines_go_to_standard_error_alone() {
    let output = program(&["bytes"], b"report\nacqire 4K\n\nrelease 0x80000000\n");
    let errors = "journal: line 2: 'acqire' is no entry; there are seed, acquire, release, report\n\
                  journal: line 4: release wants a base and a size, as 'release 0x80000000 4K'\n";
    assert_eq!(told(&output), (Some(1), String::new(), errors.to_string()));
}

#[test]
fn bytes_that_end_early_are_read_up_to_there() {
    let bytes = fs::read(journal("document.journal")).expect("the journal can be read");
    let output = program(&["text"], &[&bytes[..], &[9, 4]].concat());
    let error = "journal: entry 8 (byte 44): 9 is no kind of entry, so the rest is not read\n";
    assert_eq!(told(&output), (Some(1), TEXT.to_string(), error.to_string()));
    let output = program(&["text"], &[&bytes[..], &[2]].concat());
    let error = "journal: entry 8 (byte 44): its body is cut short\n";
    assert_eq!(told(&output), (Some(1), TEXT.to_string(), error.to_string()));
}

#[test]
fn a_file_that_cannot_be_read_is_named() {
    for command in ["bytes", "text"] {
        let (status, output, error) = told(&program(&[command, "no/such/file"], &[]));
        assert_eq!((status, output.as_str()), (Some(1), ""));
        assert!(error.starts_with("journal: no/such/file cannot be read: "), "{error}");
        assert_eq!(error.lines().count(), 1);
    }
}

#[test]
fn bad_usage_has_status_2() {
    for arguments in [&[][..], &["byte"], &["report"], &["bytes", "a", "b"], &["text", "a", "b"], &["--help"], &[""]] {
        let (status, output, error) = told(&program(arguments, &[]));
        assert_eq!((status, output.as_str()), (Some(2), ""), "{arguments:?}");
        assert!(error.starts_with("usage:\n  journal bytes [FILE] "), "{error}");
        assert!(error.contains("outside the proved part"), "{error}");
    }
}

#[cfg(unix)]
#[test]
fn arguments_that_are_no_unicode_are_no_panic() {
    use std::os::unix::ffi::OsStrExt;
    let name = std::ffi::OsStr::from_bytes(b"no\xffname");
    let output = program::command(PROGRAM, &[]).arg(name).output().expect("the program ends");
    assert_eq!(output.status.code(), Some(2));
    let output = program::command(PROGRAM, &["bytes"]).arg(name).output().expect("the program ends");
    assert_eq!(output.status.code(), Some(1));
    assert!(output.stderr.starts_with(b"journal: no"), "{output:?}");
}

/// Both pipes are closed in turn before the program writes, which it does only after its input ends.
#[test]
fn a_closed_pipe_is_no_panic() {
    let mut child = program::command(PROGRAM, &["text"]).spawn().expect("the program starts");
    drop(child.stdout.take());
    child.stdin.take().expect("a pipe").write_all(&[4, 4]).expect("it reads all");
    let (status, _, error) = told(&child.wait_with_output().expect("the program ends"));
    assert_eq!(status, Some(1));
    assert!(error.starts_with("journal: the output cannot be written: "), "{error}");
    assert_eq!(error.lines().count(), 1);
    let mut child = program::command(PROGRAM, &["bytes"]).spawn().expect("the program starts");
    drop(child.stderr.take());
    child.stdin.take().expect("a pipe").write_all(b"reprt").expect("it reads all");
    assert_eq!(child.wait_with_output().expect("the program ends").status.code(), Some(1));
}
