//! Tests what the tool does if standard output or standard error is closed or full.

mod common;

use common::*;
use std::fs::{self, File};
use std::io::{self, Read};
use std::process::{Command, Stdio};
use std::thread;
use std::time::Duration;

/// A file that is refused.
const BROKEN: &[u8] = b"#ASDF 2.0.0\n";
const REFUSAL: &str = "first version number is not 1, at 6 (refusal 4)";
/// Each closes a standard stream, then runs the tool.
const CLOSED_INPUT: &str = r#"exec "$0" "$@" <&-"#;
const CLOSED_OUTPUT: &str = r#"exec "$0" "$@" >&-"#;
const CLOSED_ERRORS: &str = r#"exec "$0" "$@" 2>&-"#;

/// Files for the calls below.
struct Files {
    good: String,
    /// A file whose listings do not fit into a pipe.
    many: String,
    broken: String,
    stored: String,
    /// A file with an edit that was not finished.
    half: String,
}

impl Files {
    /// Makes the files in a folder of their own.
    fn new(test: &str) -> Files {
        let folder = folder(test);
        let make = |name: &str, bytes: &[u8]| {
            let path = folder.join(name);
            fs::write(&path, bytes).unwrap();
            word(&path).to_string()
        };
        make("half.old-room", b"");
        Files {
            good: make("good", &file_with_room(3)),
            many: make("many", &nested(2)),
            broken: make("broken", BROKEN),
            stored: make(
                "stored",
                &[0, 0, 0, 0x30, 0, 0, 0, 12, 0, 0, 0, 9, 0, 0, 0, 7],
            ),
            half: make("half", &file_with_room(3)),
        }
    }

    /// Every kind of call that prints something on standard output.
    fn printing_calls(&self) -> Vec<Vec<&str>> {
        vec![
            vec!["--help"],
            vec!["list", "-h"],
            vec!["help", "list"],
            vec!["--version"],
            vec!["list", &self.good],
            vec!["list", &self.good, &self.good],
            vec!["list", &self.good, "--plain"],
            vec!["list", &self.good, "--json"],
            vec!["list", &self.many],
            vec!["list", &self.many, "--plain"],
            vec!["list", &self.many, "--json"],
            vec!["tree", &self.good],
            vec!["index", &self.good],
            vec!["index", &self.good, "--write"],
            vec!["outline", &self.good, "-o", "-"],
            vec!["outline", "--read", &self.stored],
        ]
    }
}

/// Runs the tool with this standard output.
fn run_into(output: impl Into<Stdio>, words: &[&str]) -> Ran {
    let mut command = command(words);
    command.stdout(output).output().unwrap().into()
}

/// Runs the tool by a line of a shell.
fn run_in_shell(line: &str, words: &[&str]) -> Ran {
    let tool = command(words);
    let mut shell = Command::new("sh");
    let shell = shell.args(["-c", line]).arg(tool.get_program());
    shell.args(tool.get_args()).output().unwrap().into()
}

/// Returns a pipe that nobody reads.
fn closed_pipe() -> io::PipeWriter {
    io::pipe().unwrap().1
}

/// Returns a device that is always full.
fn full() -> File {
    File::options().write(true).open("/dev/full").unwrap()
}

#[test]
fn full_standard_output_is_a_failure() {
    let files = Files::new("output-full");
    let mut calls = files.printing_calls();
    calls.push(vec!["list", &files.broken, "--plain"]);
    calls.push(vec!["list", &files.broken, "--json"]);
    for words in calls {
        let ran = run_into(full(), &words);
        let sentence = "cannot write to standard output: No space left on device (os error 28)";
        assert_eq!(
            ran.errors,
            format!("asdf-layout: {sentence}\n"),
            "{words:?}"
        );
        assert_eq!(ran.status, Some(2), "{words:?}");
    }
}

#[test]
fn standard_output_that_is_open_for_reading_only_is_a_failure() {
    let files = Files::new("output-read-only");
    for words in files.printing_calls() {
        let ran = run_into(File::open("/dev/null").unwrap(), &words);
        assert_eq!(ran.status, Some(2), "{words:?}");
        assert_eq!(ran.errors.lines().count(), 1, "{words:?}");
    }
}

#[test]
fn standard_stream_that_is_closed_from_the_start_is_a_failure() {
    let files = Files::new("output-none");
    for words in files.printing_calls() {
        let ran = run_in_shell(CLOSED_OUTPUT, &words);
        let sentence = "asdf-layout: cannot write to standard output: it is closed\n";
        assert_eq!((ran.status, ran.errors.as_str()), (Some(2), sentence));
    }
    for words in [
        &["list", "-"][..],
        &["tree", "-"],
        &["edit", &files.good, "-"],
    ] {
        let ran = run_in_shell(CLOSED_INPUT, words);
        let sentence = "asdf-layout: cannot read standard input: it is closed\n";
        assert_eq!(
            (ran.status, ran.errors.as_str()),
            (Some(2), sentence),
            "{words:?}"
        );
    }
}

#[test]
fn closed_pipe_ends_a_call_quietly() {
    let files = Files::new("output-closed");
    for words in files.printing_calls() {
        let ran = run_into(closed_pipe(), &words);
        assert_eq!(
            (ran.status, ran.errors.as_str()),
            (Some(0), ""),
            "{words:?}"
        );
    }
}

/// Runs the tool, and closes its standard output when one byte was read.
fn run_for_one_byte(words: &[&str]) -> Ran {
    let mut call = command(words);
    let piped = call.stdout(Stdio::piped()).stderr(Stdio::piped());
    let mut child = piped.spawn().unwrap();
    let mut output = child.stdout.take().unwrap();
    output.read_exact(&mut [0]).unwrap();
    drop(output);
    child.wait_with_output().unwrap().into()
}

#[test]
fn pipe_that_is_closed_early_ends_a_listing_quietly() {
    let files = Files::new("output-early");
    for form in ["--plain", "--json"] {
        let ran = run_for_one_byte(&["list", form, &files.many, "/no/such/file"]);
        assert_eq!((ran.status, ran.errors.as_str()), (Some(0), ""), "{form}");
        let ran = run_for_one_byte(&["list", form, &files.broken, &files.many]);
        let sentence = format!("asdf-layout: {}: {REFUSAL}\n", files.broken);
        assert_eq!((ran.status, ran.errors), (Some(1), sentence), "{form}");
    }
}

#[test]
fn refusal_is_reported_even_if_the_pipe_is_closed() {
    let files = Files::new("output-closed-refused");
    for form in ["--plain", "--json"] {
        let ran = run_into(closed_pipe(), &["list", &files.broken, form]);
        let sentence = format!("asdf-layout: {}: {REFUSAL}\n", files.broken);
        assert_eq!((ran.status, ran.errors), (Some(1), sentence));
    }
}

#[test]
fn closed_or_full_standard_error_changes_no_status() {
    let files = Files::new("output-errors");
    for (words, status) in [
        (["list", "/no/such/file"], 2),
        (["list", &files.broken], 1),
        (["list", &files.half], 0),
        (["lists", &files.good], 2),
    ] {
        // Otherwise there would be no message that cannot be printed.
        assert_ne!(run(&words).errors, "");
        let into_full = command(&words).stderr(full()).output().unwrap();
        assert_eq!(into_full.status.code(), Some(status), "{words:?}");
        let unread = command(&words).stderr(closed_pipe()).output().unwrap();
        assert_eq!(unread.status.code(), Some(status), "{words:?}");
        let closed = run_in_shell(CLOSED_ERRORS, &words);
        assert_eq!(closed.status, Some(status), "{words:?}");
        assert_eq!(closed.output, run(&words).output);
    }
}

#[test]
fn file_can_be_edited_while_its_listing_waits_for_a_reader() {
    let folder = folder("output-edited");
    let (path, text) = (folder.join("file"), folder.join("text"));
    let file = [HEADER, TREE, b"     ", &block(&nested(2))].concat();
    fs::write(&path, file).unwrap();
    fs::write(&text, "%YAML 1.1\n---\na: 1\n...\n").unwrap();
    let mut call = command(&["list", word(&path), "--json"]);
    let mut listing = call.stdout(Stdio::piped()).spawn().unwrap();
    let mut output = listing.stdout.take().unwrap();
    output.read_exact(&mut [0]).unwrap();
    let mut edit = command(&["edit", word(&path), word(&text)])
        .spawn()
        .unwrap();
    let ended = (0..1_200).find_map(|_| {
        thread::sleep(Duration::from_millis(50));
        edit.try_wait().unwrap()
    });
    // Otherwise it would wait here for ever.
    drop(output);
    assert_eq!(listing.wait().unwrap().code(), Some(0));
    assert_eq!(edit.wait().unwrap().code(), Some(0));
    assert!(ended.is_some(), "the edit waited for the listing");
}
