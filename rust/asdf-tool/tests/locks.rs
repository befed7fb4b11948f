//! Tests calls that have to wait for one another: none waits in silence, and none loses what it was asked to do.

mod common;

use common::case::*;
use common::*;
use std::fs::{self, File};
use std::io::{BufRead, BufReader, Read};
use std::process::{Child, Stdio};
use std::time::{Duration, Instant};

/// Starts a call, and returns it when it has said its first line, with that line.
fn started(words: &[&str]) -> (Child, String) {
    let mut child = command(words)
        .stdout(Stdio::piped())
        .stderr(Stdio::piped())
        .spawn()
        .unwrap();
    let mut line = String::new();
    let mut errors = BufReader::with_capacity(1, child.stderr.as_mut().unwrap());
    errors.read_line(&mut line).unwrap();
    (child, line)
}

/// Returns the status of a call and the rest of what it says.
fn ended(mut child: Child) -> (Option<i32>, String) {
    let mut errors = String::new();
    child
        .stderr
        .take()
        .unwrap()
        .read_to_string(&mut errors)
        .unwrap();
    (child.wait().unwrap().code(), errors)
}

/// Opens a file and locks it, as an edit does.
fn locked(case: &Case) -> File {
    let file = File::options()
        .read(true)
        .write(true)
        .open(&case.file)
        .unwrap();
    file.lock().unwrap();
    file
}

#[test]
fn edit_and_restore_say_what_they_wait_for() {
    let case = Case::new("locks-edit");
    let file = locked(&case);
    let (edit, line) = started(&case.edit_words());
    let name = word(&case.file);
    assert_eq!(
        line,
        format!("asdf-layout: waiting for {name}, which another program has locked\n")
    );
    file.unlock().unwrap();
    assert_eq!(
        (ended(edit), case.state()),
        ((Some(0), String::new()), State::New)
    );

    file.lock().unwrap();
    let (restore, line) = started(&["restore", name]);
    assert!(line.contains(": waiting for "), "{line}");
    file.unlock().unwrap();
    assert_eq!(ended(restore).0, Some(2));
}

#[test]
fn file_that_is_replaced_while_an_edit_waits_is_noticed() {
    let case = Case::new("locks-replaced");
    let file = locked(&case);
    let (edit, _) = started(&case.edit_words());
    let other = case.beside(".other");
    let night = file_with_room(7);
    fs::write(&other, &night).unwrap();
    let moved = case.beside(".moved");
    fs::rename(&case.file, &moved).unwrap();
    fs::rename(&other, &case.file).unwrap();
    file.unlock().unwrap();
    let (status, errors) = ended(edit);
    assert_eq!(status, Some(2));
    assert!(
        errors.contains("was replaced or removed before it could be locked"),
        "{errors}"
    );
    assert!(
        errors.contains("nothing was changed; try again"),
        "{errors}"
    );
    assert!(fs::read(moved).unwrap() == case.old);
    assert!(case.bytes() == night);
}

#[test]
fn file_that_is_removed_while_an_edit_waits_is_noticed() {
    let case = Case::new("locks-removed");
    let file = locked(&case);
    let (edit, _) = started(&case.edit_words());
    fs::remove_file(&case.file).unwrap();
    file.unlock().unwrap();
    let (status, errors) = ended(edit);
    assert_eq!(status, Some(2));
    assert!(errors.contains("was replaced or removed"), "{errors}");
}

#[test]
fn reading_waits_for_a_second_and_then_reads_and_says_so() {
    let case = Case::new("locks-reading");
    let file = locked(&case);
    let name = word(&case.file);
    let expected = "tree 12 30\n0 0 200030 48 3 3 0 0 0 0\nindex absent\n";
    let begun = Instant::now();
    let ran = run(&["list", "--plain", name]);
    let waited = begun.elapsed();
    assert_eq!((ran.status, ran.output.as_str()), (Some(0), expected));
    ran.assert_says(format!("another program has locked {name}"));
    assert!(
        waited >= Duration::from_secs(1) && waited < Duration::from_secs(5),
        "{waited:?}"
    );
    file.unlock().unwrap();
    // Another reader is no reason to wait.
    file.lock_shared().unwrap();
    assert_eq!(printed(&["list", "--plain", name]), expected);
}
