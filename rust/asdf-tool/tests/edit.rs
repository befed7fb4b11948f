//! Tests edits in place that are not interrupted.

mod common;

use common::case::*;
use common::*;
use std::collections::BTreeSet;
use std::fs;
use std::os::unix::fs::{symlink, FileExt, MetadataExt};
use std::thread;

#[test]
fn edit_changes_the_room_alone_and_leaves_nothing_beside() {
    let case = Case::new("edit-done");
    assert_eq!(case.edit(), SILENT);
    assert_eq!(case.state(), State::New);
    case.assert_nothing_beside();
    assert_eq!(
        printed(&["tree", word(&case.file)]).as_bytes(),
        fs::read(&case.text).unwrap()
    );
}

#[test]
fn refused_edit_changes_nothing_and_says_why() {
    let case = Case::new("edit-refused");
    let refused = |text: &[u8]| {
        let ran = run_with_input(&["edit", word(&case.file), "-"], text);
        assert_eq!((ran.status, case.state()), (Some(1), State::Old));
        ran.errors
    };
    let file = word(&case.file);
    let room = SPACES + TREE.len();
    assert_eq!(
        refused(b"no tree\n"),
        format!(
            "asdf-layout: {file} was not edited: text is not exactly one tree (refusal 19); \
             standard input has 8 bytes, and the room has {room}; a tree goes from its line `%YAML 1.1` \
             through its line `...`, with nothing before or after it\n"
        )
    );
    assert!(refused(&TREE[..TREE.len() - 1])
        .ends_with("; its last line has no line end, which a tree needs; add one\n"));
    let long = format!("%YAML 1.1\n---\n{}\n...\n", "x".repeat(SPACES));
    assert_eq!(
        refused(long.as_bytes()),
        format!(
            "asdf-layout: {file} was not edited: text is longer than the room of the tree (refusal 20); \
             standard input has {} bytes, and the room has {room}; shorten it by {} bytes\n",
            long.len(),
            long.len() - room
        )
    );
    // The file itself, given as the text, is not exactly one tree either.
    let ran = run(&["edit", file, file]);
    assert!(
        ran.errors.contains(&format!("(refusal 19); {file} has ")),
        "{}",
        ran.errors
    );
}

#[test]
fn file_without_a_tree_and_refused_file_are_not_edited() {
    let path = folder("edit-none").join("file");
    for (bytes, number) in [(HEADER.to_vec(), 18), (b"#ASDF 2.0.0\n".to_vec(), 4)] {
        fs::write(&path, &bytes).unwrap();
        let ran = run_with_input(&["edit", word(&path), "-"], TREE);
        assert!(
            ran.errors.ends_with(&format!("(refusal {number})\n")),
            "{}",
            ran.errors
        );
        assert_eq!((ran.status, fs::read(&path).unwrap()), (Some(1), bytes));
    }
}

#[test]
fn link_is_followed() {
    let case = Case::new("edit-link");
    let link = case.file.with_file_name("link");
    symlink(&case.file, &link).unwrap();
    assert_eq!(run(&["edit", word(&link), word(&case.text)]), SILENT);
    assert_eq!(case.state(), State::New);
    assert!(link.symlink_metadata().unwrap().is_symlink());
}

#[test]
fn file_with_several_names_is_not_edited() {
    let case = Case::new("edit-names");
    fs::hard_link(&case.file, case.beside(".other")).unwrap();
    let ran = case.edit();
    assert_eq!((ran.status, case.state()), (Some(2), State::Old));
    ran.assert_says("has 2 names (hard links)");
    fs::remove_file(case.beside(".other")).unwrap();
    assert_eq!(case.edit(), SILENT);
}

#[test]
fn only_a_regular_file_is_edited() {
    let folder = folder("edit-irregular");
    for path in [word(&folder), "/dev/null", "/"] {
        let ran = run_with_input(&["edit", path, "-"], TREE);
        assert_eq!(ran.status, Some(2));
        ran.assert_says("is not a regular file");
    }
}

#[test]
fn longest_file_is_edited_without_being_copied() {
    let path = folder("edit-longest").join("file");
    let length: u64 = (1 << 32) - 1;
    let front = file_with_room(100);
    let block = (front.len() - 57) as u64;
    let header = block_header(length - block - 54);
    let file = sparse_file(&path, length, &[(0, &front), (block, &header)]);
    let text = b"%YAML 1.1\n---\nlong: true\n...\n";
    assert_eq!(run_with_input(&["edit", word(&path), "-"], text), SILENT);

    let spaces = vec![b' '; 100 + TREE.len() - text.len()];
    let expected = [HEADER, text, &spaces, &header, b"abc"].concat();
    let mut found = vec![0; expected.len()];
    file.read_exact_at(&mut found, 0).unwrap();
    assert_eq!(found, expected);
    let metadata = file.metadata().unwrap();
    assert_eq!(metadata.len(), length);
    // The system counts in blocks of 512 bytes. The part of the file that was not edited is still a
    // hole.
    assert!(metadata.blocks() < 1_000);
}

#[test]
fn file_above_the_limit_is_not_edited() {
    let path = folder("edit-too-long").join("file");
    sparse_file(&path, 5 << 30, &[(0, &file_with_room(100))]);
    let ran = run_with_input(&["edit", word(&path), "-"], TREE);
    assert_eq!(ran.status, Some(1));
    assert!(ran.errors.ends_with("(refusal 1)\n"), "{}", ran.errors);
}

#[test]
fn edits_at_the_same_time_come_one_after_another() {
    let folder = folder("edit-together");
    let file = folder.join("file");
    fs::write(&file, file_with_room(SPACES)).unwrap();
    let texts: Vec<String> = (0..8)
        .map(|number| {
            format!(
                "%YAML 1.1\n---\n{}...\n",
                format!("{number}\n").repeat(50_000)
            )
        })
        .collect();
    thread::scope(|scope| {
        for text in &texts {
            let edit = || run_with_input(&["edit", word(&file), "-"], text.as_bytes());
            scope.spawn(move || {
                let ran = edit();
                assert_eq!(ran.status, Some(0), "{}", ran.errors);
                // It may have had to wait, and then it has said so.
                assert!(ran.errors.is_empty() || ran.errors.contains(": waiting for "));
            });
        }
    });
    assert!(texts.contains(&printed(&["tree", word(&file)])));
    assert_eq!(names(&folder), BTreeSet::from(["file".to_string()]));
}
