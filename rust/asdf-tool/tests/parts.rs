//! Tests the tree's text, the index and stored outlines.

mod common;

use common::*;
use std::fs;

#[test]
fn tree_is_its_text_alone() {
    let file = [HEADER, TREE, b"   "].concat();
    assert_eq!(
        run_with_input(&["tree", "-"], &file).output.as_bytes(),
        TREE
    );
    let none = run_with_input(&["tree", "-"], HEADER);
    assert_eq!((none.status, none.output.as_str()), (Some(0), ""));
}

/// The index of a file whose only block is at 12.
const INDEX: &str = "#ASDF BLOCK INDEX\n%YAML 1.1\n--- [12]\n...\n";

#[test]
fn index_is_judged_and_written() {
    let file = [HEADER, &block_header(0)].concat();
    let verdict = |file: &[u8]| run_with_input(&["index", "-"], file).output;
    assert_eq!(verdict(&file), "absent\n");
    let text = run_with_input(&["index", "--write", "-"], &file).output;
    assert_eq!(text, INDEX);
    let indexed = [&file, text.as_bytes()].concat();
    assert_eq!(
        verdict(&indexed),
        "good: it lists the offsets of the blocks\n"
    );

    let refused = run_with_input(&["index", "--write", "-"], HEADER);
    assert_eq!(refused.status, Some(1));
    assert!(refused.errors.ends_with("(refusal 22)\n"));
}

#[test]
fn index_of_a_dos_file_ends_its_lines_as_the_header_does() {
    let file = [DOS_HEADER, &block_header(0)].concat();
    assert_eq!(
        run_with_input(&["index", "--write", "-"], &file).output,
        "#ASDF BLOCK INDEX\r\n%YAML 1.1\r\n--- [13]\r\n...\r\n"
    );
}

#[test]
fn index_with_dashes_is_judged_and_the_written_one_has_brackets() {
    let path = |name: &str| format!("{DATA}/{name}.asdf");
    let verdict = |name: &str| printed(&["index", &path(name)]);
    assert_eq!(
        verdict("three-blocks"),
        "good: it lists the offsets of the blocks\n"
    );
    assert_eq!(
        verdict("updated-stale"),
        "ignored: the offsets it lists are not those of the blocks\n"
    );
    assert_eq!(
        run(&["index", "--write", &path("updated-stale")]).output,
        "#ASDF BLOCK INDEX\n%YAML 1.1\n--- [686, 1026, 1366]\n...\n"
    );
}

#[test]
fn written_index_is_good_where_the_sentence_says() {
    // The allocated space is longer than the content, and the block is not the first one.
    let mut last = block_header(5);
    last[22..30].copy_from_slice(&2u64.to_be_bytes());
    last[30..38].copy_from_slice(&2u64.to_be_bytes());
    let blocks = [HEADER, &block(b"abc"), &last, b"de   "].concat();
    let end = blocks.len();
    let sentence = format!(
        "this text belongs at offset {end} of standard input, directly after the last block"
    );
    for (tail, rest) in [
        (&b""[..], ""),
        (
            b"\0",
            "; the byte that follows there now has to be removed first",
        ),
        (
            b"#ASDF BLOCK INDEX\n%YAML 1.1\n--- [1]\n...\n",
            "; the 40 bytes that follow there now have to be removed first",
        ),
    ] {
        let ran = run_with_input(&["index", "-", "--write"], &[&blocks, tail].concat());
        assert_eq!(ran.errors, format!("asdf-layout: {sentence}{rest}\n"));
        assert_eq!(ran.status, Some(0));
        let indexed = [&blocks[..end], ran.output.as_bytes()].concat();
        let verdict = run_with_input(&["index", "-"], &indexed).output;
        assert_eq!(verdict, "good: it lists the offsets of the blocks\n");
        let again = run_with_input(&["index", "-", "--write"], &indexed);
        let already = format!("this text is already at offset {end} of standard input");
        assert_eq!(again.errors, format!("asdf-layout: {already}\n"));
    }
}

#[test]
fn stored_outline_has_the_rows_of_the_listing() {
    let folder = folder("parts-outline");
    for name in ["nested-8", "sixty-blocks", "tree-only"] {
        let stored = folder.join(name);
        let file = format!("{DATA}/{name}.asdf");
        assert_eq!(printed(&["outline", &file, "-o", word(&stored)]), "");
        let listing = printed(&["list", "--plain", &file]);
        let (_, rows) = listing.split_once('\n').unwrap();
        let (rows, _) = rows.split_once("index").unwrap();
        assert_eq!(printed(&["outline", "--read", word(&stored)]), rows);
        assert_eq!(fs::read(stored).unwrap().len(), 16 * rows.lines().count());
    }
}

#[test]
fn outline_of_many_rows_is_written_and_read() {
    let folder = folder("parts-many");
    let (path, stored) = (folder.join("file"), folder.join("outline"));
    fs::write(&path, nested(2)).unwrap();
    printed(&["outline", word(&path), "-o", word(&stored)]);
    assert_eq!(
        printed(&["outline", "--read", word(&stored)])
            .lines()
            .count(),
        nested_rows(2)
    );
    let table = printed(&["list", word(&path)]);
    assert_eq!(table.lines().count(), nested_rows(2) + 8);
}

#[test]
fn wrong_outlines_are_refused() {
    let read = |stored: &[u8]| run_with_input(&["outline", "--read", "-"], stored);
    assert!(read(&[0; 15]).errors.ends_with("(refusal 23)\n"));
    let sentence = "row of the outline breaks a rule, in the row at 0 (refusal 24)\n";
    assert!(read(&[0; 16]).errors.ends_with(sentence));
    assert_eq!(read(&[0; 16]).status, Some(1));
}
