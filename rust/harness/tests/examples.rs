//! Runs the worked examples of outlines, indexes and edits, and compares exact bytes.

mod common;

use asdf_harness::calls::exports;
use asdf_harness::calls::numbers::LAYOUT_BYTES;
use asdf_harness::files::nests::file_of;
use asdf_harness::format::block::block_header;
use asdf_harness::format::text::{HEADER_LINE, LEAST_TREE};
use common::{assert_writes, one_block, verdict};

/// A file with a header line, these bytes as the room of a tree, and an empty block.
fn file_with(room: &[u8]) -> Vec<u8> {
    [HEADER_LINE, room, &block_header(0, 0)].concat()
}

/// The file with a tree of 18 bytes, 10 spaces and an empty block: 94 bytes.
fn one_tree() -> Vec<u8> {
    file_with(b"%YAML 1.1\n---\n...\n          ")
}

#[test]
fn p4_outline_of_one_block() {
    let file = one_block();
    let row = [0, 0, 0, 0x30, 0, 0, 0, 0x0C, 0, 0, 0, 0, 0, 0, 0, 0];
    assert_eq!(exports::count(&file), 1);
    assert_writes(|out| exports::outline(&file, out), &row);
}

#[test]
fn p5_index_of_one_block_is_good_after_it() {
    let file = one_block();
    let text = b"#ASDF BLOCK INDEX\n%YAML 1.1\n--- [12]\n...\n";
    assert_eq!(text.len(), 41);
    assert_writes(|out| exports::index(&file, out), text);
    assert_eq!(verdict(&file), "absent");
    assert_eq!(verdict(&[&file[..], text].concat()), "good");
}

#[test]
fn p10_outline_of_a_file_in_a_block() {
    let file = file_of([&one_block()[..]]);
    let rows = [
        [
            0x01, 0, 0, 0x30, 0, 0, 0, 0x0C, 0, 0, 0, 0x42, 0, 0, 0, 0x42,
        ],
        [
            0x20, 0, 0, 0x30, 0, 0, 0, 0x4E, 0, 0, 0, 0x00, 0, 0, 0, 0x00,
        ],
    ];
    assert_eq!(exports::count(&file), 2);
    assert_writes(|out| exports::outline(&file, out), &rows.concat());
}

#[test]
fn p11_layout_of_one_tree_and_one_block() {
    let file = one_tree();
    assert_eq!(file.len(), 94);
    let layout: [u64; 12] = [1, 0, 0, 12, 12, 1, 12, 30, 40, 1, 0, 0];
    let bytes = layout.map(u64::to_be_bytes).concat();
    assert_writes(|out| exports::read(&file, out), &bytes);
    let block: [u64; 10] = [0, 40, 48, 0, 0, 0, 0, 0, 0, 0];
    let bytes = block.map(u64::to_be_bytes).concat();
    assert_writes(|out| exports::block(&file, 0, out), &bytes);
}

#[test]
fn p12_edit_that_leaves_no_spaces() {
    let text = b"%YAML 1.1\n---\nxxxxxxxxx\n...\n";
    assert_eq!(text.len(), 28);
    let mut file = one_tree();
    assert_eq!(exports::edit(&mut file, text), 0);
    assert_eq!(file, file_with(text));
}

#[test]
fn p13_edit_with_one_byte_too_many_is_refused_with_20() {
    let text = b"%YAML 1.1\n---\nxxxxxxxxxx\n...\n";
    let mut file = one_tree();
    assert_eq!(exports::edit(&mut file, text), 20 << 56);
    assert_eq!(file, one_tree());
}

/// Where the smallest tree ends. It begins at 12.
const TREE_END: usize = 30;

/// Where the room of the smallest tree ends if the bytes `rest` follow the tree up to the end of
/// the file. Both proved searches have to find the same place. If the file is accepted, its layout
/// has to report this place too.
fn room_end(rest: &[u8]) -> usize {
    let file = [HEADER_LINE, LEAST_TREE, rest].concat();
    let found = exports::find_mark(&file, TREE_END);
    assert_eq!(exports::find_mark_plain(&file, TREE_END), found);
    let mut layout = [0; LAYOUT_BYTES];
    if exports::read(&file, &mut layout) == LAYOUT_BYTES as u64 {
        assert_eq!(layout[64..72], (found as u64).to_be_bytes());
    }
    found
}

/// Where the room ends if these bytes and an empty block follow the tree.
fn room_end_before_a_block(space: &[u8]) -> usize {
    room_end(&[space, &block_header(0, 0)].concat())
}

#[test]
fn mark_is_found_after_any_number_of_spaces() {
    for spaces in 0..=200 {
        let found = room_end_before_a_block(&vec![b' '; spaces]);
        assert_eq!(found, TREE_END + spaces);
    }
}

#[test]
fn mark_is_found_after_parts_of_one() {
    let cases: [(&[u8], usize); 4] = [
        (b"\xD3", 31),
        (b"KKKKKKKK", 38),
        (b"\xD3BL", 33),
        (b"\xD3BLK", 30),
    ];
    for (space, expected) in cases {
        assert_eq!(room_end_before_a_block(space), expected);
    }
}

#[test]
fn first_of_two_marks_in_reach_is_found() {
    assert_eq!(room_end_before_a_block(b"x\xD3BLK"), 31);
    let file = [HEADER_LINE, LEAST_TREE, b"x\xD3BLK", &block_header(0, 0)].concat();
    let cut_header_at_31 = (11 << 56) + 31;
    assert_eq!(
        exports::read(&file, &mut [0; LAYOUT_BYTES]),
        cut_header_at_31
    );
}

#[test]
fn room_without_a_mark_ends_with_the_file() {
    for rest in [&b""[..], b"\xD3", b"\xD3B", b"\xD3BL", b"  \xD3", b"K"] {
        assert_eq!(room_end(rest), TREE_END + rest.len());
    }
}
