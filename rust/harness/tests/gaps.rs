//! Runs the proved functions on files with space between blocks: what is found after a gap, on both
//! sides of every rule.
//!
//! Most files begin with the file of 66 bytes that has an empty block at 12.

mod common;

use asdf_harness::calls::exports;
use asdf_harness::files::nests::{file_of, file_with_gaps};
use asdf_harness::format::block::block_header;
use asdf_harness::format::text::{HEADER_LINE, INDEX_LINE, LEAST_TREE, MARK};
use common::{assert_writes, layout, numbers, one_block, verdict};

/// The index of a block at 12: 41 bytes.
const INDEX_OF_12: &[u8] = b"#ASDF BLOCK INDEX\n%YAML 1.1\n--- [12]\n...\n";
/// A file in which the library of the ASDF project left a gap.
const UPDATED_GAP: &[u8] = include_bytes!("../../../tests/data/updated-gap.asdf");

const STREAMED: u32 = 1;

/// Places in the header of a block: both bytes of the header size, and the lowest byte of each of
/// the other sizes.
const HIGH_H: usize = 4;
const LOW_H: usize = 5;
const ALLOCATED: usize = 21;
const USED: usize = 29;
const DATA_SIZE: usize = 37;

/// A function that writes what it finds in a file.
type Writer = fn(&[u8], &mut [u8]) -> u64;

/// The empty block: 54 bytes.
fn empty_block() -> Vec<u8> {
    block_header(0, 0)
}

/// The empty block with another value for one of its bytes.
fn block_with(place: usize, byte: u8) -> Vec<u8> {
    let mut block = empty_block();
    block[place] = byte;
    block
}

/// A wrong block for each number from 11 to 15. It is refused with this number even if an empty
/// block follows.
fn wrong_blocks() -> [(Vec<u8>, u64); 5] {
    [
        (block_with(HIGH_H, 0xFF), 11),
        (block_with(LOW_H, 47), 12),
        (block_with(USED, 1), 13),
        (block_with(DATA_SIZE, 1), 14),
        (block_with(ALLOCATED, 200), 15),
    ]
}

/// The file with one block, followed by these parts.
fn after_one_block(parts: &[&[u8]]) -> Vec<u8> {
    [&one_block()[..], &parts.concat()].concat()
}

/// The file with as many empty blocks as allowed. The bytes `tail` follow at 3468.
fn after_64_blocks(tail: &[u8]) -> Vec<u8> {
    [&file_of([&b""[..]; 64]), tail].concat()
}

/// Asks for the block with this ordinal, which has to exist. Returns its offset, flags, allocated
/// size and used size.
fn block(file: &[u8], ordinal: u64) -> [u64; 4] {
    let [number, offset, _, flags, _, allocated, used, ..] =
        numbers::<10>(|out| exports::block(file, ordinal, out));
    assert_eq!(number, ordinal);
    [offset, flags, allocated, used]
}

/// Asserts that a file is accepted with blocks at these offsets and with this verdict. No block may
/// hold a file.
fn assert_blocks(file: &[u8], offsets: &[u64], expected: &str) {
    let [.., blocks, _verdict, _line_end] = layout(file);
    let count = offsets.len() as u64;
    assert_eq!((blocks, verdict(file)), (count, expected));
    assert_eq!(exports::count(file), count);
    for (ordinal, offset) in (0..).zip(offsets) {
        assert_eq!(block(file, ordinal)[0], *offset);
        assert_eq!(record(file, ordinal), [0, *offset, 0, 0, 0]);
    }
    assert_eq!(exports::block(file, count, &mut []), 0);
}

/// Asks for a record. Returns its depth, its offset in the outermost file, its inner state, and the
/// number and place of a refusal.
fn record(file: &[u8], number: u64) -> [u64; 5] {
    let [depth, offset, inner, refusal, place, ..] =
        numbers::<15>(|out| exports::record(file, number, out));
    [depth, offset, inner, refusal, place]
}

/// Asserts that a file has these records and no more.
fn assert_records(file: &[u8], expected: &[[u64; 5]]) {
    assert_eq!(exports::count(file), expected.len() as u64);
    for (number, expected) in (0..).zip(expected) {
        assert_eq!(record(file, number), *expected);
    }
}

/// Asserts that every function refuses a file with this number at this place.
fn assert_refused(file: &[u8], number: u64, place: u64) {
    let refused = (number << 56) + place;
    let writers: [Writer; 4] = [
        exports::read,
        exports::outline,
        exports::records,
        exports::index,
    ];
    for writer in writers {
        assert_eq!(writer(file, &mut []), refused);
    }
    assert_eq!(exports::count(file), refused);
    assert_eq!(exports::block(file, 0, &mut []), refused);
    assert_eq!(exports::record(file, 0, &mut []), refused);
    assert_eq!(exports::edit(&mut file.to_vec(), LEAST_TREE), refused);
}

#[test]
fn next_block_is_at_the_first_mark() {
    let index_after_zero = [b"\0", INDEX_OF_12].concat();
    let index_line_after_space = [b" ", INDEX_LINE].concat();
    let cases: [(&[u8], u64); 11] = [
        (b"", 66),
        (b"\0", 67),
        (b"x", 67),
        (b"  ", 68),
        (b"\xD3", 67),
        (b"\xD3B", 68),
        (b"\xD3BL", 69),
        (b"BLK", 69),
        (&INDEX_LINE[..16], 82),
        (&index_line_after_space, 84),
        (&index_after_zero, 108),
    ];
    for (gap, second) in cases {
        let file = after_one_block(&[gap, &empty_block()]);
        assert_blocks(&file, &[12, second], "absent");
    }
}

#[test]
fn gap_may_have_any_length() {
    for length in 0..=200 {
        let file = after_one_block(&[&vec![b' '; length], &empty_block()]);
        assert_blocks(&file, &[12, 66 + length as u64], "absent");
    }
}

#[test]
fn every_block_may_follow_a_gap() {
    let file = file_with_gaps([&b"a"[..], b"", b"bc", b""], b"\0\xD3BL");
    assert_blocks(&file, &[12, 71, 129, 189], "absent");
}

#[test]
fn cut_block_after_a_gap_is_refused_with_11() {
    for length in [4, 5, 6, 53] {
        let block = &empty_block()[..length];
        assert_refused(&after_one_block(&[block]), 11, 66);
        assert_refused(&after_one_block(&[b"\0", block]), 11, 67);
    }
}

#[test]
fn wrong_block_after_a_gap_is_refused_at_its_mark() {
    let five_bytes_missing = (block_with(ALLOCATED, 5), 15);
    for (block, number) in wrong_blocks().into_iter().chain([five_bytes_missing]) {
        assert_refused(&after_one_block(&[&block]), number, 66);
        assert_refused(&after_one_block(&[b"\0", &block]), number, 67);
        assert_refused(&after_one_block(&[b"x\xD3BL", &block]), number, 70);
    }
}

#[test]
fn wrong_block_is_not_passed_over_for_a_later_one() {
    for (block, number) in wrong_blocks() {
        let followed = [&block[..], &empty_block()].concat();
        assert_refused(&after_one_block(&[&followed]), number, 66);
        assert_refused(&after_one_block(&[b"\0", &followed]), number, 67);
        let with_gaps = after_one_block(&[b"\0", &block, b"gap", &followed]);
        assert_refused(&with_gaps, number, 67);
    }
}

#[test]
fn tail_without_a_mark_is_empty_or_zeros_or_refused_at_the_end_of_the_last_block() {
    for zeros in [0, 1, 100] {
        assert_blocks(&after_one_block(&[&vec![0; zeros]]), &[12], "absent");
    }
    let index_after_zero = [b"\0", INDEX_OF_12].concat();
    let stray: [&[u8]; 6] = [
        b"x",
        b"\0\0x",
        b"\xD3BL",
        b"\0\xD3BL",
        &INDEX_LINE[..16],
        &index_after_zero,
    ];
    for tail in stray {
        assert_refused(&after_one_block(&[tail]), 17, 66);
    }
    let after_gap = after_one_block(&[b"gap", &empty_block(), b"\0x"]);
    assert_refused(&after_gap, 17, 123);
}

#[test]
fn index_ends_the_chain_whatever_follows() {
    for index in [INDEX_LINE, INDEX_OF_12] {
        for after in [MARK, &empty_block(), &block_with(LOW_H, 47)] {
            let file = after_one_block(&[index, after]);
            assert_blocks(&file, &[12], "ignored-form");
        }
    }
}

#[test]
fn index_lists_the_marks_and_not_the_ends() {
    let file = after_one_block(&[b"  ", &empty_block()]);
    let index = b"#ASDF BLOCK INDEX\n%YAML 1.1\n--- [12, 68]\n...\n";
    assert_writes(|out| exports::index(&file, out), index);
    assert_blocks(&[&file[..], index].concat(), &[12, 68], "good");
    let of_ends = b"#ASDF BLOCK INDEX\n%YAML 1.1\n--- [12, 66]\n...\n";
    assert_blocks(&[&file[..], of_ends].concat(), &[12, 68], "ignored-list");
}

#[test]
fn mark_after_64_blocks_is_refused_where_it_stands() {
    assert_refused(&after_64_blocks(MARK), 16, 3468);
    assert_refused(&after_64_blocks(b"\0\xD3BLK"), 16, 3469);
    let after_index = [b"\0", INDEX_LINE, MARK].concat();
    assert_refused(&after_64_blocks(&after_index), 16, 3486);
}

#[test]
fn tail_of_64_blocks_without_a_mark_is_judged_as_any_other() {
    let offsets: Vec<u64> = (0..64).map(|ordinal| 12 + 54 * ordinal).collect();
    for tail in [&b""[..], b"\0"] {
        assert_blocks(&after_64_blocks(tail), &offsets, "absent");
    }
    let index_and_mark = [INDEX_LINE, MARK].concat();
    assert_blocks(&after_64_blocks(&index_and_mark), &offsets, "ignored-form");
    assert_refused(&after_64_blocks(b"x"), 17, 3468);
}

#[test]
fn mark_that_begins_in_a_block_is_none() {
    let content_then_gap = [&file_of([&b"ab\xD3B"[..]]), &b"LK"[..]].concat();
    let file = [content_then_gap, empty_block()].concat();
    assert_blocks(&file, &[12, 72], "absent");
}

#[test]
fn mark_inside_a_block_is_none() {
    let in_content = file_of([MARK]);
    let in_unused_space = [HEADER_LINE, &block_with(ALLOCATED, 4), MARK].concat();
    for file in [in_content, in_unused_space] {
        assert_blocks(&file, &[12], "absent");
        let followed = [&file[..], b"\0", &empty_block()].concat();
        assert_blocks(&followed, &[12, 71], "absent");
    }
}

#[test]
fn streamed_block_after_a_gap_takes_the_rest() {
    let file = after_one_block(&[b"xyz", &block_header(STREAMED, 0), b"hello"]);
    assert_blocks(&file, &[12, 69], "absent");
    assert_eq!(block(&file, 1), [69, STREAMED.into(), 5, 5]);
    let with_mark = after_one_block(&[b"xyz", &block_header(STREAMED, 0), MARK]);
    assert_blocks(&with_mark, &[12, 69], "absent");
}

#[test]
fn nothing_changes_before_the_first_block() {
    let padded = [HEADER_LINE, b" ", &empty_block()].concat();
    assert_refused(&padded, 7, 12);
    let index_in_free_space = [HEADER_LINE, LEAST_TREE, INDEX_LINE, &empty_block()].concat();
    assert_blocks(&index_in_free_space, &[47], "absent");
}

#[test]
fn file_inside_may_have_gaps() {
    let inner = file_with_gaps([&b""[..]; 2], b"\0\0");
    let file = file_of([&inner[..]]);
    let expected = [[0, 12, 1, 0, 0], [1, 78, 0, 0, 0], [1, 134, 0, 0, 0]];
    assert_records(&file, &expected);
    let rows = [
        [1, 0, 0, 48, 0, 0, 0, 12, 0, 0, 0, 122, 0, 0, 0, 122],
        [0x20, 0, 0, 48, 0, 0, 0, 78, 0, 0, 0, 0, 0, 0, 0, 0],
        [0x20, 1, 0, 48, 0, 0, 0, 134, 0, 0, 0, 0, 0, 0, 0, 0],
    ];
    assert_writes(|out| exports::outline(&file, out), &rows.concat());
}

#[test]
fn block_is_found_after_a_refused_file_and_a_gap() {
    let stray_inside = after_one_block(&[b"q"]);
    let file = file_with_gaps([&stray_inside[..], b""], b"gap");
    assert_records(&file, &[[0, 12, 2, 17, 66], [0, 136, 0, 0, 0]]);
}

#[test]
fn edit_leaves_gaps_as_they_are() {
    let chain = [&empty_block()[..], b"\0\xD3BL", &empty_block(), b"\0"].concat();
    let mut file = [HEADER_LINE, LEAST_TREE, b"          ", &chain].concat();
    let text = b"%YAML 1.1\n---\nxxxxxxxxx\n...\n";
    assert_eq!(exports::edit(&mut file, text), 0);
    assert_eq!(file, [HEADER_LINE, text, &chain].concat());
    assert_blocks(&file, &[40, 98], "absent");
}

#[test]
fn blocks_of_a_real_file_with_a_gap_are_found() {
    assert_blocks(UPDATED_GAP, &[703, 1026, 1366], "good");
}
