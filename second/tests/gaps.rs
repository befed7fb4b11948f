//! Tests the space between blocks (W-204): the search for the next mark, the index that is tried
//! before it, and the tail if no mark follows.

mod common;

use asdf_second::*;
use common::*;
use std::fs;
use std::path::Path;

/// The 17 bytes with which an index begins.
const INDEX_BEGINNING: &[u8] = b"#ASDF BLOCK INDEX";

/// The offsets of a file's own blocks and the verdict on its index, or the refusal.
type Chain = Result<(Vec<usize>, Verdict), Refusal>;

fn chain(file: &[u8]) -> Chain {
    let layout = read(file)?;
    Ok((layout.blocks.iter().map(offset).collect(), layout.index))
}

fn offset(block: &Block) -> usize {
    block.offset.0 as usize
}

fn accepted(offsets: &[usize], index: Verdict) -> Chain {
    Ok((offsets.to_vec(), index))
}

fn refused(number: u8, place: usize) -> Chain {
    Err(refusal(number, place as u64))
}

/// Returns the file and an empty block after it.
fn with_block(file: &[u8]) -> Vec<u8> {
    join(&[file, &block().bytes()])
}

/// Returns a file with two blocks, at 12 and 69, and a gap of three bytes between them.
fn with_gap() -> Vec<u8> {
    with_block(&join(&[&b(), b"gap"]))
}

/// Returns byte strings that are only zeros.
fn zeros() -> Vec<Vec<u8>> {
    [1, 4, 100].map(|count| vec![0; count]).to_vec()
}

/// Returns byte strings that are not only zeros, hold no mark and do not begin as an index.
fn stray_bytes() -> Vec<Vec<u8>> {
    vec![
        b" ".to_vec(),
        b"\n".to_vec(),
        b"\0\0x".to_vec(),
        b"x\0\0".to_vec(),
        A.to_vec(),
        TREE.to_vec(),
        b"#ASDF BLOCK INDEx".to_vec(),
        b"\0#ASDF BLOCK INDEX\n".to_vec(),
        MARK[..3].to_vec(),
        MARK[1..].to_vec(),
        vec![0xD3; 9],
        join(&[&MARK[..2], &MARK[..3], b"LK"]),
    ]
}

/// Returns byte strings of both kinds.
fn gaps() -> Vec<Vec<u8>> {
    [zeros(), stray_bytes()].concat()
}

// The next tests cover the gap.

#[test]
fn zeros_are_a_gap_before_a_mark_and_an_absent_index_without_one() {
    for gap in zeros() {
        let file = join(&[&b(), &gap]);
        assert_eq!(chain(&file), accepted(&[12], Verdict::Absent));
        let expected = accepted(&[12, file.len()], Verdict::Absent);
        assert_eq!(chain(&with_block(&file)), expected, "{gap:?}");
    }
}

#[test]
fn other_bytes_are_a_gap_before_a_mark_and_a_stray_tail_without_one() {
    for gap in stray_bytes() {
        let file = join(&[&b(), &gap]);
        assert_eq!(chain(&file), refused(17, 66), "{gap:?}");
        let expected = accepted(&[12, file.len()], Verdict::Absent);
        assert_eq!(chain(&with_block(&file)), expected, "{gap:?}");
    }
}

#[test]
fn each_gap_of_a_chain_is_passed() {
    let mut file = A.to_vec();
    let mut offsets = Vec::new();
    for gap in gaps() {
        offsets.push(file.len());
        file = join(&[&with_block(&file), &gap]);
    }
    offsets.push(file.len());
    let expected = accepted(&offsets, Verdict::Absent);
    assert_eq!(chain(&with_block(&file)), expected);
}

#[test]
fn gap_may_be_long_and_full_of_parts_of_a_mark() {
    let file = join(&[&b(), &MARK[..3].repeat(500_000)]);
    let expected = accepted(&[12, file.len()], Verdict::Absent);
    assert_eq!(chain(&with_block(&file)), expected);
}

#[test]
fn gap_belongs_to_no_block() {
    let layout = read(&with_gap()).unwrap();
    assert_eq!((layout.blocks[0].allocated, layout.blocks[0].used), (0, 0));
    let streamed_last = join(&[&b(), b"gap", &streamed(b"rest").bytes()]);
    let last = read(&streamed_last).unwrap().blocks[1];
    assert_eq!((last.offset, last.allocated), (InFile(69), 4));
}

// The next tests cover where the search begins.

#[test]
fn content_and_unused_space_are_not_searched() {
    let hidden = join(&[&block().bytes(), &index_of("12")]);
    for used in [0, 10, hidden.len() as u64] {
        let first = file_with(block_of(&hidden).used(used).data_size(used));
        let end = first.len();
        assert_eq!(chain(&first), accepted(&[12], Verdict::Absent));
        assert_eq!(chain(&join(&[&first, b"x"])), refused(17, end));
        let expected = accepted(&[12, end + 1], Verdict::Absent);
        assert_eq!(chain(&with_block(&join(&[&first, b"x"]))), expected);
    }
}

#[test]
fn mark_that_begins_inside_allocated_space_is_no_mark() {
    for inside in 1..4 {
        let allocated = block_of(&MARK[..inside]);
        for parts in [allocated.clone(), allocated.used(0).data_size(0)] {
            let first = file_with(parts);
            let file = join(&[&first, &MARK[inside..]]);
            assert_eq!(
                chain(&file),
                refused(17, first.len()),
                "{inside} bytes inside"
            );
            let expected = accepted(&[12, file.len()], Verdict::Absent);
            assert_eq!(chain(&with_block(&file)), expected, "{inside} bytes inside");
        }
    }
    assert_eq!(chain(&join(&[&b(), MARK])), refused(11, 66));
}

#[test]
fn index_that_begins_inside_allocated_space_is_no_index() {
    let text = index_of("12");
    let first = file_with(block_of(&text[..1]));
    assert_eq!(chain(&join(&[&first, &text[1..]])), refused(17, 67));
    let directly_after = join(&[&first, &text]);
    assert_eq!(chain(&directly_after), accepted(&[12], Verdict::Good));
}

#[test]
fn space_before_the_first_block_needs_a_tree() {
    for space in [&b"\0"[..], b" ", b"space", &MARK[..3]] {
        let rest = with_block(&with_block(space));
        for before in [A.to_vec(), join(&[A, b"# one\n"])] {
            let without_tree = join(&[&before, &rest]);
            assert_eq!(chain(&without_tree), refused(7, before.len()));

            let with_tree = join(&[&before, TREE, &rest]);
            let first = before.len() + TREE.len() + space.len();
            let expected = accepted(&[first, first + HEADER_BYTES], Verdict::Absent);
            assert_eq!(chain(&with_tree), expected);
        }
    }
}

// The next tests cover the index.

#[test]
fn index_beginning_ends_the_chain_whatever_mark_follows() {
    for text in [
        INDEX_BEGINNING,
        b"#ASDF BLOCK INDEXED\n",
        &index_of("12"),
        &join(&[&index_of("12"), &[0; 9]]),
    ] {
        for first in [b(), with_gap()] {
            let found = chain(&first).unwrap().0;
            let file = with_block(&join(&[&first, text]));
            let expected = accepted(&found, Verdict::IgnoredForm);
            assert_eq!(chain(&file), expected, "{text:?}");
        }
    }
}

#[test]
fn part_of_an_index_beginning_is_a_gap() {
    for length in 1..INDEX_BEGINNING.len() {
        let file = join(&[&b(), &INDEX_BEGINNING[..length]]);
        assert_eq!(chain(&file), refused(17, 66), "{length} bytes");
        let expected = accepted(&[12, 66 + length], Verdict::Absent);
        assert_eq!(chain(&with_block(&file)), expected, "{length} bytes");
    }
}

#[test]
fn index_after_a_gap_is_stray_without_a_mark_and_part_of_the_gap_before_one() {
    for gap in gaps() {
        let file = join(&[&b(), &gap, &index_of("12")]);
        assert_eq!(chain(&file), refused(17, 66), "{gap:?}");
        let expected = accepted(&[12, file.len()], Verdict::Absent);
        assert_eq!(chain(&with_block(&file)), expected, "{gap:?}");
    }
}

#[test]
fn index_is_judged_by_the_offsets_on_both_sides_of_a_gap() {
    for (list, verdict) in [
        ("12, 69", Verdict::Good),
        ("12, 66", Verdict::IgnoredList),
        ("12", Verdict::IgnoredList),
        ("012, 69", Verdict::IgnoredForm),
    ] {
        let file = join(&[&with_gap(), &index_of(list)]);
        assert_eq!(chain(&file), accepted(&[12, 69], verdict), "{list}");
    }
}

#[test]
fn written_index_names_the_blocks_on_both_sides_of_a_gap() {
    let text = index_of("12, 69");
    for tail in [&b""[..], &[0; 9], &index_of("12")] {
        let mut out = vec![7; text.len()];
        let length = write_index(&join(&[&with_gap(), tail]), &mut out);
        assert_eq!(length, Ok(text.len()));
        assert_eq!(out, text);
    }
    let directly_after = join(&[&with_gap(), &text]);
    assert_eq!(chain(&directly_after), accepted(&[12, 69], Verdict::Good));
}

// The next tests cover refusals.

#[test]
fn malformed_block_after_a_gap_is_not_passed_over_for_a_later_one() {
    for (malformed, number) in malformed_blocks() {
        let file = join(&[&b(), b"gap", &malformed]);
        assert_eq!(chain(&file), refused(number, 69));
        assert_eq!(chain(&with_block(&file)), refused(number, 69));
    }
}

#[test]
fn three_bytes_of_a_mark_at_the_end_are_stray_and_four_are_refused_with_11() {
    for gap in gaps() {
        let file = join(&[&b(), &gap]);
        assert_eq!(chain(&join(&[&file, &MARK[..3]])), refused(17, 66));
        assert_eq!(chain(&join(&[&file, MARK])), refused(11, file.len()));
    }
}

#[test]
fn place_of_17_is_the_end_of_the_last_block_found() {
    let file = with_gap();
    for tail in stray_bytes() {
        let stray = join(&[&file, &tail]);
        assert_eq!(chain(&stray), refused(17, file.len()), "{tail:?}");
    }
}

#[test]
fn mark_65_after_a_gap_is_refused_with_16_at_that_mark() {
    let last_ones = [
        MARK.to_vec(),
        block().bytes(),
        streamed(b"").bytes(),
        block().header_size(0).bytes(),
    ];
    for gap in gaps() {
        let file = join(&[&file_of_blocks(64), &gap]);
        for last in &last_ones {
            let with_65 = join(&[&file, last]);
            assert_eq!(chain(&with_65), refused(16, file.len()), "{gap:?}");
        }
    }
}

#[test]
fn without_a_65th_mark_the_tail_of_64_blocks_is_judged_as_any_other() {
    let full = file_of_blocks(64);
    for tail in zeros() {
        assert_eq!(chain(&join(&[&full, &tail])), chain(&full));
    }
    for tail in stray_bytes() {
        let stray = join(&[&full, &tail]);
        assert_eq!(chain(&stray), refused(17, full.len()), "{tail:?}");
    }
}

#[test]
fn mark_65_after_an_index_beginning_is_not_found() {
    let full = file_of_blocks(64);
    let offsets = chain(&full).unwrap().0;
    for text in [INDEX_BEGINNING, &index_of("12")] {
        let file = with_block(&join(&[&full, text]));
        assert_eq!(chain(&file), accepted(&offsets, Verdict::IgnoredForm));
    }
}

#[test]
fn blocks_64_with_gaps_are_accepted_and_a_65th_is_refused_with_16() {
    let block_and_gap = join(&[&block().bytes(), b"gap"]);
    let gapped = join(&[A, &block_and_gap.repeat(63)]);
    let full = with_block(&gapped);
    let offsets: Vec<usize> = (0..64).map(|i| 12 + 57 * i).collect();
    assert_eq!(chain(&full), accepted(&offsets, Verdict::Absent));
    let one_more = with_block(&join(&[&full, b"gap"]));
    assert_eq!(chain(&one_more), refused(16, 12 + 57 * 64));
}

// The next tests cover files inside blocks.

#[test]
fn nested_file_and_the_file_around_it_have_gaps_of_their_own() {
    let nested = block_of(&with_gap()).bytes();
    let file = with_block(&join(&[A, &nested, b"outer gap"]));
    let expected = "tree none\n\
                    0 0 12 48 123 123 0 0 0 1\n\
                    1 0 78 48 0 0 0 0 0 0\n\
                    1 1 135 48 0 0 0 0 0 0\n\
                    0 1 198 48 0 0 0 0 0 0\n\
                    index absent\n";
    assert_eq!(String::from_utf8_lossy(&listing(&file)), expected);
}

#[test]
fn gap_is_passed_at_the_deepest_depth() {
    let found = rows(&wrapped(&with_gap(), 7)).unwrap();
    let deepest: Vec<_> = found[7..]
        .iter()
        .map(|row| (row.depth, row.ordinal, row.offset.0))
        .collect();
    let start = 7 * 66;
    assert_eq!(deepest, [(7, 0, start + 12), (7, 1, start + 69)]);
}

#[test]
fn search_in_a_nested_file_ends_with_that_file() {
    let content = with_block(&join(&[&b(), b"x"]));
    let inner_of_used = |used| inner_of(block_of(&content).used(used).data_size(used));
    for used in 67..71 {
        let stray = Inner::Refused(refusal(17, 66));
        assert_eq!(inner_of_used(used), stray, "{used} used bytes");
    }
    for used in 71..121 {
        let cut = Inner::Refused(refusal(11, 67));
        assert_eq!(inner_of_used(used), cut, "{used} used bytes");
    }
    assert_eq!(inner_of_used(121), Inner::Opened);
}

#[test]
fn refusal_after_a_gap_in_a_nested_file_counts_from_that_file() {
    let sixty_five = join(&[&file_of_blocks(64), b"gap", MARK]);
    for (content, expected) in [
        (
            join(&[&b(), b"gap", &block().used(1).bytes()]),
            refusal(13, 69),
        ),
        (sixty_five, refusal(16, 12 + 64 * 54 + 3)),
        (join(&[&with_gap(), b"x"]), refusal(17, 123)),
    ] {
        assert_eq!(inner_of(block_of(&content)), Inner::Refused(expected));
    }
}

// The next tests cover the edit and the outline.

#[test]
fn edit_keeps_every_gap_and_what_stands_after_it() {
    let nested = block_of(&with_gap()).bytes();
    let first = join(&[A, TREE, b"free", &nested, b"gap"]);
    let index = index_of(&format!("34, {}", first.len()));
    let before = join(&[&with_block(&first), &index]);

    let mut after = before.clone();
    assert_eq!(edit(&mut after, &tree_of("y\n")), Ok(()));
    assert_eq!(after[34..], before[34..]);
    let expected = accepted(&[34, first.len()], Verdict::Good);
    assert_eq!(chain(&before), expected);
    assert_eq!(chain(&after), expected);
    assert_eq!(records(&after), records(&before));
}

#[test]
fn outline_has_no_trace_of_a_gap_but_the_offset_after_it() {
    let mut out = [7; 33];
    assert_eq!(outline(&with_gap(), &mut out), Ok(32));
    let row = |ordinal, offset| [0, ordinal, 0, 48, 0, 0, 0, offset, 0, 0, 0, 0, 0, 0, 0, 0];
    let rows = [row(0, 12), row(1, 69)].concat();
    assert_eq!(out.as_slice(), join(&[&rows, &[7]]));
}

// The next test reads a real file.

#[test]
fn real_file_with_a_gap_has_the_blocks_that_its_own_index_lists() {
    let folder = Path::new(env!("CARGO_MANIFEST_DIR")).join("../tests/data");
    let file = fs::read(folder.join("updated-gap.asdf")).unwrap();
    assert!(file.ends_with(b"\n- 703\n- 1026\n- 1366\n...\n"));
    let expected = accepted(&[703, 1026, 1366], Verdict::Good);
    assert_eq!(chain(&file), expected);
}
