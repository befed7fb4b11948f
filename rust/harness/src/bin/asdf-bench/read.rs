//! Measures the layout of one file, without the files inside it, next to the second program and a
//! bare search of libc.

use crate::index::indexed_files;
use crate::measure::medians;
use asdf_harness::calls::exports;
use asdf_harness::calls::numbers::LAYOUT_BYTES;
use asdf_harness::files::nests::file_with_gaps;
use asdf_harness::files::sparse::chain_of_blocks;
use asdf_harness::files::sparse::SparseFile;
use asdf_harness::format::block::{block_header, FIELD_BYTES};
use asdf_harness::format::text::{HEADER_LINE, MARK};
use asdf_harness::rng::Rng;
use std::hint::black_box;
use std::io;

pub const MIB: usize = 1 << 20;
pub const GIB: usize = 1 << 30;
const BLOCKS: usize = 64;

/// The lines before and after the content of a tree.
const TREE_BEGIN: &[u8] = b"%YAML 1.1\n---\n";
const TREE_END: &[u8] = b"...\n";

/// A line of 40 bytes and its line end.
pub const LINE_OF_41: &[u8] = b"xxxxxxxxxxxxxxxxxxxxxxxxxxxxxxxxxxxxxxxx\n";

/// A search of libc that has to look at the same bytes as a reader.
type Floor = fn(&[u8]) -> usize;

/// A file that is read.
struct Case {
    name: &'static str,
    file: SparseFile,
    floor: Floor,
}

/// Measures every file and prints a line for each.
pub fn print_table() -> io::Result<()> {
    println!(
        "{:<52}{:>12}{:>12}{:>12}{:>12}{:>12}",
        "file", "asdf_read", "second", "floor", "to second", "to floor"
    );
    for case in cases()? {
        print_row(&case);
    }
    Ok(())
}

/// All files that are measured.
fn cases() -> io::Result<Vec<Case>> {
    let long_line = [vec![b'x'; MIB - 1], vec![b'\n']].concat();
    let mut cases = vec![
        tree_case("tree of 1 MiB in lines of 41 bytes", LINE_OF_41)?,
        tree_case("tree of 1 MiB in lines of 1 byte", b"\n")?,
        tree_case("tree of 1 MiB in one line", &long_line)?,
        Case {
            name: "1 MiB of free space",
            file: tree_file(b"", &[b' '; MIB])?,
            floor: find_mark,
        },
        Case {
            name: "64 blocks over a sparse gigabyte",
            file: chain_of_blocks(BLOCKS, GIB / BLOCKS)?,
            floor: find_each_block,
        },
        Case {
            name: "one block, 64 MiB of zeros after it",
            file: block_before_zeros()?,
            floor: find_zeros,
        },
        gap_case("64 blocks, 1 MiB of spaces between each two", &[b' '; MIB])?,
        gap_case(
            "64 blocks, 1 MiB of random bytes between each two",
            &random_bytes(),
        )?,
    ];
    for (name, file) in indexed_files() {
        cases.push(Case {
            name,
            file: SparseFile::new(file.len(), &[(0, &file)])?,
            floor: find_line_ends,
        });
    }
    Ok(cases)
}

/// A file with a tree whose content is 1 MiB of copies of one line.
fn tree_case(name: &'static str, line: &[u8]) -> io::Result<Case> {
    Ok(Case {
        name,
        file: tree_file(&line.repeat(MIB / line.len()), b"")?,
        floor: find_line_ends,
    })
}

/// A file with as many empty blocks as allowed, and the bytes `gap` before each block except the
/// first.
fn gap_case(name: &'static str, gap: &[u8]) -> io::Result<Case> {
    let file = file_with_gaps([&b""[..]; BLOCKS], gap);
    Ok(Case {
        name,
        file: SparseFile::new(file.len(), &[(0, &file)])?,
        floor: find_all_marks,
    })
}

/// A file with an empty block and zeros after it. The zeros are written, so that they take memory
/// like those of a real file.
fn block_before_zeros() -> io::Result<SparseFile> {
    let zeros = vec![0; 64 * MIB];
    let file = [HEADER_LINE, &block_header(0, 0), &zeros].concat();
    SparseFile::new(file.len(), &[(0, &file)])
}

/// A megabyte of random bytes without a mark.
pub fn random_bytes() -> Vec<u8> {
    Rng::for_file(1, 0).bytes(MIB)
}

/// A file with a tree of this content, this free space, and an empty block.
pub fn tree_file(content: &[u8], free_space: &[u8]) -> io::Result<SparseFile> {
    let (tree, block) = (tree_text(content), block_header(0, 0));
    let file = [HEADER_LINE, &tree, free_space, &block].concat();
    SparseFile::new(file.len(), &[(0, &file)])
}

/// A tree with this content.
pub fn tree_text(content: &[u8]) -> Vec<u8> {
    [TREE_BEGIN, content, TREE_END].concat()
}

/// Finds the end of each line with `memchr`, and counts the lines.
fn find_line_ends(file: &[u8]) -> usize {
    let (mut start, mut lines) = (0, 0);
    while let Some(length) = exports::find_byte(&file[start..], b'\n') {
        start += length + 1;
        lines += 1;
    }
    lines
}

/// Finds the first mark with `memmem`.
fn find_mark(file: &[u8]) -> usize {
    exports::find_bytes(file, MARK).unwrap_or(file.len())
}

/// Finds the mark at the place of each block with `memmem`.
fn find_each_block(file: &[u8]) -> usize {
    let blocks = file[HEADER_LINE.len()..].chunks(GIB / BLOCKS);
    blocks.map(find_mark).sum()
}

/// Finds one mark after another with `memmem`, and counts them.
fn find_all_marks(file: &[u8]) -> usize {
    let (mut start, mut marks) = (0, 0);
    while let Some(length) = exports::find_bytes(&file[start..], MARK) {
        start += length + MARK.len();
        marks += 1;
    }
    marks
}

/// Compares the zeros after an empty block with `memcmp`, and counts them.
fn find_zeros(file: &[u8]) -> usize {
    let tail = &file[HEADER_LINE.len() + FIELD_BYTES..];
    if exports::only_zeros(tail) {
        tail.len()
    } else {
        0
    }
}

/// Measures one file and prints the times.
fn print_row(case: &Case) {
    let file: &[u8] = &case.file;
    let mut out = [0; LAYOUT_BYTES];
    assert_eq!(exports::read(file, &mut out), LAYOUT_BYTES as u64);
    assert_eq!(blocks_of(&out), second_blocks(file), "{}", case.name);
    let [ours, second, floor] = medians([
        &mut || black_box(exports::read(black_box(file), &mut out)) as usize,
        &mut || second_blocks(black_box(file)),
        &mut || (case.floor)(black_box(file)),
    ]);
    println!(
        "{:<52}{ours:>12.2}{second:>12.2}{floor:>12.2}{:>12.2}{:>12.2}",
        case.name,
        ours / second,
        ours / floor
    );
}

/// The number of blocks in an answer.
fn blocks_of(answer: &[u8; LAYOUT_BYTES]) -> usize {
    let [.., blocks, _verdict, _line_end] = answer.as_chunks().0 else {
        return 0;
    };
    u64::from_be_bytes(*blocks) as usize
}

/// How many blocks the second program finds.
fn second_blocks(file: &[u8]) -> usize {
    black_box(asdf_second::read(file)).map_or(0, |layout| layout.blocks.len())
}
