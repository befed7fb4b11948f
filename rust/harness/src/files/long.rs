//! Files at the length limit. What must be reported about them is stated by hand.

use super::sparse::SparseFile;
use crate::answers::file::Answers;
use crate::calls::numbers::{layout_numbers, record_numbers, LAYOUT_NUMBERS, RECORD_NUMBERS};
use crate::format::block::{block_header, FIELD_BYTES, LEAST_HEADER_SIZE, STREAMED};
use crate::format::limits::LONGEST;
use crate::format::refusals::{of_whole, FILE_TOO_LONG};
use crate::format::text::HEADER_LINE;
use crate::same::same;
use asdf_second::Refusal;
use std::io;

const ABSENT: u64 = 0;
const GOOD: u64 = 1;
const PLAIN: u64 = 0;
const OPENED: u64 = 1;
const LINE_END_0A: u64 = 0;

/// The offset of the first block.
const FIRST: usize = HEADER_LINE.len();
/// The offset of the last block, near the end of the longest file.
const LAST: usize = 4_294_967_000;
/// The length of a gap before the last block.
const GAP: usize = 100;
/// The index of a file with these two blocks.
const INDEX: &[u8] = b"#ASDF BLOCK INDEX\n%YAML 1.1\n--- [12, 4294967000]\n...\n";

/// A long file, with its layout and records as numbers, or its refusal.
pub struct LongFile {
    pub name: &'static str,
    pub file: SparseFile,
    layout: Result<[u64; LAYOUT_NUMBERS], Refusal>,
    records: Vec<[u64; RECORD_NUMBERS]>,
    /// The index after the last block. It is empty if there is none.
    index: &'static [u8],
}

/// A block with one number for all three sizes.
#[derive(Clone, Copy)]
struct Block {
    depth: u64,
    inner: u64,
    /// Where the block's own file begins in the outermost file.
    file: usize,
    ordinal: u64,
    /// Where the block begins in the outermost file.
    place: usize,
    flags: u32,
    size: usize,
}

impl Block {
    /// A plain block of the outermost file that ends at `end`.
    fn new(ordinal: u64, place: usize, end: usize) -> Block {
        Block {
            depth: 0,
            inner: PLAIN,
            file: 0,
            ordinal,
            place,
            flags: 0,
            size: end - place - FIELD_BYTES,
        }
    }

    /// The numbers of the block's record.
    fn numbers(&self) -> [u64; RECORD_NUMBERS] {
        let [place, size] = [self.place, self.size].map(|number| number as u64);
        [
            self.depth,
            place,
            self.inner,
            0,
            0,
            self.ordinal,
            place - self.file as u64,
            LEAST_HEADER_SIZE.into(),
            self.flags.into(),
            0,
            size,
            size,
            size,
            0,
            0,
        ]
    }
}

/// All long files.
pub fn long_files() -> io::Result<Vec<LongFile>> {
    Ok(vec![
        too_long()?,
        one_block()?,
        streamed_block()?,
        two_blocks_and_index()?,
        gap_and_index()?,
        file_inside()?,
    ])
}

/// A file that is one byte longer than the limit.
fn too_long() -> io::Result<LongFile> {
    Ok(LongFile {
        name: "file of 4,294,967,296 bytes",
        file: SparseFile::new(LONGEST + 1, &[(0, HEADER_LINE)])?,
        layout: Err(of_whole(FILE_TOO_LONG)),
        records: Vec::new(),
        index: b"",
    })
}

/// The longest file with one block and five zeros after it.
fn one_block() -> io::Result<LongFile> {
    let block = Block::new(0, FIRST, LONGEST - 5);
    longest_file("longest file with one block", &[block], b"")
}

/// The longest file with a streamed block.
fn streamed_block() -> io::Result<LongFile> {
    let block = Block {
        flags: STREAMED,
        ..Block::new(0, FIRST, LONGEST)
    };
    longest_file("longest file with a streamed block", &[block], b"")
}

/// The longest file with a block near its end, and an index after this block.
fn two_blocks_and_index() -> io::Result<LongFile> {
    let blocks = [
        Block::new(0, FIRST, LAST),
        Block::new(1, LAST, LONGEST - INDEX.len()),
    ];
    longest_file("longest file with an index", &blocks, INDEX)
}

/// The same file with zeros between the two blocks.
fn gap_and_index() -> io::Result<LongFile> {
    let blocks = [
        Block::new(0, FIRST, LAST - GAP),
        Block::new(1, LAST, LONGEST - INDEX.len()),
    ];
    longest_file("longest file with a gap and an index", &blocks, INDEX)
}

/// The longest file with a file inside. This inner file has a block near its end.
fn file_inside() -> io::Result<LongFile> {
    let outer = Block {
        inner: OPENED,
        ..Block::new(0, FIRST, LONGEST)
    };
    let file = FIRST + FIELD_BYTES;
    let inside = |block| Block {
        depth: 1,
        file,
        ..block
    };
    let first = inside(Block::new(0, file + FIRST, LAST));
    let last = inside(Block::new(1, LAST, LONGEST));
    longest_file(
        "longest file with a file inside",
        &[outer, first, last],
        b"",
    )
}

/// A file of the largest length with these blocks, and with this index at its end.
fn longest_file(
    name: &'static str,
    blocks: &[Block],
    index: &'static [u8],
) -> io::Result<LongFile> {
    let headers: Vec<(usize, Vec<u8>)> = blocks
        .iter()
        .map(|block| (block.place, block_header(block.flags, block.size as u64)))
        .collect();
    let mut parts = vec![(LONGEST - index.len(), index)];
    parts.extend(blocks.iter().map(|block| (block.file, HEADER_LINE)));
    parts.extend(headers.iter().map(|(place, header)| (*place, &header[..])));
    let end = HEADER_LINE.len() as u64;
    let count = blocks.iter().filter(|block| block.depth == 0).count() as u64;
    let verdict = if index.is_empty() { ABSENT } else { GOOD };
    Ok(LongFile {
        name,
        file: SparseFile::new(LONGEST, &parts)?,
        layout: Ok([1, 0, 0, end, end, 0, 0, 0, 0, count, verdict, LINE_END_0A]),
        records: blocks.iter().map(Block::numbers).collect(),
        index,
    })
}

impl LongFile {
    /// Checks that the second program reports what is stated by hand.
    pub fn check(&self, answers: &Answers) -> Result<(), String> {
        let layout = answers.layout.as_ref().map(layout_numbers);
        same("layout", layout, self.layout.as_ref().copied())?;
        let records: Vec<_> = answers.records().iter().map(record_numbers).collect();
        same("records", &records, &self.records)?;
        if self.index.is_empty() {
            return Ok(());
        }
        same("index", answers.index.as_deref(), Ok(self.index))
    }
}
