//! Edits of files at the length limit. Their outcomes are stated by hand.

use super::sparse::SparseFile;
use crate::answers::edit::EditAnswers;
use crate::format::block::{block_header, FIELD_BYTES};
use crate::format::limits::LONGEST;
use crate::format::refusals::{of_whole, FILE_TOO_LONG};
use crate::format::text::{HEADER_LINE, LEAST_TREE};
use asdf_second::Refusal;
use std::io;

/// The text of all these edits.
pub const TEXT: &[u8] = b"%YAML 1.1\n---\na: text of more than the smallest length\n...\n";

/// An edit of a long file. The file has a small tree, free space, and one block that reaches to its
/// end.
pub struct LongEdit {
    pub name: &'static str,
    length: usize,
    /// The outcome that the edit must have.
    pub outcome: Result<(), Refusal>,
}

/// All long edits.
pub const LONG_EDITS: [LongEdit; 2] = [
    LongEdit {
        name: "edit of the longest file",
        length: LONGEST,
        outcome: Ok(()),
    },
    LongEdit {
        name: "edit of a file of 4,294,967,296 bytes",
        length: LONGEST + 1,
        outcome: Err(of_whole(FILE_TOO_LONG)),
    },
];

/// A sparse file of this length with a small tree, a room of `room` bytes and one block.
pub fn file_with_room(length: usize, room: usize) -> io::Result<SparseFile> {
    let block = HEADER_LINE.len() + room;
    let header = block_header(0, (length - block - FIELD_BYTES) as u64);
    let parts = [
        (0, HEADER_LINE),
        (HEADER_LINE.len(), LEAST_TREE),
        (block, &header),
    ];
    SparseFile::new(length, &parts)
}

impl LongEdit {
    /// The bytes of every room: more than a page of memory.
    const ROOM: usize = 10_000;

    /// The file before the edit.
    pub fn file(&self) -> io::Result<SparseFile> {
        file_with_room(self.length, LongEdit::ROOM)
    }

    /// The answers that the edit must have.
    pub fn answers(&self, file: &[u8]) -> EditAnswers {
        EditAnswers::to(file, TEXT, self.outcome)
    }
}
