//! Files with many blocks or with large blocks, for which outlines and records are measured.

use crate::read::{LINE_OF_41, MIB};
use asdf_harness::files::nests::{file_of, many_gaps, path, tree};
use asdf_harness::format::limits::{LEVELS, MOST_BLOCKS};
use asdf_second::{most_rows, row_count};

/// The beginning of a refused file. Such a file has to be read to its end before it is clear that
/// its tree has no end.
const ENDLESS_TREE: &[u8] = b"#ASDF 1.0.0\n%YAML 1.1\n---\n";
/// How many lines a refused file has after its beginning.
const REFUSED_LINES: usize = 24;
/// How many blocks a file with large blocks has.
const LARGE_BLOCKS: usize = 10;

/// A file for which the rows are measured.
pub struct Case {
    pub name: &'static str,
    pub file: Vec<u8>,
    lent: Lent,
}

/// How many rows the lent buffer has room for.
enum Lent {
    /// As many as a file of this length can have.
    Most,
    /// As many as the file has. Only when the rows are counted is it known that such a buffer is
    /// long enough.
    Exact,
}

impl Case {
    /// How many rows the lent buffer has room for.
    pub fn rows_lent(&self) -> usize {
        match self.lent {
            Lent::Most => most_rows(self.file.len()),
            Lent::Exact => row_count(&self.file).unwrap_or(0),
        }
    }
}

/// All files that are measured.
pub fn cases() -> Vec<Case> {
    let last = MOST_BLOCKS - 1;
    let case = |name, file| Case {
        name,
        file,
        lent: Lent::Most,
    };
    vec![
        case("64 empty blocks", tree(1, MOST_BLOCKS, b"")),
        case("three opened files in each, 8 levels", tree(LEVELS, 3, b"")),
        case("64 files of 64 blocks", tree(2, MOST_BLOCKS, b"")),
        case("the same with gaps of parts of marks", many_gaps()),
        case("1,024 refused files", refused_files()),
        case(
            "64 blocks a level, opened in the last",
            path(LEVELS, MOST_BLOCKS, last, b""),
        ),
        case(
            "64 blocks a level, opened in the first",
            path(LEVELS, MOST_BLOCKS, 0, b""),
        ),
        case("10 blocks of 1 MiB", large_blocks()),
        Case {
            lent: Lent::Exact,
            ..case("the same, lent exactly its rows", large_blocks())
        },
    ]
}

/// 32 files of 32 blocks. Each block holds a file that is refused after its last byte.
fn refused_files() -> Vec<u8> {
    let refused = [ENDLESS_TREE, &LINE_OF_41.repeat(REFUSED_LINES)].concat();
    let inner = file_of([&refused[..]; 32]);
    file_of([&inner[..]; 32])
}

/// A few blocks with large contents, as in most files.
fn large_blocks() -> Vec<u8> {
    let content = vec![b'x'; MIB];
    file_of([&content[..]; LARGE_BLOCKS])
}
