//! Files with a block index, in brackets and with dashes.

use crate::read::MIB;
use asdf_harness::files::nests::file_of;
use asdf_harness::format::block::block_header;
use asdf_harness::format::limits::MOST_BLOCKS;
use asdf_harness::format::text::HEADER_LINE;

/// The lines of an index before its start line.
const INDEX_BEGIN: &str = "#ASDF BLOCK INDEX\n%YAML 1.1\n";
/// The highest number that an index may list. It takes ten digits.
const GREATEST: usize = 9_999_999_999;

/// Files with their names. Two have as many blocks as allowed and the index of these blocks. Two
/// have one block and a long index of other numbers.
pub fn indexed_files() -> [(&'static str, Vec<u8>); 4] {
    let block = block_header(0, 0).len();
    let offsets: Vec<usize> = (0..MOST_BLOCKS)
        .map(|ordinal| HEADER_LINE.len() + ordinal * block)
        .collect();
    let all = |index: String| [file_of([&b""[..]; MOST_BLOCKS]), index.into_bytes()].concat();
    let one = |index: String| [file_of([&b""[..]]), index.into_bytes()].concat();
    [
        ("64 blocks, index in brackets", all(in_brackets(&offsets))),
        ("64 blocks, index with dashes", all(with_dashes(&offsets))),
        (
            "index of 1 MiB in brackets",
            one(in_brackets(&[GREATEST; MIB / 12])),
        ),
        (
            "index of 1 MiB with dashes",
            one(with_dashes(&[GREATEST; MIB / 13])),
        ),
    ]
}

/// The index of these numbers in brackets, in the form in which the functions write an index.
fn in_brackets(numbers: &[usize]) -> String {
    let numbers: Vec<String> = numbers.iter().map(usize::to_string).collect();
    format!("{INDEX_BEGIN}--- [{}]\n...\n", numbers.join(", "))
}

/// The index of these numbers with dashes.
fn with_dashes(numbers: &[usize]) -> String {
    let lines: String = numbers
        .iter()
        .map(|number| format!("- {number}\n"))
        .collect();
    format!("{INDEX_BEGIN}---\n{lines}...\n")
}
