//! Files inside files that are made by hand, for many rows, for the stack and for the benchmark.

use crate::format::block::block_header;
use crate::format::limits::{LEVELS, MOST_BLOCKS};
use crate::format::text::{FILE_BEGIN, HEADER_LINE};

/// A file with these contents, each in its own block.
pub fn file_of<'a>(contents: impl IntoIterator<Item = &'a [u8]>) -> Vec<u8> {
    file_with_gaps(contents, b"")
}

/// The same file with the bytes `gap` before each block except the first.
pub fn file_with_gaps<'a>(contents: impl IntoIterator<Item = &'a [u8]>, gap: &[u8]) -> Vec<u8> {
    let mut file = HEADER_LINE.to_vec();
    for (ordinal, content) in contents.into_iter().enumerate() {
        if ordinal > 0 {
            file.extend(gap);
        }
        file.extend(block_header(0, content.len() as u64));
        file.extend(content);
    }
    file
}

/// A nest of `levels` files, each with `blocks` blocks. In each file the block with this ordinal
/// holds the next file, or the innermost content. The other blocks are empty.
pub fn path(levels: usize, blocks: usize, ordinal: usize, innermost: &[u8]) -> Vec<u8> {
    (0..levels).fold(innermost.to_vec(), |inner, _| {
        file_of((0..blocks).map(|block| if block == ordinal { &inner[..] } else { b"" }))
    })
}

/// A nest of `levels` levels of files, each with `blocks` blocks. Every block holds a file of the
/// next level, or the innermost content.
pub fn tree(levels: usize, blocks: usize, innermost: &[u8]) -> Vec<u8> {
    tree_with_gaps(levels, blocks, innermost, b"")
}

/// The same with the bytes `gap` before each block except the first of its file.
fn tree_with_gaps(levels: usize, blocks: usize, innermost: &[u8], gap: &[u8]) -> Vec<u8> {
    (0..levels).fold(innermost.to_vec(), |inner, _| {
        file_with_gaps((0..blocks).map(|_| &inner[..]), gap)
    })
}

/// The files that make the walk go deepest. At every level that is read they have as many blocks as
/// allowed. The next level is in the last block, in the first, or in one between.
pub fn deepest() -> Vec<Vec<u8>> {
    [MOST_BLOCKS - 1, 0, 31]
        .map(|ordinal| path(LEVELS, MOST_BLOCKS, ordinal, FILE_BEGIN))
        .into()
}

/// How many rows `many_rows` has: more than two bytes can count.
pub const MANY_ROWS: usize = 41 + 41 * 41 + 41 * 41 * 41;

/// A file with `MANY_ROWS` rows.
pub fn many_rows() -> Vec<u8> {
    tree(3, 41, b"")
}

/// 40 bytes in which every third byte could begin a mark, but none does.
const PARTS_OF_MARKS: &[u8] =
    b"\xD3BL\xD3BL\xD3BL\xD3BL\xD3BL\xD3BL\xD3BL\xD3BL\xD3BL\xD3BL\xD3BL\xD3BL\xD3BL\xD3";

/// A file with as many blocks as allowed, each of which holds a file with as many blocks as
/// allowed. Parts of marks precede every block except the first of its file.
pub fn many_gaps() -> Vec<u8> {
    tree_with_gaps(2, MOST_BLOCKS, b"", PARTS_OF_MARKS)
}

#[cfg(test)]
mod tests {
    use super::*;
    use asdf_second::{records, row_count, Inner};

    #[test]
    fn deepest_files_have_every_block_and_end_too_deep() {
        for file in deepest() {
            let records = records(&file).unwrap();
            assert_eq!(records.len(), LEVELS * MOST_BLOCKS);
            let too_deep = records
                .iter()
                .filter(|record| record.inner == Inner::TooDeep);
            assert_eq!(too_deep.count(), 1);
        }
    }

    #[test]
    fn many_rows_are_more_than_two_bytes_count() {
        assert_eq!(row_count(&many_rows()), Ok(MANY_ROWS));
        assert!(MANY_ROWS > usize::from(u16::MAX));
    }

    #[test]
    fn every_block_after_a_gap_has_its_row() {
        let file = many_gaps();
        assert_eq!(
            row_count(&file),
            Ok(MOST_BLOCKS + MOST_BLOCKS * MOST_BLOCKS)
        );
        let gaps = (MOST_BLOCKS + 1) * (MOST_BLOCKS - 1);
        let without_gaps = tree(2, MOST_BLOCKS, b"");
        assert_eq!(file.len() - without_gaps.len(), 40 * gaps);
    }
}
