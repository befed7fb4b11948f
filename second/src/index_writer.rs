//! Writes the index of a file, with brackets and the header's line end.

use crate::block::{Block, MOST_BLOCKS};
use crate::index_form::{INDEX_LINE, LIST_BEGIN, LIST_END, MOST_OFFSET_DIGITS};
use crate::layout::judge;
use crate::line::LineEnd;
use crate::refusal::*;
use crate::tree::{END_LINE, YAML_LINE};

/// What is written between two numbers.
const BETWEEN_NUMBERS: &str = ", ";

/// The length of the longest index that is written. It has 64 numbers of 10 digits, and four lines
/// that end with 0D 0A.
pub const LONGEST_INDEX: usize = INDEX_LINE.len()
    + YAML_LINE.len()
    + LIST_BEGIN.len()
    + MOST_BLOCKS * MOST_OFFSET_DIGITS
    + (MOST_BLOCKS - 1) * BETWEEN_NUMBERS.len()
    + LIST_END.len()
    + END_LINE.len()
    + 4 * LineEnd::Crlf.bytes().len();

/// Writes the index of a file into the lent buffer and returns the length of the index. Refusals,
/// in this order: 1 to 17, 22, 21.
pub fn write_index(file: &[u8], out: &mut [u8]) -> Result<usize, Refusal> {
    let judged = judge(file)?;
    let blocks = &judged.chain.blocks;
    if blocks.last().is_none_or(Block::is_streamed) {
        return Err(Refusal::of_whole(NO_INDEX_POSSIBLE));
    }
    let text = index_text(blocks, judged.line_end);
    let place = out
        .get_mut(..text.len())
        .ok_or(Refusal::of_whole(BUFFER_TOO_SHORT))?;
    place.copy_from_slice(&text);
    Ok(text.len())
}

/// Returns the one text that is written for these blocks. It is always in the bracket style, and
/// all four lines have the same line end.
fn index_text(blocks: &[Block], line_end: LineEnd) -> Vec<u8> {
    let offsets: Vec<String> = blocks
        .iter()
        .map(|block| block.offset.0.to_string())
        .collect();
    let list = offsets.join(BETWEEN_NUMBERS);
    let list_line = [LIST_BEGIN, list.as_bytes(), LIST_END].concat();
    [INDEX_LINE, YAML_LINE, list_line.as_slice(), END_LINE]
        .map(|line| [line, line_end.bytes()].concat())
        .concat()
}

#[cfg(test)]
mod tests {
    use super::*;
    use crate::offset::InFile;

    #[test]
    fn longest_text_has_805_bytes_with_0a_and_809_with_0d_0a() {
        let offset = |ordinal: u8| 4_000_000_000 + 54 * u32::from(ordinal);
        let blocks: Vec<Block> = (0..64)
            .map(|ordinal| Block {
                ordinal,
                offset: InFile(offset(ordinal)),
                header_size: 48,
                flags: 0,
                compression: [0; 4],
                allocated: 0,
                used: 0,
                data_size: 0,
                checksum: [0; 16],
            })
            .collect();
        let numbers: Vec<String> = (0..64).map(|i| offset(i).to_string()).collect();
        let list = numbers.join(", ");
        for (line_end, end, length) in [(LineEnd::Lf, "\n", 805), (LineEnd::Crlf, "\r\n", 809)] {
            let expected = format!("#ASDF BLOCK INDEX{end}%YAML 1.1{end}--- [{list}]{end}...{end}");
            assert_eq!(index_text(&blocks, line_end), expected.as_bytes());
            assert_eq!(expected.len(), length);
        }
        assert_eq!(LONGEST_INDEX, 809);
    }
}
