//! Makes files that end too early.

use crate::format::text::{places_of, MARK};
use crate::rng::Rng;

/// Cuts a file at a line end, inside a block header, or anywhere.
pub fn cut(rng: &mut Rng, file: &mut Vec<u8>) {
    let length = match rng.below(4) {
        0 | 1 => at_line_end(rng, file),
        2 => inside_block_header(rng, file),
        _ => None,
    };
    file.truncate(length.unwrap_or(rng.below(file.len())));
}

/// Returns a place after a 0A, before it, or one byte earlier: before the 0D, if the line ends with
/// 0D 0A. The 0A is one of the first twelve of the file.
fn at_line_end(rng: &mut Rng, file: &[u8]) -> Option<usize> {
    let ends = places_of(file, b"\n");
    let end = *ends.get(rng.below(ends.len().min(12)))?;
    Some((end + 1).saturating_sub(rng.below(3)))
}

/// Returns a place between the start of a mark and the end of the shortest header.
fn inside_block_header(rng: &mut Rng, file: &[u8]) -> Option<usize> {
    let marks = places_of(file, MARK);
    let mark = *marks.get(rng.below(marks.len()))?;
    Some(mark + rng.pick(&[0, 1, 2, 3, 4, 5, 6, 7, 10, 53, 54]))
}
