//! Makes gaps: bytes between two blocks.

use super::markless::markless;
use crate::format::text::{INDEX_LINE, MARK};
use crate::rng::Rng;

/// Bytes before an index, so that it does not begin directly after a block.
const BEFORE_INDEX: &[u8] = &[0, b' ', b'\n', b'#', 0xD3];

/// Makes bytes after which the next block is still found. They contain no mark and do not begin
/// with an index line.
pub fn gap(rng: &mut Rng) -> Vec<u8> {
    let bytes = markless(rng);
    if bytes.starts_with(INDEX_LINE) {
        after_one_byte(rng, &bytes)
    } else {
        bytes
    }
}

/// Makes a gap at the end of the file so far. If the file ends with a part of a mark, the gap is
/// mostly the rest of the mark. These four bytes are no mark to the reader, because they begin
/// inside the block before.
pub fn gap_after(rng: &mut Rng, file: &[u8]) -> Vec<u8> {
    match rest_of_mark(file) {
        Some(rest) if !rng.chance(4) => rest.to_vec(),
        _ => gap(rng),
    }
}

/// Makes a copy of an index with one byte before it, so that it does not begin directly after a
/// block.
pub fn after_one_byte(rng: &mut Rng, index: &[u8]) -> Vec<u8> {
    [&[rng.pick(BEFORE_INDEX)], index].concat()
}

/// If the file ends with a part of a mark, returns the rest of the mark.
fn rest_of_mark(file: &[u8]) -> Option<&'static [u8]> {
    (1..MARK.len())
        .map(|length| MARK.split_at(length))
        .find(|(part, _)| file.ends_with(part))
        .map(|(_, rest)| rest)
}

#[cfg(test)]
mod tests {
    use super::*;
    use crate::format::text::places_of;

    /// Makes many gaps, and as many after each part of a mark.
    fn gaps() -> impl Iterator<Item = Vec<u8>> {
        (0..1_000).flat_map(|number| {
            let rng = &mut Rng::for_file(0, number);
            let mut gaps = vec![gap(rng)];
            gaps.extend((0..MARK.len()).map(|length| gap_after(rng, &MARK[..length])));
            gaps
        })
    }

    #[test]
    fn first_mark_after_a_block_is_the_one_after_the_gap() {
        for gap in gaps() {
            let with_mark = [&gap, MARK].concat();
            assert_eq!(places_of(&with_mark, MARK), [gap.len()]);
        }
    }

    #[test]
    fn gap_never_begins_with_an_index() {
        assert!(gaps().all(|gap| !gap.is_empty() && !gap.starts_with(INDEX_LINE)));
    }

    #[test]
    fn rest_makes_a_mark_of_each_part() {
        for length in 1..MARK.len() {
            let file = [b"x", &MARK[..length]].concat();
            let rest = rest_of_mark(&file).unwrap();
            assert_eq!([&file[1..], rest].concat(), MARK);
        }
        assert_eq!(rest_of_mark(b"\xD3BLK"), None);
    }
}
