//! Makes bytes without a mark, for the places where a mark is searched for: after a tree and
//! between blocks.

use super::block::good_block;
use super::index::good_index;
use super::text::part_of_mark;
use crate::format::text::{places_of, INDEX_LINE, MARK};
use crate::rng::Rng;

/// Texts that mean something only elsewhere in a file.
const MEANINGLESS: &[&[u8]] = &[
    b"\n",
    b"...\n",
    b"---\n",
    b"%YAML 1.1\n---\n...\n",
    b"#ASDF 1.0.0\n",
    b"#ASDF BLOCK INDEX\n",
    INDEX_LINE,
    b"#ASDF BLOCK INDE",
    b"# unended",
    b"BLK",
];

/// The maximum length in most cases (`SHORT`) and in the others (`LONG`).
const SHORT: usize = 40;
const LONG: usize = 300;

/// The bit that spoils a byte of a mark. Flipping it never gives a byte of a mark, so no other mark
/// results.
const SPOILING_BIT: u8 = 0x20;

/// Makes at least one byte, and no mark. One string in four may be longer than the 64 bytes that a
/// search tests together.
pub fn markless(rng: &mut Rng) -> Vec<u8> {
    let longest = if rng.chance(4) { LONG } else { SHORT };
    let length = rng.between(1, longest);
    let bytes = match rng.below(10) {
        0 | 1 => vec![b' '; length],
        2 => vec![0; length],
        3 => rng.bytes(length),
        4 => part_of_mark(rng),
        5 => rng.bytes_of(MARK, length),
        6 | 7 => rng.pick(MEANINGLESS).to_vec(),
        8 => good_index(rng, &[12]),
        _ => old_block(rng),
    };
    with_marks_spoilt(rng, bytes)
}

/// Makes the remains of an old block: all of it, or its end.
fn old_block(rng: &mut Rng) -> Vec<u8> {
    let length = rng.between(0, 12);
    let content = rng.bytes(length);
    let block = good_block(rng, &content, false).bytes();
    block[rng.pick(&[0, 0, 3, 30])..].to_vec()
}

/// Returns the same bytes, except that one byte of each mark is spoilt.
fn with_marks_spoilt(rng: &mut Rng, mut bytes: Vec<u8>) -> Vec<u8> {
    for mark in places_of(&bytes, MARK) {
        bytes[mark + rng.below(MARK.len())] ^= SPOILING_BIT;
    }
    bytes
}

#[cfg(test)]
mod tests {
    use super::*;

    #[test]
    fn there_are_bytes_and_no_mark() {
        for number in 0..2_000 {
            let bytes = markless(&mut Rng::for_file(0, number));
            assert!(!bytes.is_empty());
            assert_eq!(places_of(&bytes, MARK), [0; 0]);
        }
    }
}
