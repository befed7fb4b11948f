//! Makes what follows the last block: nothing, zeros, an index or stray bytes.

use super::chain::Chain;
use super::gap::{after_one_byte, gap};
use super::index::{good_index, index_of_other_list, index_of_wrong_form};
use super::markless::markless;
use crate::format::block::block_header;
use crate::format::limits::MOST_BLOCKS;
use crate::format::text::{INDEX_LINE, MARK};
use crate::rng::Rng;

/// Stray tails, which contain no mark (17).
const STRAY: &[&[u8]] = &[
    b"x",
    b"\n",
    b"\r\n",
    b" ",
    b"\x01",
    b"\xFF",
    b"\0x",
    b"\0\0\0\0\0\0\0\x01",
    b"...\n",
    b"---\n",
    b"%YAML 1.1\n",
    b"#",
    b"#ASDF 1.0.0\n",
    b"#ASDF BLOCK INDE\0",
    b"#ASDF BLOCK INDEY\n",
    b"#ASDF BLOCK INDEx\n",
    b"#ASDF BLOCK\nINDEX\n",
    b"#asdf block index\n",
    b"\xD3",
    b"\xD3B",
    b"\xD3BL",
    b"\xD3BLL",
    b"\xD2BLK",
];

/// Makes a tail after the blocks of a chain. The file is refused for a wrong tail, unless its last
/// block is streamed.
pub fn tail(rng: &mut Rng, chain: &Chain, wrong: bool) -> Vec<u8> {
    if wrong {
        return wrong_tail(rng, &chain.marks);
    }
    match rng.below(9) {
        0 | 1 => Vec::new(),
        2 => vec![0; rng.between(1, 40)],
        3 | 4 => good_index(rng, &chain.marks),
        5 => other_list(rng, chain),
        6 => index_before_block(rng, &chain.marks),
        _ => index_of_wrong_form(rng, &chain.marks),
    }
}

/// Makes an index of the right form with another list. If the chain has gaps, the list often has
/// the end of the block before instead of each mark.
fn other_list(rng: &mut Rng, chain: &Chain) -> Vec<u8> {
    if chain.has_gaps() && rng.chance(2) {
        good_index(rng, &chain.searched_from)
    } else {
        index_of_other_list(rng, &chain.marks)
    }
}

/// Makes the first line of an index or a whole index, and a block after it. No block is searched
/// for after an index, so this block is not read.
fn index_before_block(rng: &mut Rng, marks: &[u64]) -> Vec<u8> {
    let mut tail = if rng.chance(2) {
        INDEX_LINE.to_vec()
    } else {
        good_index(rng, marks)
    };
    if rng.chance(2) {
        tail.extend(markless(rng));
    }
    tail.extend(if rng.chance(2) {
        block_header(0, 0)
    } else {
        begun_block(rng)
    });
    tail
}

/// Makes a tail for which the file is refused: stray bytes, one block too many, or a block that is
/// cut short.
fn wrong_tail(rng: &mut Rng, marks: &[u64]) -> Vec<u8> {
    if marks.len() == MOST_BLOCKS && rng.chance(2) {
        return next_begun_block(rng);
    }
    match rng.below(8) {
        0 => next_begun_block(rng),
        1 => {
            let index = good_index(rng, marks);
            after_one_byte(rng, &index)
        }
        2 => [&b"\0\0\0"[..], &good_index(rng, marks)].concat(),
        3 => INDEX_LINE[..rng.pick(&[1, 6, 15, 16, 16, 16])].to_vec(),
        4 => [&gap(rng)[..], b"x"].concat(),
        _ => rng.pick(STRAY).to_vec(),
    }
}

/// Makes the beginning of one more block, after a gap in every second case. The file is refused
/// with 16 after 64 blocks, and otherwise mostly with 11 or 12.
fn next_begun_block(rng: &mut Rng) -> Vec<u8> {
    let mut tail = if rng.chance(2) { gap(rng) } else { Vec::new() };
    tail.extend(begun_block(rng));
    tail
}

/// Makes the first bytes of a block, often only its mark, or its mark and header size.
fn begun_block(rng: &mut Rng) -> Vec<u8> {
    let header_size: u16 = rng.pick(&[0, 47, 48, u16::MAX]);
    let mut block = [MARK, &header_size.to_be_bytes(), &rng.bytes(20)].concat();
    block.truncate(rng.pick(&[4, 4, 5, 6, 6, 7, 26]));
    block
}
