//! Makes the chain of blocks.

use super::block::good_block;
use super::content::{content, MakeFile};
use super::gap::gap_after;
use super::shape::{Part, Shape};
use crate::format::limits::MOST_BLOCKS;
use crate::rng::Rng;

/// The offsets of a chain.
pub struct Chain {
    /// Where each block begins.
    pub marks: Vec<u64>,
    /// Where the search for each mark begins: at the end of the block before. For the first block
    /// it is where that block begins.
    pub searched_from: Vec<u64>,
}

impl Chain {
    /// Whether there is a gap between two blocks.
    pub fn has_gaps(&self) -> bool {
        self.searched_from != self.marks
    }
}

/// Adds a chain of this shape to `file`. One chain in three has gaps, before about half of its
/// blocks. Files inside blocks are made with `make_file`.
pub fn add_chain(rng: &mut Rng, shape: &Shape, file: &mut Vec<u8>, make_file: MakeFile) -> Chain {
    let nesting_block = rng.below(shape.blocks);
    let wrong_block = shape
        .is_wrong(Part::Blocks)
        .then(|| rng.below(shape.blocks));
    let with_gaps = rng.chance(3);
    let mut chain = Chain {
        marks: Vec::new(),
        searched_from: Vec::new(),
    };
    for ordinal in 0..shape.blocks {
        chain.searched_from.push(file.len() as u64);
        if ordinal > 0 && with_gaps && rng.chance(2) {
            file.extend(gap_after(rng, file));
        }
        let at = file.len();
        let content = content(rng, shape, ordinal == nesting_block, make_file);
        let may_end = ordinal + 1 == shape.blocks || ordinal + 1 == MOST_BLOCKS;
        let mut block = good_block(rng, &content, may_end);
        if wrong_block == Some(ordinal) {
            block.make_wrong(rng, at);
        }
        file.extend(block.bytes());
        chain.marks.push(at as u64);
    }
    chain
}
