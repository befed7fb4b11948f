//! Describes what a generated file should be like.

use crate::format::limits::MOST_BLOCKS;
use crate::rng::Rng;

/// The most files that are nested in one another inside the outermost file. Eight levels are read,
/// the outermost file included.
const MOST_NESTED: usize = 11;

/// The parts of a file that can be made wrong.
#[derive(Debug, Clone, Copy, PartialEq, Eq)]
pub enum Part {
    Header,
    Comments,
    Tree,
    FreeSpace,
    Blocks,
    Tail,
    /// The end of the file, which then comes too early.
    End,
}

/// Each part at least once. Parts that can be wrong in many ways come more often.
const PARTS: &[Part] = &[
    Part::Header,
    Part::Comments,
    Part::Tree,
    Part::Tree,
    Part::FreeSpace,
    Part::Blocks,
    Part::Blocks,
    Part::Blocks,
    Part::Tail,
    Part::End,
    Part::End,
];

/// What a generated file should be like.
#[derive(Debug, Clone)]
pub struct Shape {
    /// The parts that are made wrong.
    pub wrong: Vec<Part>,
    /// Whether there is a tree.
    pub tree: bool,
    /// How many blocks there are.
    pub blocks: usize,
    /// How many files are nested in one another inside one of the blocks.
    pub nesting: usize,
    /// Whether other blocks hold nested files too.
    pub branches: bool,
    /// A shorter file is lengthened to this length with zeros.
    pub least_length: usize,
}

impl Shape {
    /// The most blocks of a file that is not near the limit.
    pub const USUAL_BLOCKS: usize = 5;

    /// Makes the shape of the plainest file: a header, perhaps comments, and nothing else.
    #[cfg(test)]
    pub fn plain() -> Shape {
        Shape {
            wrong: Vec::new(),
            tree: false,
            blocks: 0,
            nesting: 0,
            branches: false,
            least_length: 0,
        }
    }

    /// Makes the shape of an outermost file.
    pub fn outermost(rng: &mut Rng) -> Shape {
        let blocks = block_count(rng, 30);
        let mut wrong = wrong_parts(rng, 2);
        if blocks == MOST_BLOCKS && rng.chance(4) {
            wrong.push(Part::Tail);
        }
        Shape {
            wrong,
            tree: rng.chance(2),
            blocks,
            nesting: nesting(rng),
            branches: false,
            least_length: least_length(rng),
        }
    }

    /// Makes the shape of an outermost file with nested files in one or several of its blocks.
    pub fn nest(rng: &mut Rng) -> Shape {
        Shape {
            wrong: Vec::new(),
            tree: rng.chance(4),
            blocks: rng.between(1, 4),
            nesting: rng.between(1, MOST_NESTED),
            branches: true,
            least_length: 0,
        }
    }

    /// Makes the shape of an outermost file that is to be edited. Mostly it has a tree and nothing
    /// wrong.
    pub fn edited(rng: &mut Rng) -> Shape {
        Shape {
            wrong: wrong_parts(rng, 8),
            tree: !rng.chance(12),
            blocks: block_count(rng, 100),
            nesting: nesting(rng),
            branches: rng.chance(4),
            least_length: least_length(rng),
        }
    }

    /// Makes the shape of a file inside a block.
    pub fn inner(rng: &mut Rng, nesting: usize, branches: bool) -> Shape {
        let one_in = if nesting > 0 { 16 } else { 2 };
        Shape {
            wrong: wrong_parts(rng, one_in),
            tree: rng.chance(3),
            blocks: block_count(rng, 100).max(nesting.min(1)),
            nesting,
            branches,
            least_length: 0,
        }
    }

    /// Whether bytes may follow the last block or the free space.
    pub fn has_tail(&self) -> bool {
        self.tree || self.blocks > 0 || self.is_wrong(Part::Tail)
    }

    /// Whether a part should be wrong.
    pub fn is_wrong(&self, part: Part) -> bool {
        self.wrong.contains(&part)
    }
}

/// Chooses the parts that are made wrong, once in `one_in` times: mostly one part, sometimes two.
/// Otherwise there are none.
fn wrong_parts(rng: &mut Rng, one_in: usize) -> Vec<Part> {
    if !rng.chance(one_in) {
        return Vec::new();
    }
    let count = if rng.chance(5) { 2 } else { 1 };
    (0..count).map(|_| rng.pick(PARTS)).collect()
}

/// Chooses a number of blocks. It is near the limit once in `near_limit_one_in` times.
fn block_count(rng: &mut Rng, near_limit_one_in: usize) -> usize {
    if rng.chance(near_limit_one_in) {
        rng.pick(&[62, 63, 64, 64, 64, 65, 66])
    } else {
        rng.between(0, Shape::USUAL_BLOCKS)
    }
}

/// Chooses a length around the longest input of the program `list`, but mostly 0.
fn least_length(rng: &mut Rng) -> usize {
    if rng.chance(300) {
        rng.pick(&[65_535, 65_536, 65_537, 70_000])
    } else {
        0
    }
}

/// Chooses how many files are nested in one another: mostly none, sometimes more than are read.
fn nesting(rng: &mut Rng) -> usize {
    match rng.below(8) {
        0 => 1,
        1 => rng.between(2, 5),
        2 => rng.between(6, MOST_NESTED),
        _ => 0,
    }
}
