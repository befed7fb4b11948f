//! Makes the content of a block.

use super::shape::Shape;
use crate::format::text::{FILE_BEGIN, MARK};
use crate::rng::Rng;

/// Contents that begin like a file, or almost do.
const LIKE_A_FILE: &[&[u8]] = &[
    b"#ASDF",
    b"#ASDF ",
    b"#ASDF 1",
    b"#ASDF 1.0.0",
    b"#ASDF 1.0.0\n",
    b"#ASDF 1.0.0\r\n#\n",
    b"#ASDF 0.1.0\n",
    b"#ASDF\t1.0.0\n",
    b"#ASDF\n1.0.0\n",
    b"#asdf 1.0.0\n",
    b" #ASDF 1.0.0\n",
    b"#ASDF BLOCK INDEX\n%YAML 1.1\n--- [12]\n...\n",
];

/// If the shape asks for branches, one in this many of the other blocks holds a file with branches.
const BRANCH_ONE_IN: usize = 6;

/// A function that makes a file of a shape. It is passed down, because the parts of a file do not
/// know how a whole file is made.
pub type MakeFile = fn(&mut Rng, &Shape) -> Vec<u8>;

/// Makes the content of a block. If `nests` is set and the shape asks for nesting, the content is a
/// file.
pub fn content(rng: &mut Rng, shape: &Shape, nests: bool, make_file: MakeFile) -> Vec<u8> {
    if nests && shape.nesting > 0 {
        nested_file(rng, shape.nesting - 1, shape.branches, make_file)
    } else if shape.blocks > Shape::USUAL_BLOCKS {
        plain_bytes(rng, 12)
    } else if shape.branches && rng.chance(BRANCH_ONE_IN) {
        let nesting = rng.below(shape.nesting);
        nested_file(rng, nesting, true, make_file)
    } else {
        any_content(rng, make_file)
    }
}

/// Makes an empty content, plain bytes, something like a file, or a file.
fn any_content(rng: &mut Rng, make_file: MakeFile) -> Vec<u8> {
    match rng.below(16) {
        0..=3 => Vec::new(),
        4..=6 => plain_bytes(rng, 12),
        7 => plain_bytes(rng, 300),
        8 => vec![0; rng.between(1, 40)],
        9 => b"text, line by line\n...\n---\n".to_vec(),
        10 => rng.pick(LIKE_A_FILE).to_vec(),
        11 => [FILE_BEGIN, &plain_bytes(rng, 12)].concat(),
        12 => [MARK, &plain_bytes(rng, 80)].concat(),
        _ => nested_file(rng, 0, false, make_file),
    }
}

/// Makes a file that holds `nesting` more files, nested in one another.
fn nested_file(rng: &mut Rng, nesting: usize, branches: bool, make_file: MakeFile) -> Vec<u8> {
    let shape = Shape::inner(rng, nesting, branches);
    make_file(rng, &shape)
}

/// Makes at most `most` bytes of any value.
fn plain_bytes(rng: &mut Rng, most: usize) -> Vec<u8> {
    let length = rng.between(0, most);
    rng.bytes(length)
}
