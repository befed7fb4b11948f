//! Makes a test file from all its parts.

use super::shape::{Part, Shape};
use super::{chain, comments, cut, free_space, header, tail, tree};
use crate::rng::Rng;

/// Makes a file of this shape. It is accepted if no part is wrong and it has 1 to 64 blocks, or
/// neither a block nor a tree. With a tree and no block, the tail is free space and may contain a
/// mark.
pub fn file(rng: &mut Rng, shape: &Shape) -> Vec<u8> {
    let mut bytes = header::header(rng, shape.is_wrong(Part::Header));
    bytes.extend(comments::comments(rng, shape.is_wrong(Part::Comments)));
    bytes.extend(tree_and_free_space(rng, shape));
    let chain = chain::add_chain(rng, shape, &mut bytes, file);
    if shape.has_tail() {
        bytes.extend(tail::tail(rng, &chain, shape.is_wrong(Part::Tail)));
        bytes.resize(bytes.len().max(shape.least_length), 0);
    }
    if shape.is_wrong(Part::End) {
        cut::cut(rng, &mut bytes);
    }
    bytes
}

/// Makes the tree with the free space after it, or what is there instead of a tree.
fn tree_and_free_space(rng: &mut Rng, shape: &Shape) -> Vec<u8> {
    let wrong = shape.is_wrong(Part::Tree);
    if shape.tree {
        let space = free_space::free_space(rng, shape.is_wrong(Part::FreeSpace));
        [tree::tree(rng, wrong), space].concat()
    } else if wrong {
        tree::no_tree(rng)
    } else {
        Vec::new()
    }
}

#[cfg(test)]
mod tests {
    use super::*;
    use asdf_second::read;

    /// Makes 500 files of one shape.
    fn files_of(shape: &Shape) -> impl Iterator<Item = Vec<u8>> + '_ {
        (0..500).map(|number| file(&mut Rng::for_file(0, number), shape))
    }

    /// Returns the numbers with which files of a shape are refused, each once. An accepted file
    /// counts as 0.
    fn numbers_of(shape: &Shape) -> Vec<u8> {
        let number = |file: Vec<u8>| read(&file).map_or_else(|refusal| refusal.number, |_| 0);
        let mut numbers: Vec<u8> = files_of(shape).map(number).collect();
        numbers.sort();
        numbers.dedup();
        numbers
    }

    #[test]
    fn plain_file_is_accepted() {
        assert_eq!(numbers_of(&Shape::plain()), [0]);
    }

    #[test]
    fn file_without_a_wrong_part_is_accepted() {
        for tree in [false, true] {
            for (blocks, nesting) in [(1, 9), (5, 2), (64, 0)] {
                let shape = Shape {
                    tree,
                    blocks,
                    nesting,
                    ..Shape::plain()
                };
                assert_eq!(numbers_of(&shape), [0], "{shape:?}");
            }
        }
    }

    #[test]
    fn each_wrong_part_is_refused_with_its_numbers() {
        let cases: [(Part, usize, &[u8]); 4] = [
            (Part::Header, 0, &[2, 3, 4]),
            (Part::Comments, 0, &[5, 6]),
            (Part::Tail, 5, &[0, 11, 12, 17]),
            (Part::Tail, 64, &[0, 16, 17]),
        ];
        for (part, blocks, numbers) in cases {
            let shape = Shape {
                wrong: vec![part],
                blocks,
                ..Shape::plain()
            };
            assert_eq!(numbers_of(&shape), numbers, "{part:?}");
        }
    }
}
