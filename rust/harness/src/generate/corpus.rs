//! The files of a run. Each is made only from the seed and its own number.

use super::damage::{damage, damage_in_place};
use super::file::file;
use super::outline::stored_outline;
use super::replacement::replacement;
use super::shape::Shape;
use crate::answers::file::written;
use crate::format::text::LEAST_TREE;
use crate::rng::Rng;
use asdf_second::{outline, read, row_count, ROW_LENGTH};

/// Changes the seed for files with inner files, so that their random numbers differ from those of
/// the other files.
const NESTS: u64 = 1 << 62;
/// Changes the seed for stored outlines.
const OUTLINES: u64 = 1 << 63;

/// Changes the seed for edits.
const EDITS: u64 = 1 << 61;

/// A file, and a text that is to replace its tree.
#[derive(Debug, PartialEq)]
pub struct Edit {
    pub file: Vec<u8>,
    pub text: Vec<u8>,
}

/// Makes the file with this number in the run of a seed. One file in three is damaged.
pub fn numbered_file(seed: u64, number: u64) -> Vec<u8> {
    let mut rng = Rng::for_file(seed, number);
    let shape = Shape::outermost(&mut rng);
    let mut bytes = file(&mut rng, &shape);
    if rng.chance(3) {
        damage(&mut rng, &mut bytes);
    }
    bytes
}

/// Makes the file with inner files that has this number. One file in eight is damaged.
pub fn numbered_nest(seed: u64, number: u64) -> Vec<u8> {
    let mut rng = Rng::for_file(seed ^ NESTS, number);
    let shape = Shape::nest(&mut rng);
    let mut bytes = file(&mut rng, &shape);
    if rng.chance(8) {
        damage_in_place(&mut rng, &mut bytes);
    }
    bytes
}

/// Makes the stored outline with this number. Some are made from the outline of a file.
pub fn numbered_outline(seed: u64, number: u64) -> Vec<u8> {
    let mut rng = Rng::for_file(seed ^ OUTLINES, number);
    stored_outline(&mut rng, || outline_of(&numbered_nest(seed, number)))
}

/// Makes the edit with this number. One file in ten is damaged.
pub fn numbered_edit(seed: u64, number: u64) -> Edit {
    let mut rng = Rng::for_file(seed ^ EDITS, number);
    let shape = Shape::edited(&mut rng);
    let mut file = file(&mut rng, &shape);
    if rng.chance(10) {
        damage(&mut rng, &mut file);
    }
    let (old, room) = tree_and_room(&file);
    let text = replacement(&mut rng, old, room);
    Edit { file, text }
}

/// Returns the tree of a file and its whole room, as the second program finds them. If there is no
/// tree, it returns the smallest tree for both.
fn tree_and_room(file: &[u8]) -> (&[u8], &[u8]) {
    let tree = read(file).ok().and_then(|layout| layout.tree);
    tree.map_or((LEAST_TREE, LEAST_TREE), |tree| {
        let [start, end, room_end] = [tree.start, tree.end, tree.room_end].map(|at| at.0 as usize);
        (&file[start..end], &file[start..room_end])
    })
}

/// Returns the outline of a file, as the second program writes it. It is empty if the file is
/// refused.
fn outline_of(file: &[u8]) -> Vec<u8> {
    let rows = row_count(file).unwrap_or(0);
    let length = rows * ROW_LENGTH;
    written(length, |out| outline(file, out)).unwrap_or_default()
}

#[cfg(test)]
mod tests {
    use super::*;

    /// Makes the first files and stored outlines of a seed.
    fn first_files(seed: u64) -> Vec<Vec<u8>> {
        let kinds = [numbered_file, numbered_nest, numbered_outline];
        let numbers = 0..500;
        numbers
            .flat_map(|number| kinds.map(|kind| kind(seed, number)))
            .collect()
    }

    /// Makes the first edits of a seed.
    fn first_edits(seed: u64) -> Vec<Edit> {
        (0..500).map(|number| numbered_edit(seed, number)).collect()
    }

    #[test]
    fn same_seed_gives_the_same_files_and_another_gives_others() {
        assert_eq!(first_files(7), first_files(7));
        assert_ne!(first_files(7), first_files(8));
        assert_eq!(first_edits(7), first_edits(7));
        assert_ne!(first_edits(7), first_edits(8));
    }
}
