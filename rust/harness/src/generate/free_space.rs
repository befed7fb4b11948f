//! Makes the free space after a tree.

use super::markless::markless;
use crate::format::text::MARK;
use crate::rng::Rng;

/// Makes the free space, which is empty for half of the files. If it is wrong, it holds a mark that
/// does not begin a good block.
pub fn free_space(rng: &mut Rng, wrong: bool) -> Vec<u8> {
    let mut space = if rng.chance(2) {
        markless(rng)
    } else {
        Vec::new()
    };
    if wrong {
        let length = rng.between(0, 60);
        space.extend([MARK, &rng.bytes(length)].concat());
    }
    space
}
