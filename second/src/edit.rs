//! The tree edit, which puts another tree into the room of the old one.

use crate::layout::judge;
use crate::refusal::*;
use crate::tree::tree_end;

/// Puts `text` in the place of the file's tree and fills the rest of the room with spaces. The
/// file's length does not change. Refusals, in this order: 1 to 17, 18, 19, 20.
pub fn edit(file: &mut [u8], text: &[u8]) -> Result<(), Refusal> {
    let tree = judge(file)?
        .tree
        .ok_or(Refusal::of_whole(EDIT_WITHOUT_TREE))?;
    if !is_exactly_one_tree(text) {
        return Err(Refusal::of_whole(TEXT_NOT_ONE_TREE));
    }
    let room = &mut file[tree.start.position()..tree.room_end.position()];
    if text.len() > room.len() {
        return Err(Refusal::of_whole(TEXT_LONGER_THAN_ROOM));
    }
    let (new_tree, free_space) = room.split_at_mut(text.len());
    new_tree.copy_from_slice(text);
    free_space.fill(b' ');
    Ok(())
}

/// Whether the text is one tree from its first byte to its last.
fn is_exactly_one_tree(text: &[u8]) -> bool {
    tree_end(text, 0) == Ok(Some(text.len()))
}
