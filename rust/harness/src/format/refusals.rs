//! The numbers of those refusals that the harness names. The names are those of the C header.

use asdf_second::Refusal;

pub const FILE_TOO_LONG: u8 = 1;
pub const NEITHER_TREE_NOR_BLOCK: u8 = 7;
pub const WRONG_LINE_BEFORE_START: u8 = 8;
pub const SECOND_START_LINE: u8 = 9;
pub const TREE_NOT_ENDED: u8 = 10;
pub const TOO_MANY_BLOCKS: u8 = 16;
pub const STRAY_TAIL: u8 = 17;
pub const EDIT_WITHOUT_TREE: u8 = 18;
pub const TEXT_NOT_ONE_TREE: u8 = 19;
pub const TEXT_LONGER_THAN_ROOM: u8 = 20;
pub const BUFFER_TOO_SHORT: u8 = 21;
pub const NO_INDEX_POSSIBLE: u8 = 22;
pub const OUTLINE_LENGTH: u8 = 23;
pub const OUTLINE_ROW: u8 = 24;

/// A refusal that concerns the whole input, so that its place is 0.
pub const fn of_whole(number: u8) -> Refusal {
    Refusal { number, place: 0 }
}
