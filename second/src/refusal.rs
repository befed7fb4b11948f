//! Refusals: a number from the rules' table and a place.

use std::fmt;

pub(crate) const FILE_TOO_LONG: u8 = 1;
pub(crate) const NOT_ASDF: u8 = 2;
pub(crate) const VERSION_MALFORMED: u8 = 3;
pub(crate) const VERSION_NOT_ONE: u8 = 4;
pub(crate) const COMMENT_NOT_ENDED: u8 = 5;
pub(crate) const INDEX_AMONG_COMMENTS: u8 = 6;
pub(crate) const NEITHER_TREE_NOR_BLOCK: u8 = 7;
pub(crate) const WRONG_LINE_BEFORE_START: u8 = 8;
pub(crate) const SECOND_START_LINE: u8 = 9;
pub(crate) const TREE_NOT_ENDED: u8 = 10;
pub(crate) const HEADER_PASSES_END: u8 = 11;
pub(crate) const HEADER_TOO_SMALL: u8 = 12;
pub(crate) const USED_ABOVE_ALLOCATED: u8 = 13;
pub(crate) const DATA_SIZE_DIFFERS: u8 = 14;
pub(crate) const ALLOCATED_PASSES_END: u8 = 15;
pub(crate) const TOO_MANY_BLOCKS: u8 = 16;
pub(crate) const STRAY_TAIL: u8 = 17;
pub(crate) const EDIT_WITHOUT_TREE: u8 = 18;
pub(crate) const TEXT_NOT_ONE_TREE: u8 = 19;
pub(crate) const TEXT_LONGER_THAN_ROOM: u8 = 20;
pub(crate) const BUFFER_TOO_SHORT: u8 = 21;
pub(crate) const NO_INDEX_POSSIBLE: u8 = 22;
pub(crate) const OUTLINE_LENGTH: u8 = 23;
pub(crate) const OUTLINE_ROW: u8 = 24;

/// Why something is refused: the number from the table, and the place. The place counts from the
/// first byte of the file (or outline) that was judged.
#[derive(Debug, Clone, Copy, PartialEq, Eq)]
pub struct Refusal {
    pub number: u8,
    pub place: u64,
}

impl Refusal {
    /// Returns a refusal at a position.
    pub(crate) fn at(number: u8, position: usize) -> Refusal {
        Refusal {
            number,
            place: position as u64,
        }
    }

    /// Returns a refusal that concerns the whole, so that its place is 0.
    pub(crate) fn of_whole(number: u8) -> Refusal {
        Refusal { number, place: 0 }
    }
}

impl fmt::Display for Refusal {
    fn fmt(&self, f: &mut fmt::Formatter<'_>) -> fmt::Result {
        write!(f, "refused {} {}", self.number, self.place)
    }
}

impl std::error::Error for Refusal {}
