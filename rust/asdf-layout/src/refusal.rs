//! Why something is refused, in words.

use std::error::Error;
use std::fmt;

/// Why something is refused, and where.
///
/// A refusal prints as a sentence. Its reason has a name and words for programs that make sentences
/// of their own.
///
/// ```
/// use asdf_layout::Refusal;
///
/// let refusal = Refusal { number: Refusal::USED_ABOVE_ALLOCATED, place: 592 };
/// assert_eq!(refusal.to_string(), "used size is above allocated size, in the block at 592 (refusal 13)");
///
/// let reason = refusal.reason().expect("13 is the number of a reason");
/// assert_eq!(reason.name, "USED_ABOVE_ALLOCATED");
/// assert_eq!(reason.words, "used size is above allocated size");
/// ```
#[derive(Debug, Clone, Copy, PartialEq, Eq, Hash)]
pub struct Refusal {
    /// The reason: one of the constants of this type.
    pub number: u8,
    /// The place, counted from the first byte of what was lent. In
    /// [`Inner::Refused`](crate::Inner::Refused) it counts from the first byte of the inner file.
    /// It is 0 if the reason is about the whole.
    pub place: u64,
}

/// A reason to refuse something. [`REASONS`] has all of them, and [`Refusal::reason`] returns that
/// of a refusal.
///
/// ```
/// use asdf_layout::{Reason, REASONS};
///
/// let line = |reason: &Reason| format!("{}: {}", reason.number, reason.words);
/// let lines: Vec<String> = REASONS.iter().map(line).collect();
/// assert_eq!(lines[11], "12: header size is below 48");
/// ```
#[derive(Debug, Clone, Copy, PartialEq, Eq, Hash)]
pub struct Reason {
    /// The number that is returned for it.
    pub number: u8,
    /// The name of its constant in [`Refusal`]. In the C header it is preceded by `ASDF_`.
    pub name: &'static str,
    /// What is wrong, without the place.
    pub words: &'static str,
    /// What is at the place.
    place: Place,
}

/// What is at the place of a refusal.
#[derive(Debug, Clone, Copy, PartialEq, Eq, Hash)]
enum Place {
    /// Nothing: the reason is about the whole.
    Whole,
    /// Something begins there.
    Here,
    /// A line begins there.
    Line,
    /// A block begins there.
    Block,
    /// A row begins there.
    Row,
}

/// Makes the constants and the table of all reasons.
macro_rules! reasons {
    ($($number:literal $name:ident $place:ident $words:literal,)*) => {
        impl Refusal {
            $(#[doc = concat!("Refusal ", $number, ": ", $words, ".")] pub const $name: u8 = $number;)*
        }

        /// All reasons, in the order of their numbers.
        pub const REASONS: &[Reason] = &[
            $(Reason { number: $number, name: stringify!($name), words: $words, place: Place::$place },)*
        ];
    };
}

reasons! {
    1 FILE_TOO_LONG Whole "file is longer than 4,294,967,295 bytes",
    2 NOT_ASDF Whole "file does not begin with `#ASDF `",
    3 VERSION_MALFORMED Here "version line is malformed or has no line end",
    4 VERSION_NOT_ONE Here "first version number is not 1",
    5 COMMENT_NOT_ENDED Line "comment line has no line end",
    6 INDEX_AMONG_COMMENTS Line "first line of a block index is among the comments",
    7 NEITHER_TREE_NOR_BLOCK Here "after the comments there is neither a tree nor a block nor the end of the file",
    8 WRONG_LINE_BEFORE_START Line "wrong line comes before the start line of the tree",
    9 SECOND_START_LINE Line "tree has a second start line",
    10 TREE_NOT_ENDED Here "tree does not end: its next line has no line end or is missing",
    11 HEADER_PASSES_END Block "block header passes the end of the file",
    12 HEADER_TOO_SMALL Block "header size is below 48",
    13 USED_ABOVE_ALLOCATED Block "used size is above allocated size",
    14 DATA_SIZE_DIFFERS Block "data size differs from used size although the content is not compressed",
    15 ALLOCATED_PASSES_END Block "allocated space passes the end of the file",
    16 TOO_MANY_BLOCKS Here "there is a 65th block mark",
    17 STRAY_TAIL Here "stray bytes follow the last block: not all zeros, not an index, and no mark after them",
    18 EDIT_WITHOUT_TREE Whole "file has no tree to edit",
    19 TEXT_NOT_ONE_TREE Whole "text is not exactly one tree",
    20 TEXT_LONGER_THAN_ROOM Whole "text is longer than the room of the tree",
    21 BUFFER_TOO_SHORT Whole "lent buffer is shorter than the result",
    22 NO_INDEX_POSSIBLE Whole "file cannot have an index: it has no block, or its last block is streamed",
    23 OUTLINE_LENGTH Whole "length of the outline is not divisible by 16",
    24 OUTLINE_ROW Row "row of the outline breaks a rule",
}

impl Refusal {
    /// Returns the reason in words, without the place.
    pub fn words(&self) -> &'static str {
        self.reason()
            .map_or("unknown reason", |reason| reason.words)
    }

    /// Returns the reason, or `None` if no reason has this number. The proved functions return
    /// only numbers that have one.
    pub fn reason(&self) -> Option<&'static Reason> {
        REASONS.iter().find(|reason| reason.number == self.number)
    }
}

impl fmt::Display for Refusal {
    fn fmt(&self, f: &mut fmt::Formatter<'_>) -> fmt::Result {
        let Refusal { number, place } = self;
        f.write_str(self.words())?;
        match self.reason().map_or(Place::Here, |reason| reason.place) {
            Place::Whole => Ok(()),
            Place::Here => write!(f, ", at {place}"),
            Place::Line => write!(f, ", in the line at {place}"),
            Place::Block => write!(f, ", in the block at {place}"),
            Place::Row => write!(f, ", in the row at {place}"),
        }?;
        write!(f, " (refusal {number})")
    }
}

impl Error for Refusal {}

#[cfg(test)]
mod tests {
    use super::*;

    /// The sentence for a number, with 70 as its place.
    fn sentence(number: u8) -> String {
        Refusal { number, place: 70 }.to_string()
    }

    #[test]
    fn numbers_run_from_1_without_a_gap() {
        let numbers = REASONS.iter().map(|reason| usize::from(reason.number));
        assert!(numbers.eq(1..=REASONS.len()));
    }

    #[test]
    fn each_number_from_1_to_24_has_its_reason() {
        let reason = |number| Refusal { number, place: 70 }.reason();
        for (number, expected) in (1..=24).zip(REASONS) {
            assert_eq!(reason(number), Some(expected));
        }
        let others = (25..=u8::MAX).chain([0]);
        assert_eq!(others.filter_map(reason).next(), None);
    }

    #[test]
    fn sentence_names_the_place_where_there_is_one() {
        assert_eq!(
            sentence(1),
            "file is longer than 4,294,967,295 bytes (refusal 1)"
        );
        assert_eq!(
            sentence(4),
            "first version number is not 1, at 70 (refusal 4)"
        );
        assert_eq!(
            sentence(9),
            "tree has a second start line, in the line at 70 (refusal 9)"
        );
        assert_eq!(
            sentence(12),
            "header size is below 48, in the block at 70 (refusal 12)"
        );
        assert_eq!(
            sentence(24),
            "row of the outline breaks a rule, in the row at 70 (refusal 24)"
        );
        assert_eq!(sentence(99), "unknown reason, at 70 (refusal 99)");
    }
}
