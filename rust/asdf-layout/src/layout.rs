//! The layout of one file, without the files inside.

use crate::answer::numbers;
use crate::Refusal;
use std::fmt;
use std::ops::Range;

/// What is reported about one file, without the files inside its blocks.
///
/// Every end is exclusive, and every offset counts from the file's first byte.
#[derive(Debug, Clone, Copy, PartialEq, Eq, Hash)]
pub struct Layout {
    /// The version of the file format, from the header line.
    pub version: Version,
    /// Where the header line ends.
    pub header_end: usize,
    /// How the header line ends.
    pub line_end: LineEnd,
    /// Where the comments end. They begin at the end of the header.
    pub comments_end: usize,
    /// The tree, if there is one.
    pub tree: Option<Tree>,
    /// How many blocks the file itself has.
    pub blocks: u8,
    /// The verdict on the block index.
    pub index: Verdict,
}

/// The three numbers of a version. An earlier version is less than a later one.
///
/// ```
/// use asdf_layout::{Layout, Version};
///
/// let version = Layout::read(b"#ASDF 1.10.0\n")?.version;
/// assert!(version > Version { major: 1, minor: 9, patch: 3 });
/// assert_eq!(version.to_string(), "1.10.0");
/// # Ok::<(), asdf_layout::Refusal>(())
/// ```
// The derived order compares the first field first, so the major number has to stay in front.
#[derive(Debug, Clone, Copy, PartialEq, Eq, PartialOrd, Ord, Hash)]
#[allow(missing_docs)]
pub struct Version {
    pub major: u16,
    pub minor: u16,
    pub patch: u16,
}

/// How a line ends.
///
/// Files written under Windows often end their lines with two bytes. The lines of an index that is
/// written for a file end as its header line does.
///
/// ```
/// use asdf_layout::{index_text, Layout, LineEnd};
///
/// let mut file = b"#ASDF 1.0.0\r\n\xD3BLK\0\x30".to_vec();
/// file.extend([0; 48]);
/// assert_eq!(Layout::read(&file)?.line_end, LineEnd::Crlf);
/// let text = b"#ASDF BLOCK INDEX\r\n%YAML 1.1\r\n--- [13]\r\n...\r\n";
/// assert_eq!(index_text(&file)?, text);
/// # Ok::<(), asdf_layout::Refusal>(())
/// ```
#[derive(Debug, Clone, Copy, PartialEq, Eq, Hash)]
pub enum LineEnd {
    /// The byte 0A.
    Lf,
    /// The bytes 0D 0A.
    Crlf,
}

/// Where the tree of a file is.
#[derive(Debug, Clone, Copy, PartialEq, Eq, Hash)]
pub struct Tree {
    /// The offset of the `%` in its first line.
    pub start: usize,
    /// The offset after the line end of its last line, `...`.
    pub end: usize,
    /// The offset of the first block, or the end of the file. An [`edit`](crate::edit) may fill the
    /// room up to here.
    pub room_end: usize,
}

/// The verdict on the block index, which may be written in brackets or with dashes.
#[derive(Debug, Clone, Copy, PartialEq, Eq, Hash)]
pub enum Verdict {
    /// There is no index.
    Absent,
    /// The index lists the offsets of the blocks.
    Good,
    /// The index is ignored for its form: its text is not an index.
    IgnoredForm,
    /// The index is ignored for its list: it lists other offsets.
    IgnoredList,
}

impl Layout {
    /// Reads the layout of a file.
    ///
    /// ```
    /// use asdf_layout::Layout;
    ///
    /// let file = b"#ASDF 1.0.0\n%YAML 1.1\n---\n...\n   ";
    /// let tree = Layout::read(file)?.tree.expect("this file has a tree");
    /// assert_eq!(file[tree.text()], *b"%YAML 1.1\n---\n...\n");
    /// assert_eq!(tree.room(), 12..33);
    /// # Ok::<(), asdf_layout::Refusal>(())
    /// ```
    pub fn read(file: &[u8]) -> Result<Layout, Refusal> {
        let numbers = numbers(|out| asdf_sys::read(file, out))?;
        Ok(Layout::from_numbers(
            numbers.expect("an accepted file has a layout"),
        ))
    }

    /// Makes a layout from its numbers. Each of them is promised to fit its field.
    fn from_numbers(numbers: [u64; asdf_sys::LAYOUT_NUMBERS]) -> Layout {
        let [major, minor, patch, header_end, comments_end, present, start, end, room_end, blocks, verdict, line_end] =
            numbers;
        let tree = Tree {
            start: start as usize,
            end: end as usize,
            room_end: room_end as usize,
        };
        Layout {
            version: Version {
                major: major as u16,
                minor: minor as u16,
                patch: patch as u16,
            },
            header_end: header_end as usize,
            line_end: LineEnd::from_number(line_end),
            comments_end: comments_end as usize,
            tree: (present == 1).then_some(tree),
            blocks: blocks as u8,
            index: Verdict::from_number(verdict),
        }
    }

    /// Where the comments are. The range is empty if there are none.
    pub fn comments(&self) -> Range<usize> {
        self.header_end..self.comments_end
    }
}

impl Tree {
    /// Where the text of the tree is, without the free space.
    pub fn text(&self) -> Range<usize> {
        self.start..self.end
    }

    /// Where the room for another tree is.
    pub fn room(&self) -> Range<usize> {
        self.start..self.room_end
    }
}

impl LineEnd {
    /// Returns the line end with this number.
    fn from_number(number: u64) -> LineEnd {
        match number {
            0 => LineEnd::Lf,
            _ => LineEnd::Crlf,
        }
    }
}

impl Verdict {
    /// Returns the verdict with this number.
    fn from_number(number: u64) -> Verdict {
        match number {
            0 => Verdict::Absent,
            1 => Verdict::Good,
            2 => Verdict::IgnoredForm,
            _ => Verdict::IgnoredList,
        }
    }
}

impl fmt::Display for LineEnd {
    /// Writes the bytes of the line end, in hexadecimal.
    fn fmt(&self, f: &mut fmt::Formatter<'_>) -> fmt::Result {
        f.write_str(match self {
            LineEnd::Lf => "0A",
            LineEnd::Crlf => "0D 0A",
        })
    }
}

impl fmt::Display for Verdict {
    /// Writes the word for the verdict that the listing uses.
    fn fmt(&self, f: &mut fmt::Formatter<'_>) -> fmt::Result {
        f.write_str(match self {
            Verdict::Absent => "absent",
            Verdict::Good => "good",
            Verdict::IgnoredForm => "ignored-form",
            Verdict::IgnoredList => "ignored-list",
        })
    }
}

impl fmt::Display for Version {
    fn fmt(&self, f: &mut fmt::Formatter<'_>) -> fmt::Result {
        write!(f, "{}.{}.{}", self.major, self.minor, self.patch)
    }
}
