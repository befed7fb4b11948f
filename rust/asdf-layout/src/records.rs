//! All blocks of a file and of the files inside its blocks, in walking order.

use crate::answer::{answer, numbers, numbers_of, written_rows};
use crate::{Block, Refusal};
use asdf_sys::{NUMBER_BYTES, RECORD_NUMBERS};
use std::fmt;
use std::iter::Map;
use std::ops::Range;
use std::slice::ChunksExact;

/// How many bytes a record has.
const RECORD_BYTES: usize = RECORD_NUMBERS * NUMBER_BYTES;

/// Returns how many blocks a file and the files inside it have.
pub fn row_count(file: &[u8]) -> Result<u64, Refusal> {
    answer(asdf_sys::count(file))
}

/// What is reported about a block among all blocks of an outermost file.
#[derive(Debug, Clone, Copy, PartialEq, Eq, Hash)]
pub struct Record {
    /// How many files surround the block's own file.
    pub depth: u8,
    /// The block's first byte, in the outermost file.
    pub offset: usize,
    /// Whether the block's content is itself a file.
    pub inner: Inner,
    /// What is reported about the block in its own file.
    pub block: Block,
}

/// Whether a block's content is itself a file. It prints as a few words.
///
/// ```
/// use asdf_layout::Records;
///
/// // A header line, and a streamed block whose content is a file of another version.
/// let mut file = b"#ASDF 1.0.0\n\xD3BLK\0\x30\0\0\0\x01".to_vec();
/// file.extend([0; 44]);
/// file.extend(b"#ASDF 2.0.0\n");
/// for record in &Records::read(&file)? {
///     let words = "a file, refused: first version number is not 1, at 6 (refusal 4)";
///     assert_eq!(record.inner.to_string(), words);
/// }
/// # Ok::<(), asdf_layout::Refusal>(())
/// ```
#[derive(Debug, Clone, Copy, PartialEq, Eq, Hash)]
pub enum Inner {
    /// The content is not a file.
    Plain,
    /// The content is a file, and its records follow.
    Opened,
    /// The content begins like a file, but is refused. The place counts from the first byte of the
    /// content.
    Refused(Refusal),
    /// The content begins like a file, but is deeper than files are read.
    TooDeep,
}

/// The records of a file, 120 bytes each.
///
/// ```
/// use asdf_layout::Records;
///
/// let records = Records::read(b"#ASDF 1.0.0\n\xD3BLK\0\x30\
///     \0\0\0\0zlib\0\0\0\0\0\0\0\0\0\0\0\0\0\0\0\0\0\0\0\0\0\0\0\0\0\0\0\0\0\0\0\0\0\0\0\0\0\0\0\0")?;
/// assert_eq!(records.len(), 1);
/// let names: Vec<_> = records.iter().map(|record| record.block.compression).collect();
/// assert_eq!(names, [*b"zlib"]);
///
/// assert!(Records::read(b"#ASDF 1.0.0\n")?.is_empty());
/// # Ok::<(), asdf_layout::Refusal>(())
/// ```
#[derive(Debug, Clone, PartialEq, Eq, Hash)]
pub struct Records {
    bytes: Vec<u8>,
}

impl Records {
    /// Reads all records of a file.
    ///
    /// For up to 64 records, and for files of up to about 470,000 bytes, one call of the
    /// proved function is enough. Otherwise they are counted, and a second call reads them.
    pub fn read(file: &[u8]) -> Result<Records, Refusal> {
        let bytes = written_rows(file, RECORD_BYTES, asdf_sys::records)?;
        Ok(Records { bytes })
    }

    /// How many records there are: the same number that [`row_count`] returns for the file.
    pub fn len(&self) -> usize {
        self.bytes.len() / RECORD_BYTES
    }

    /// Whether there is no record, because the file has no block.
    pub fn is_empty(&self) -> bool {
        self.bytes.is_empty()
    }

    /// Returns the records in walking order. Those of an opened inner file follow the record of its
    /// block.
    ///
    /// The iterator knows how many records are left and can be read from both ends.
    ///
    /// ```
    /// use asdf_layout::Records;
    ///
    /// // A header line, and two blocks without content.
    /// let mut file = b"#ASDF 1.0.0\n".to_vec();
    /// for _ in 0..2 {
    ///     file.extend(b"\xD3BLK\0\x30");
    ///     file.extend([0; 48]);
    /// }
    /// let records = Records::read(&file)?;
    /// assert_eq!(records.iter().len(), 2);
    /// let last_first: Vec<usize> = records.iter().rev().map(|record| record.offset).collect();
    /// assert_eq!(last_first, [66, 12]);
    /// # Ok::<(), asdf_layout::Refusal>(())
    /// ```
    pub fn iter(&self) -> <&Records as IntoIterator>::IntoIter {
        self.into_iter()
    }

    /// Returns the blocks of the outermost file.
    pub fn blocks(&self) -> impl Iterator<Item = Block> + '_ {
        let outermost = self.iter().filter(|record| record.depth == 0);
        outermost.map(|record| record.block)
    }
}

impl<'a> IntoIterator for &'a Records {
    type Item = Record;
    type IntoIter = Map<ChunksExact<'a, u8>, fn(&[u8]) -> Record>;

    fn into_iter(self) -> Self::IntoIter {
        let records = self.bytes.chunks_exact(RECORD_BYTES);
        records.map(|record| Record::from_numbers(numbers_of(record)))
    }
}

impl Record {
    /// Reads the record with this number in walking order. Returns `None` if there is no such
    /// record.
    ///
    /// Every call walks the file again. To get all records, call [`Records::read`] once.
    pub fn read(file: &[u8], number: u64) -> Result<Option<Record>, Refusal> {
        let numbers = numbers(|out| asdf_sys::record(file, number, out))?;
        Ok(numbers.map(Record::from_numbers))
    }

    /// Makes a record from its numbers. Each of them is promised to fit its field.
    fn from_numbers(numbers: [u64; RECORD_NUMBERS]) -> Record {
        let [depth, offset, state, number, place, block @ ..] = numbers;
        Record {
            depth: depth as u8,
            offset: offset as usize,
            inner: Inner::from_numbers(state, number, place),
            block: Block::from_numbers(block),
        }
    }

    /// Where the content is, in the outermost file. [`Block::content`] says where it is in the
    /// block's own file.
    ///
    /// ```
    /// use asdf_layout::Records;
    ///
    /// // A file with a block, and a file that has it as the content of a streamed block.
    /// let mut inner = b"#ASDF 1.0.0\n\xD3BLK\0\x30\0\0\0\0\0\0\0\0".to_vec();
    /// inner.extend([3u64, 3, 3].map(u64::to_be_bytes).concat());
    /// inner.extend([0; 16]);
    /// inner.extend(b"abc");
    /// let mut outer = b"#ASDF 1.0.0\n\xD3BLK\0\x30\0\0\0\x01".to_vec();
    /// outer.extend([0; 44]);
    /// outer.extend(&inner);
    ///
    /// let records: Vec<_> = Records::read(&outer)?.iter().collect();
    /// assert_eq!(outer[records[0].content()], inner);
    /// assert_eq!(outer[records[1].content()], *b"abc");
    /// assert_eq!(inner[records[1].block.content()], *b"abc");
    /// # Ok::<(), asdf_layout::Refusal>(())
    /// ```
    pub fn content(&self) -> Range<usize> {
        self.block.content_from(self.offset)
    }
}

impl Inner {
    /// Makes an inner state from its numbers.
    fn from_numbers(state: u64, number: u64, place: u64) -> Inner {
        match state {
            0 => Inner::Plain,
            1 => Inner::Opened,
            2 => Inner::Refused(Refusal {
                number: number as u8,
                place,
            }),
            _ => Inner::TooDeep,
        }
    }
}

impl fmt::Display for Inner {
    /// Writes the words that the tool's listing for people uses.
    fn fmt(&self, f: &mut fmt::Formatter<'_>) -> fmt::Result {
        match self {
            Inner::Plain => f.write_str("plain"),
            Inner::Opened => f.write_str("a file, opened"),
            Inner::Refused(refusal) => write!(f, "a file, refused: {refusal}"),
            Inner::TooDeep => f.write_str("a file, too deep to be read"),
        }
    }
}

#[cfg(test)]
mod tests {
    use super::*;

    #[test]
    fn inner_state_is_told_in_a_few_words() {
        let refusal = Refusal {
            number: Refusal::VERSION_NOT_ONE,
            place: 6,
        };
        let told = [
            (Inner::Plain, "plain"),
            (Inner::Opened, "a file, opened"),
            (
                Inner::Refused(refusal),
                "a file, refused: first version number is not 1, at 6 (refusal 4)",
            ),
            (Inner::TooDeep, "a file, too deep to be read"),
        ];
        for (inner, words) in told {
            assert_eq!(inner.to_string(), words);
        }
    }
}
