//! Outlines: sixteen bytes for each block, to be stored beside a file and read without it.

use crate::answer::{answer, numbers_of, written, written_rows};
use crate::Refusal;
use asdf_sys::{NUMBER_BYTES, ROW_BYTES, ROW_NUMBERS};
use std::borrow::Cow;
use std::fmt;

/// How many bytes the numbers of a stored row take.
const STORED_ROW_BYTES: usize = ROW_NUMBERS * NUMBER_BYTES;

/// An accepted outline.
///
/// ```
/// use asdf_layout::Outline;
///
/// let stored: Vec<u8> = Outline::of_file(b"#ASDF 1.0.0\n")?.into_bytes();
/// assert_eq!(Outline::read(&stored)?.rows().len(), 0);
///
/// let row = [0, 0, 0, 0x30, 0, 0, 0, 0x0C, 0, 0, 0, 9, 0, 0, 0, 7];
/// let rows: Vec<String> = Outline::read(&row)?.rows().map(|row| row.to_string()).collect();
/// assert_eq!(rows, ["0 0 12 48 9 7 0 0 0 0"]);
/// # Ok::<(), asdf_layout::Refusal>(())
/// ```
#[derive(Debug, Clone, PartialEq, Eq, Hash)]
pub struct Outline<'a> {
    bytes: Cow<'a, [u8]>,
}

/// A row of an outline.
#[derive(Debug, Clone, Copy, PartialEq, Eq, Hash)]
pub struct Row {
    /// How many files surround the block's own file.
    pub depth: u8,
    /// The number of the block in its own file.
    pub ordinal: u8,
    /// The block's first byte, in the outermost file.
    pub offset: usize,
    /// The header size, counted from offset 6 of the block.
    pub header_size: u16,
    /// The allocated size: how many bytes are kept for content.
    pub allocated: usize,
    /// The used size: how many bytes the content has.
    pub used: usize,
    /// Whether the content reaches to the end of the file.
    pub streamed: bool,
    /// Whether the content is compressed.
    pub compressed: bool,
    /// Whether there is a checksum.
    pub checksum: bool,
    /// Whether the content is itself a file.
    pub inner: InnerState,
}

/// Whether a block's content is itself a file, without the reason if it is refused.
#[derive(Debug, Clone, Copy, PartialEq, Eq, Hash)]
pub enum InnerState {
    /// The content is not a file.
    Plain = 0,
    /// The content is a file, and its rows follow.
    Opened = 1,
    /// The content begins like a file, but is refused.
    Refused = 2,
    /// The content begins like a file, but is deeper than files are read.
    TooDeep = 3,
}

impl Outline<'static> {
    /// Makes the outline of a file.
    pub fn of_file(file: &[u8]) -> Result<Outline<'static>, Refusal> {
        let bytes = Cow::Owned(written_rows(file, ROW_BYTES, asdf_sys::outline)?);
        Ok(Outline { bytes })
    }
}

impl<'a> Outline<'a> {
    /// Reads a stored outline.
    pub fn read(stored: &'a [u8]) -> Result<Outline<'a>, Refusal> {
        answer(asdf_sys::stored_count(stored))?;
        let bytes = Cow::Borrowed(stored);
        Ok(Outline { bytes })
    }

    /// Writes the outline again from the rows that were read, into bytes of its own. These bytes
    /// are the same.
    pub fn rewritten(&self) -> Result<Outline<'static>, Refusal> {
        let rewrite = |out: &mut [u8]| asdf_sys::rewrite(&self.bytes, out);
        let bytes = Cow::Owned(written(self.bytes.len(), rewrite)?);
        Ok(Outline { bytes })
    }

    /// Returns the bytes to be stored.
    pub fn as_bytes(&self) -> &[u8] {
        &self.bytes
    }

    /// Returns the bytes to be stored, as bytes of their own. Those of an outline that was read are
    /// copied, those of any other are not.
    ///
    /// ```
    /// use asdf_layout::Outline;
    ///
    /// let mut file = b"#ASDF 1.0.0\n\xD3BLK\0\x30".to_vec();
    /// file.extend([0; 48]);
    /// let stored = Outline::of_file(&file)?.into_bytes();
    /// assert_eq!(stored, [0, 0, 0, 0x30, 0, 0, 0, 0x0C, 0, 0, 0, 0, 0, 0, 0, 0]);
    /// # Ok::<(), asdf_layout::Refusal>(())
    /// ```
    pub fn into_bytes(self) -> Vec<u8> {
        self.bytes.into_owned()
    }

    /// Returns the rows, in walking order. Each call judges the outline again.
    ///
    /// The iterator knows how many rows are left and can be read from both ends.
    pub fn rows(&self) -> impl DoubleEndedIterator<Item = Row> + ExactSizeIterator {
        let count = self.bytes.len() / ROW_BYTES;
        let ask = |out: &mut [u8]| asdf_sys::stored_rows(&self.bytes, out);
        let rows = written(count * STORED_ROW_BYTES, ask);
        let rows = rows.expect("the rows of an accepted outline can be read");
        (0..count).map(move |k| Row::from_numbers(numbers_of(&rows[k * STORED_ROW_BYTES..])))
    }
}

impl Row {
    /// Makes a row from its numbers. Each of them is promised to fit its field.
    fn from_numbers(numbers: [u64; ROW_NUMBERS]) -> Row {
        let [depth, ordinal, offset, header_size, allocated, used, streamed, compressed, checksum, inner] =
            numbers;
        Row {
            depth: depth as u8,
            ordinal: ordinal as u8,
            offset: offset as usize,
            header_size: header_size as u16,
            allocated: allocated as usize,
            used: used as usize,
            streamed: streamed == 1,
            compressed: compressed == 1,
            checksum: checksum == 1,
            inner: InnerState::from_number(inner),
        }
    }
}

impl fmt::Display for Row {
    /// Writes the ten numbers of the row as the listing does.
    fn fmt(&self, f: &mut fmt::Formatter<'_>) -> fmt::Result {
        write!(
            f,
            "{} {} {} {} {} {} {} {} {} {}",
            self.depth,
            self.ordinal,
            self.offset,
            self.header_size,
            self.allocated,
            self.used,
            u8::from(self.streamed),
            u8::from(self.compressed),
            u8::from(self.checksum),
            self.inner as u8,
        )
    }
}

impl InnerState {
    /// Returns the inner state with this number.
    fn from_number(number: u64) -> InnerState {
        match number {
            0 => InnerState::Plain,
            1 => InnerState::Opened,
            2 => InnerState::Refused,
            _ => InnerState::TooDeep,
        }
    }
}
