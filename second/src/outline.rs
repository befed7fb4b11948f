//! Writes and reads outlines. An outline has one row of 16 bytes for each block.

use crate::block::{LEAST_HEADER_BYTES, LEAST_HEADER_SIZE, MOST_BLOCKS};
use crate::layout::{judge, Judged};
use crate::offset::Outermost;
use crate::records::{each_record, Inner, Record};
use crate::refusal::*;
use std::fmt;

/// The number of bytes in one row.
pub const ROW_LENGTH: usize = 16;

/// The inner state as a row holds it, without the number and place of a refusal.
#[derive(Debug, Clone, Copy, PartialEq, Eq)]
pub enum InnerKind {
    Plain = 0,
    Opened = 1,
    Refused = 2,
    TooDeep = 3,
}

impl InnerKind {
    /// Returns the kind that the low two bits name.
    fn from_bits(bits: u8) -> InnerKind {
        match bits & 0b11 {
            0 => InnerKind::Plain,
            1 => InnerKind::Opened,
            2 => InnerKind::Refused,
            _ => InnerKind::TooDeep,
        }
    }
}

impl From<Inner> for InnerKind {
    fn from(inner: Inner) -> InnerKind {
        match inner {
            Inner::Plain => InnerKind::Plain,
            Inner::Opened => InnerKind::Opened,
            Inner::Refused(_) => InnerKind::Refused,
            Inner::TooDeep => InnerKind::TooDeep,
        }
    }
}

/// One row of an outline. The depth takes three bits.
#[derive(Debug, Clone, Copy, PartialEq, Eq)]
pub struct Row {
    pub depth: u8,
    pub streamed: bool,
    pub compressed: bool,
    pub checksum: bool,
    pub inner: InnerKind,
    pub ordinal: u8,
    pub header_size: u16,
    pub offset: Outermost,
    pub allocated: u32,
    pub used: u32,
}

impl From<Record> for Row {
    fn from(record: Record) -> Row {
        Row {
            depth: record.depth,
            streamed: record.block.is_streamed(),
            compressed: record.block.is_compressed(),
            checksum: record.block.has_checksum(),
            inner: record.inner.into(),
            ordinal: record.block.ordinal,
            header_size: record.block.header_size,
            offset: record.offset,
            allocated: record.block.allocated,
            used: record.block.used,
        }
    }
}

impl fmt::Display for Row {
    /// Writes the row as the program prints it.
    fn fmt(&self, f: &mut fmt::Formatter<'_>) -> fmt::Result {
        write!(
            f,
            "{} {} {} {} {} {} {} {} {} {}",
            self.depth,
            self.ordinal,
            self.offset.0,
            self.header_size,
            self.allocated,
            self.used,
            u8::from(self.streamed),
            u8::from(self.compressed),
            u8::from(self.checksum),
            self.inner as u8,
        )
    }
}

impl Row {
    /// Returns the row's 128 bits, most significant first.
    fn to_bytes(self) -> [u8; ROW_LENGTH] {
        let bits = u128::from(self.depth & 0b111) << 125
            | u128::from(self.streamed) << 124
            | u128::from(self.compressed) << 123
            | u128::from(self.checksum) << 122
            | u128::from(self.inner as u8) << 120
            | u128::from(self.ordinal) << 112
            | u128::from(self.header_size) << 96
            | u128::from(self.offset.0) << 64
            | u128::from(self.allocated) << 32
            | u128::from(self.used);
        bits.to_be_bytes()
    }

    /// Returns the row that 128 bits hold. Every pattern of bits is a row.
    fn from_bytes(bytes: [u8; ROW_LENGTH]) -> Row {
        let bits = u128::from_be_bytes(bytes);
        Row {
            depth: (bits >> 125) as u8,
            streamed: bits >> 124 & 1 == 1,
            compressed: bits >> 123 & 1 == 1,
            checksum: bits >> 122 & 1 == 1,
            inner: InnerKind::from_bits((bits >> 120) as u8),
            ordinal: (bits >> 112) as u8,
            header_size: (bits >> 96) as u16,
            offset: Outermost((bits >> 64) as u32),
            allocated: (bits >> 32) as u32,
            used: bits as u32,
        }
    }

    /// Whether a stored row is accepted, if `deepest` is the highest depth that it may have.
    fn keeps_the_rules(&self, deepest: u8) -> bool {
        usize::from(self.ordinal) < MOST_BLOCKS
            && self.header_size >= LEAST_HEADER_SIZE
            && self.used <= self.allocated
            && self.depth <= deepest
    }
}

/// Returns the rows of a file in walking order. Refusals: 1 to 17.
pub fn rows(file: &[u8]) -> Result<Vec<Row>, Refusal> {
    Ok(rows_of(file, &judge(file)?))
}

/// Returns the rows of a judged file.
pub(crate) fn rows_of(file: &[u8], judged: &Judged) -> Vec<Row> {
    let mut rows = Vec::new();
    each_record(file, judged, &mut |record| rows.push(Row::from(record)));
    rows
}

/// Returns how many rows a file has. Refusals: 1 to 17.
pub fn row_count(file: &[u8]) -> Result<usize, Refusal> {
    let judged = judge(file)?;
    let mut count = 0;
    each_record(file, &judged, &mut |_| count += 1);
    Ok(count)
}

/// Returns a number of rows that no file of this length exceeds. The bound holds because each row
/// has a block header of its own.
pub fn most_rows(file_length: usize) -> usize {
    file_length / LEAST_HEADER_BYTES
}

/// Writes a file's outline into the lent buffer and returns the length of the outline. Refusals, in
/// this order: 1 to 17, 21.
pub fn outline(file: &[u8], out: &mut [u8]) -> Result<usize, Refusal> {
    write_rows(&rows(file)?, out)
}

/// Reads a stored outline. Refusals, in this order: 23, 24.
pub fn read_outline(bytes: &[u8]) -> Result<Vec<Row>, Refusal> {
    let (stored_rows, rest) = bytes.as_chunks::<ROW_LENGTH>();
    if !rest.is_empty() {
        return Err(Refusal::of_whole(OUTLINE_LENGTH));
    }
    let mut rows = Vec::with_capacity(stored_rows.len());
    let mut deepest = 0;
    for (position, stored) in stored_rows.iter().enumerate() {
        let row = Row::from_bytes(*stored);
        if !row.keeps_the_rules(deepest) {
            return Err(Refusal::at(OUTLINE_ROW, position * ROW_LENGTH));
        }
        deepest = row.depth + 1;
        rows.push(row);
    }
    Ok(rows)
}

/// Reads a stored outline and writes its rows into the lent buffer. Refusals, in this order: 23,
/// 24, 21.
pub fn rewrite_outline(bytes: &[u8], out: &mut [u8]) -> Result<usize, Refusal> {
    write_rows(&read_outline(bytes)?, out)
}

/// Writes rows one after another. The buffer after them does not change. Refusal: 21.
fn write_rows(rows: &[Row], out: &mut [u8]) -> Result<usize, Refusal> {
    let length = rows.len() * ROW_LENGTH;
    let result = out
        .get_mut(..length)
        .ok_or(Refusal::of_whole(BUFFER_TOO_SHORT))?;
    for (row, place) in rows.iter().zip(result.chunks_exact_mut(ROW_LENGTH)) {
        place.copy_from_slice(&row.to_bytes());
    }
    Ok(length)
}
