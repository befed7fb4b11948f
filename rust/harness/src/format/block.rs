//! The header of a block: its fields, and a function that writes one by hand.

use super::text;
use std::ops::Range;

/// A field of a block header.
#[derive(Clone, Copy)]
pub struct Field {
    /// Where the field begins, counted from the first byte of the block.
    at: usize,
    /// How many bytes the field has.
    pub length: usize,
}

const fn field(at: usize, length: usize) -> Field {
    Field { at, length }
}

pub const MARK: Field = field(0, 4);
pub const HEADER_SIZE: Field = field(4, 2);
pub const FLAGS: Field = field(6, 4);
pub const COMPRESSION: Field = field(10, 4);
pub const ALLOCATED: Field = field(14, 8);
pub const USED: Field = field(22, 8);
pub const DATA_SIZE: Field = field(30, 8);
pub const CHECKSUM: Field = field(38, 16);

/// All fields in their order.
pub const FIELDS: &[Field] = &[
    MARK,
    HEADER_SIZE,
    FLAGS,
    COMPRESSION,
    ALLOCATED,
    USED,
    DATA_SIZE,
    CHECKSUM,
];

/// The offset in the block from which the header size counts.
pub const HEADER_SIZE_COUNTS_FROM: usize = 6;
/// The bytes of a block header with header size 48, which holds the named fields and no more.
pub const FIELD_BYTES: usize = 54;
/// The header size of a block header that holds the named fields and no more.
pub const LEAST_HEADER_SIZE: u16 = 48;
/// The flag of a streamed block.
pub const STREAMED: u32 = 1;

impl Field {
    /// Where the field is if its block begins at `block`.
    pub fn stretch(self, block: usize) -> Range<usize> {
        block + self.at..block + self.at + self.length
    }

    /// The field as a big-endian number, if it is within the file.
    pub fn number(self, file: &[u8], block: usize) -> Option<u128> {
        let bytes = file.get(self.stretch(block))?;
        let number = bytes
            .iter()
            .fold(0, |number, &byte| number << 8 | u128::from(byte));
        Some(number)
    }
}

/// Writes the header of a block, with one number for all three sizes.
pub fn block_header(flags: u32, size: u64) -> Vec<u8> {
    let front = [
        text::MARK,
        &LEAST_HEADER_SIZE.to_be_bytes(),
        &flags.to_be_bytes(),
    ];
    let mut header = front.concat();
    header.extend([0; 4]);
    header.extend([size; 3].map(u64::to_be_bytes).concat());
    header.resize(FIELD_BYTES, 0);
    header
}
