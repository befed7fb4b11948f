//! Makes blocks that keep the rules.

use super::text::part_of_mark;
use crate::format::block::{block_header, FIELD_BYTES, HEADER_SIZE_COUNTS_FROM, STREAMED};
use crate::format::text::{HEADER_LINE, MARK};
use crate::rng::Rng;

/// Compression names: those of the standard, and others.
const COMPRESSIONS: &[[u8; 4]] = &[
    *b"zlib",
    *b"bzp2",
    *b"lz4\0",
    *b"none",
    [0, 0, 0, 1],
    [1, 0, 0, 0],
    [0xFF; 4],
];

/// A block as it is stored.
pub struct Block {
    pub header_size: u16,
    flags: u32,
    compression: [u8; 4],
    pub allocated: u64,
    pub used: u64,
    pub data_size: u64,
    checksum: [u8; 16],
    /// The rest of the header after the fields, the content and the unused space.
    after_fields: Vec<u8>,
}

/// Makes a block with this content. It is rarely streamed unless the chain may end with it.
pub fn good_block(rng: &mut Rng, content: &[u8], may_end: bool) -> Block {
    let used = content.len() as u64;
    let unused = unused_space(rng);
    let header_size = header_size(rng);
    let filler = rng.bytes(header_bytes(header_size) - FIELD_BYTES);
    let compression = compression(rng);
    let mut block = Block {
        header_size,
        flags: flags(rng, may_end),
        compression,
        allocated: used + unused.len() as u64,
        used,
        data_size: data_size(rng, compression, used),
        checksum: checksum(rng),
        after_fields: [&filler, content, &unused].concat(),
    };
    if block.flags & STREAMED != 0 && rng.chance(2) {
        block.fill_sizes(rng.pick(&[0, 1, u64::MAX]));
        block.used = rng.pick(&[0, 1, u64::MAX]);
    }
    block
}

/// Returns the length of a header with this header size.
fn header_bytes(header_size: u16) -> usize {
    HEADER_SIZE_COUNTS_FROM + usize::from(header_size)
}

/// Makes the unused space after the content, which is mostly empty.
fn unused_space(rng: &mut Rng) -> Vec<u8> {
    let length = rng.between(1, 30);
    match rng.below(14) {
        0 => vec![0; length],
        1 => rng.bytes(length),
        2 => b" 1.0.0\n".to_vec(),
        3 => MARK.to_vec(),
        4 => [HEADER_LINE, &block_header(0, 0)].concat(),
        5 => part_of_mark(rng),
        _ => Vec::new(),
    }
}

/// Makes a header size of at least 48, mostly 48.
fn header_size(rng: &mut Rng) -> u16 {
    if rng.chance(2_000) {
        u16::MAX
    } else {
        rng.pick(&[48, 48, 48, 48, 48, 48, 48, 49, 50, 54, 64, 100])
    }
}

/// Makes the flags. The flag of a streamed block is rarely set unless the chain may end with the
/// block.
fn flags(rng: &mut Rng, may_end: bool) -> u32 {
    let others = match rng.below(8) {
        0 => rng.word() as u32,
        1 => rng.pick(&[u32::MAX, 0x8000_0000, 0x0100_0000, 2]),
        _ => 0,
    };
    let streamed = rng.chance(if may_end { 6 } else { 400 });
    others & !STREAMED | u32::from(streamed)
}

/// Makes a compression name, mostly that of an uncompressed block.
fn compression(rng: &mut Rng) -> [u8; 4] {
    if rng.chance(10) {
        rng.pick(COMPRESSIONS)
    } else {
        [0; 4]
    }
}

/// Makes the data size: the used size for an uncompressed block, any number for a compressed one.
fn data_size(rng: &mut Rng, compression: [u8; 4], used: u64) -> u64 {
    if compression == [0; 4] {
        return used;
    }
    match rng.below(3) {
        0 => used,
        1 => u64::MAX,
        _ => rng.word(),
    }
}

/// Makes a checksum: none, one with a single byte that is not zero, or any.
fn checksum(rng: &mut Rng) -> [u8; 16] {
    let mut checksum = [0; 16];
    match rng.below(6) {
        0 => checksum[rng.pick(&[0, 7, 8, 15])] = 1,
        1 => checksum = std::array::from_fn(|_| rng.byte()),
        _ => {}
    }
    checksum
}

impl Block {
    /// Sets all three sizes to one value.
    pub fn fill_sizes(&mut self, size: u64) {
        self.allocated = size;
        self.used = size;
        self.data_size = size;
    }

    /// Returns where the content begins if the block begins at `at`.
    pub fn content_start(&self, at: usize) -> u64 {
        (at + header_bytes(self.header_size)) as u64
    }

    /// Returns the bytes of the block.
    pub fn bytes(&self) -> Vec<u8> {
        let mut bytes = MARK.to_vec();
        bytes.extend(self.header_size.to_be_bytes());
        bytes.extend(self.flags.to_be_bytes());
        bytes.extend(self.compression);
        bytes.extend(self.allocated.to_be_bytes());
        bytes.extend(self.used.to_be_bytes());
        bytes.extend(self.data_size.to_be_bytes());
        bytes.extend(self.checksum);
        bytes.extend(&self.after_fields);
        bytes
    }
}
