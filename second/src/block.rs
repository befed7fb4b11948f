//! Reads the blocks of a file: the header of each block, the chain with the space between blocks,
//! and the tail after the last block.

use crate::index_form::INDEX_LINE;
use crate::offset::InFile;
use crate::refusal::*;
use crate::zeros::only_zeros;

/// The four bytes with which every block begins.
const MARK: [u8; 4] = [0xD3, 0x42, 0x4C, 0x4B];
/// The offset in a block from which the header size H counts.
const HEADER_SIZE_COUNTS_FROM: usize = 6;
/// The smallest header size H.
pub(crate) const LEAST_HEADER_SIZE: u16 = 48;
/// The number of bytes in a block header with the smallest H. They hold all named fields.
pub(crate) const LEAST_HEADER_BYTES: usize = HEADER_SIZE_COUNTS_FROM + LEAST_HEADER_SIZE as usize;
/// The highest number of blocks that a file may have.
pub(crate) const MOST_BLOCKS: usize = 64;
const STREAMED_FLAG: u32 = 1;
const NO_COMPRESSION: [u8; 4] = [0; 4];
const NO_CHECKSUM: [u8; 16] = [0; 16];

/// Everything that is reported about a block in its own file, except its inner state.
#[derive(Debug, Clone, Copy, PartialEq, Eq)]
pub struct Block {
    /// The block's number in the file's chain, counted from 0.
    pub ordinal: u8,
    /// The offset of its mark in its own file.
    pub offset: InFile,
    /// The header size H, counted from offset 6 of the block.
    pub header_size: u16,
    pub flags: u32,
    /// The compression name, or four zeros for none.
    pub compression: [u8; 4],
    /// The allocated size, or the length of the content if the block is streamed.
    pub allocated: u32,
    /// The used size, or the length of the content if the block is streamed.
    pub used: u32,
    /// The data size with all its 64 bits, or the length of the content if the block is streamed.
    pub data_size: u64,
    /// The checksum, or sixteen zeros for none.
    pub checksum: [u8; 16],
}

impl Block {
    /// Whether the block is streamed, so that its content is everything to the end of its file.
    pub fn is_streamed(&self) -> bool {
        is_streamed(self.flags)
    }

    /// Whether the block names a compression.
    pub fn is_compressed(&self) -> bool {
        self.compression != NO_COMPRESSION
    }

    /// Whether the block states a checksum.
    pub fn has_checksum(&self) -> bool {
        self.checksum != NO_CHECKSUM
    }

    /// Returns where the content begins.
    pub(crate) fn content_start(&self) -> InFile {
        let header_bytes = HEADER_SIZE_COUNTS_FROM + usize::from(self.header_size);
        InFile::at(self.offset.position() + header_bytes)
    }

    /// Returns where the allocated space ends.
    pub(crate) fn end(&self) -> InFile {
        InFile::at(self.content_start().position() + self.allocated as usize)
    }

    /// Returns the content (the used part) as a part of the block's own file.
    pub(crate) fn content<'a>(&self, file: &'a [u8]) -> &'a [u8] {
        &file[self.content_start().position()..][..self.used as usize]
    }
}

/// What follows the last block.
pub(crate) enum Tail {
    /// There is no index: nothing follows, only zeros follow, or the last block is streamed and
    /// leaves no tail.
    NoIndex,
    /// The bytes from this position on begin as an index.
    Index(usize),
}

/// A file's own blocks and its tail.
pub(crate) struct Chain {
    pub blocks: Vec<Block>,
    pub tail: Tail,
}

impl Chain {
    /// Returns the chain of a file without blocks.
    pub(crate) fn empty() -> Chain {
        Chain {
            blocks: Vec::new(),
            tail: Tail::NoIndex,
        }
    }
}

/// Whether a block begins at this position.
pub(crate) fn mark_at(file: &[u8], position: usize) -> bool {
    file[position..].starts_with(&MARK)
}

/// Returns the first mark at or after the position `from`, if there is one.
pub(crate) fn find_mark(file: &[u8], from: usize) -> Option<usize> {
    let mut at = from;
    loop {
        at += file[at..].iter().position(|&byte| byte == MARK[0])?;
        if mark_at(file, at) {
            return Some(at);
        }
        at += 1;
    }
}

/// What follows a block.
enum Follower {
    /// Another block follows. Its mark begins at this position.
    Block(usize),
    /// No more blocks follow, so this is the tail.
    Tail(Tail),
}

/// Walks from the first mark to the last block and judges the tail. Refusals: 11 to 17.
pub(crate) fn walk_chain(file: &[u8], first: usize) -> Result<Chain, Refusal> {
    let mut blocks = Vec::new();
    let mut mark = first;
    loop {
        if blocks.len() == MOST_BLOCKS {
            return Err(Refusal::at(TOO_MANY_BLOCKS, mark));
        }
        let block = read_block(file, mark, blocks.len() as u8)?;
        blocks.push(block);
        match what_follows(file, &block)? {
            Follower::Block(next) => mark = next,
            Follower::Tail(tail) => return Ok(Chain { blocks, tail }),
        }
    }
}

/// Looks for the next block, or judges the tail if there is none. Nothing follows a streamed block.
/// Refusal: 17.
fn what_follows(file: &[u8], block: &Block) -> Result<Follower, Refusal> {
    if block.is_streamed() {
        return Ok(Follower::Tail(Tail::NoIndex));
    }
    let end = block.end().position();
    // An index is tried before the search for a mark. Hence a mark after the beginning of an index
    // is never a block.
    if file[end..].starts_with(INDEX_LINE) {
        return Ok(Follower::Tail(Tail::Index(end)));
    }
    match find_mark(file, end) {
        Some(mark) => Ok(Follower::Block(mark)),
        None if only_zeros(&file[end..]) => Ok(Follower::Tail(Tail::NoIndex)),
        None => Err(Refusal::at(STRAY_TAIL, end)),
    }
}

/// Reads the block whose mark begins at `start`. Refusals, in this order: 11, 12, 11, 13, 14, 15.
fn read_block(file: &[u8], start: usize, ordinal: u8) -> Result<Block, Refusal> {
    let refused = |number| Refusal::at(number, start);
    let bytes = &file[start..];
    let header_size = header_size(bytes).ok_or(refused(HEADER_PASSES_END))?;
    if header_size < LEAST_HEADER_SIZE {
        return Err(refused(HEADER_TOO_SMALL));
    }
    let header_bytes = HEADER_SIZE_COUNTS_FROM + usize::from(header_size);
    let after_header = bytes
        .get(header_bytes..)
        .ok_or(refused(HEADER_PASSES_END))?;
    // H is at least 48, so these bytes hold every named field.
    let fields = bytes.first_chunk().ok_or(refused(HEADER_PASSES_END))?;

    let flags = u32::from_be_bytes(field(fields, 6));
    let compression = field(fields, 10);
    let sizes = if is_streamed(flags) {
        Sizes::of_streamed(after_header.len())
    } else {
        let stored = StoredSizes {
            allocated: u64::from_be_bytes(field(fields, 14)),
            used: u64::from_be_bytes(field(fields, 22)),
            data: u64::from_be_bytes(field(fields, 30)),
        };
        stored
            .judge(compression, after_header.len())
            .map_err(refused)?
    };
    Ok(Block {
        ordinal,
        offset: InFile::at(start),
        header_size,
        flags,
        compression,
        allocated: sizes.allocated,
        used: sizes.used,
        data_size: sizes.data,
        checksum: field(fields, 38),
    })
}

/// Returns H if the mark and the field of H are inside the file.
fn header_size(block: &[u8]) -> Option<u16> {
    let field = block.get(MARK.len()..)?.first_chunk()?;
    Some(u16::from_be_bytes(*field))
}

/// Returns the field of a block header that begins at offset `at`.
fn field<const N: usize>(header: &[u8; LEAST_HEADER_BYTES], at: usize) -> [u8; N] {
    std::array::from_fn(|i| header[at + i])
}

fn is_streamed(flags: u32) -> bool {
    flags & STREAMED_FLAG != 0
}

/// The three sizes as they are reported. Only the data size may need more than 32 bits.
struct Sizes {
    allocated: u32,
    used: u32,
    data: u64,
}

impl Sizes {
    /// Returns the sizes of a streamed block. Its size fields are ignored, and all three sizes are
    /// the length of its content.
    fn of_streamed(content_length: usize) -> Sizes {
        Sizes {
            allocated: content_length as u32,
            used: content_length as u32,
            data: content_length as u64,
        }
    }
}

/// The three sizes as they are stored, each with all its 64 bits.
struct StoredSizes {
    allocated: u64,
    used: u64,
    data: u64,
}

impl StoredSizes {
    /// Returns the sizes to report, or the number that refuses them: 13, 14 or 15. A size is
    /// compared with the number of bytes that are left. It is never added to an offset before that.
    fn judge(&self, compression: [u8; 4], left: usize) -> Result<Sizes, u8> {
        if self.used > self.allocated {
            Err(USED_ABOVE_ALLOCATED)
        } else if compression == NO_COMPRESSION && self.data != self.used {
            Err(DATA_SIZE_DIFFERS)
        } else if self.allocated > left as u64 {
            Err(ALLOCATED_PASSES_END)
        } else {
            Ok(Sizes {
                allocated: self.allocated as u32,
                used: self.used as u32,
                data: self.data,
            })
        }
    }
}
