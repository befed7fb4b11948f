//! The blocks of one file, without those of the files inside.

use crate::answer::numbers;
use crate::Refusal;
use asdf_sys::BLOCK_NUMBERS;
use std::ops::Range;

/// The offset in a block from which its header size counts.
const HEADER_SIZE_COUNTS_FROM: usize = 6;
/// The flag of a streamed block, which reaches to the end of its file.
const STREAMED: u32 = 1;

/// What is reported about a block in its own file.
#[derive(Debug, Clone, Copy, PartialEq, Eq, Hash)]
pub struct Block {
    /// The number of the block in its file, counted from 0.
    pub ordinal: u8,
    /// The block's first byte, in its own file. Unallocated space may precede it, after the end of
    /// the previous block.
    pub at: usize,
    /// The header size, counted from offset 6 of the block.
    pub header_size: u16,
    /// The 32 flags.
    pub flags: u32,
    /// The four bytes of the compression's name, or zeros if there is none.
    pub compression: [u8; 4],
    /// The allocated size: how many bytes are kept for content. In a streamed block, each of the
    /// three sizes is the length of the content.
    pub allocated: usize,
    /// The used size: how many bytes the content has.
    pub used: usize,
    /// The data size: how many bytes the content has when it is not compressed, as the block
    /// states.
    pub data_size: u64,
    /// The checksum, or zeros if there is none.
    pub checksum: [u8; 16],
}

impl Block {
    /// Reads the block with this ordinal. Returns `None` if there is no such block.
    ///
    /// Every call reads the file again. To get all blocks, call
    /// [`Records::read`](crate::Records::read) once.
    pub fn read(file: &[u8], ordinal: u64) -> Result<Option<Block>, Refusal> {
        let numbers = numbers(|out| asdf_sys::block(file, ordinal, out))?;
        Ok(numbers.map(Block::from_numbers))
    }

    /// Makes a block from its numbers. Each of them is promised to fit its field.
    pub(crate) fn from_numbers(numbers: [u64; BLOCK_NUMBERS]) -> Block {
        let [ordinal, at, header_size, flags, compression, allocated, used, data_size, high, low] =
            numbers;
        Block {
            ordinal: ordinal as u8,
            at: at as usize,
            header_size: header_size as u16,
            flags: flags as u32,
            compression: (compression as u32).to_be_bytes(),
            allocated: allocated as usize,
            used: used as usize,
            data_size,
            checksum: (u128::from(high) << 64 | u128::from(low)).to_be_bytes(),
        }
    }

    /// Whether the content reaches to the end of the file.
    pub fn is_streamed(&self) -> bool {
        self.flags & STREAMED != 0
    }

    /// Whether the content is compressed.
    pub fn is_compressed(&self) -> bool {
        self.compression != [0; 4]
    }

    /// Whether there is a checksum.
    pub fn has_checksum(&self) -> bool {
        self.checksum != [0; 16]
    }

    /// Where the content is, in the block's own file.
    ///
    /// If that file is inside a block, [`Record::content`](crate::Record::content) says where the
    /// content is in the outermost file.
    ///
    /// ```
    /// use asdf_layout::Block;
    ///
    /// // A header line, and a block with five bytes of allocated space, of which three are used.
    /// let mut file = b"#ASDF 1.0.0\n\xD3BLK\0\x30\0\0\0\0\0\0\0\0".to_vec();
    /// file.extend([5u64, 3, 3].map(u64::to_be_bytes).concat());
    /// file.extend([0; 16]);
    /// file.extend(b"abc--");
    ///
    /// let block = Block::read(&file, 0)?.expect("this file has a block");
    /// assert_eq!(file[block.content()], *b"abc");
    /// assert_eq!(block.end(), file.len());
    /// # Ok::<(), asdf_layout::Refusal>(())
    /// ```
    pub fn content(&self) -> Range<usize> {
        self.content_from(self.at)
    }

    /// Where the allocated space ends, in the block's own file. The text of an index belongs at the
    /// end of the last block.
    ///
    /// The next block does not always begin here: there may be unallocated space before it.
    ///
    /// ```
    /// use asdf_layout::{index_text, Layout, Records, Verdict};
    ///
    /// // A header line, a block without content, and an index that lists another offset.
    /// let mut file = b"#ASDF 1.0.0\n\xD3BLK\0\x30".to_vec();
    /// file.extend([0; 48]);
    /// file.extend(b"#ASDF BLOCK INDEX\n%YAML 1.1\n--- [99]\n...\n");
    /// assert_eq!(Layout::read(&file)?.index, Verdict::IgnoredList);
    ///
    /// let text = index_text(&file)?;
    /// let last = Records::read(&file)?.blocks().last().expect("this file has a block");
    /// file.truncate(last.end());
    /// file.extend(text);
    /// assert_eq!(Layout::read(&file)?.index, Verdict::Good);
    /// # Ok::<(), asdf_layout::Refusal>(())
    /// ```
    pub fn end(&self) -> usize {
        self.content().start + self.allocated
    }

    /// Where the content is if the block's first byte is at `first`.
    pub(crate) fn content_from(&self, first: usize) -> Range<usize> {
        let start = first + HEADER_SIZE_COUNTS_FROM + usize::from(self.header_size);
        start..start + self.used
    }
}
