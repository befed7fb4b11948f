//! What the second program reports about a file.

use crate::format::block::HEADER_SIZE_COUNTS_FROM;
use asdf_second::{
    outline, read, records, write_index, Block, Layout, Record, Refusal, Tree, Verdict,
    LONGEST_INDEX, ROW_LENGTH,
};

/// What the second program reports about a file.
pub struct Answers {
    pub layout: Result<Layout, Refusal>,
    pub records: Result<Vec<Record>, Refusal>,
    /// The bytes of the outline.
    pub outline: Result<Vec<u8>, Refusal>,
    /// The text of the index.
    pub index: Result<Vec<u8>, Refusal>,
}

impl Answers {
    /// Asks the second program.
    pub fn to(file: &[u8]) -> Answers {
        let records = records(file);
        let outline_length = records.as_ref().map_or(0, Vec::len) * ROW_LENGTH;
        Answers {
            layout: read(file),
            records,
            outline: written(outline_length, |out| outline(file, out)),
            index: written(LONGEST_INDEX, |out| write_index(file, out)),
        }
    }

    /// How many records there are.
    pub fn count(&self) -> Result<usize, Refusal> {
        let count = self.records.as_ref().map(Vec::len);
        count.map_err(|&refusal| refusal)
    }

    /// The place at which the file is refused, if it is refused with this number.
    pub fn refused_with(&self, number: u8) -> Option<usize> {
        let refusal = self.layout.as_ref().err()?;
        (refusal.number == number).then_some(refusal.place as usize)
    }

    /// The blocks of the file itself, without those of inner files. A refused file has none.
    pub fn blocks(&self) -> &[Block] {
        self.layout.as_ref().map_or(&[], |layout| &layout.blocks)
    }

    /// The records of all blocks. A refused file has none.
    pub fn records(&self) -> &[Record] {
        self.records.as_ref().map_or(&[], |records| records)
    }

    /// The tree of the file, if the file is accepted and has one.
    pub fn tree(&self) -> Option<Tree> {
        self.layout.as_ref().ok()?.tree
    }

    /// The verdict on the index, if the file is accepted.
    pub fn verdict(&self) -> Option<Verdict> {
        Some(self.layout.as_ref().ok()?.index)
    }

    /// Where the last block ends, if there is one and it is not streamed.
    pub fn chain_end(&self) -> Option<usize> {
        let last = self.blocks().last()?;
        (!last.is_streamed()).then(|| block_end(last))
    }
}

/// Where the content of a block begins in the block's own file.
pub fn content_start(block: &Block) -> usize {
    block.offset.0 as usize + HEADER_SIZE_COUNTS_FROM + usize::from(block.header_size)
}

/// Where the allocated space of a block ends in the block's own file.
pub fn block_end(block: &Block) -> usize {
    content_start(block) + block.allocated as usize
}

/// What a writer of the second program writes into a buffer of `most` bytes.
pub fn written(
    most: usize,
    write: impl FnOnce(&mut [u8]) -> Result<usize, Refusal>,
) -> Result<Vec<u8>, Refusal> {
    let mut out = vec![0; most];
    let length = write(&mut out)?;
    out.truncate(length);
    Ok(out)
}
