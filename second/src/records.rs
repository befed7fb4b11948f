//! Finds all blocks in walking order, including the blocks of opened inner files.

use crate::block::Block;
use crate::header::begins_like_file;
use crate::layout::{judge, Judged};
use crate::offset::Outermost;
use crate::refusal::Refusal;

/// The highest depth at which a file is read.
const DEEPEST: u8 = 7;

/// The inner state of a block: what its content is, seen as a file of its own.
#[derive(Debug, Clone, Copy, PartialEq, Eq)]
pub enum Inner {
    /// The block is compressed, or its content does not begin like a file.
    Plain,
    /// The content is a file that was accepted. Its blocks follow.
    Opened,
    /// The content is a file that was refused. The place counts from the first byte of that file.
    Refused(Refusal),
    /// The content begins like a file, but is too deep to be read.
    TooDeep,
}

/// Everything that is reported about a block, and where the block is among all files.
#[derive(Debug, Clone, Copy, PartialEq, Eq)]
pub struct Record {
    /// The depth of the block's file, which is 0 for the outermost file.
    pub depth: u8,
    /// The offset of the block's mark in the outermost file.
    pub offset: Outermost,
    /// The block as its own file reports it.
    pub block: Block,
    pub inner: Inner,
}

/// Returns the records of a file in walking order. Refusals: 1 to 17.
pub fn records(file: &[u8]) -> Result<Vec<Record>, Refusal> {
    let judged = judge(file)?;
    let mut records = Vec::new();
    each_record(file, &judged, &mut |record| records.push(record));
    Ok(records)
}

/// Passes each record of a judged outermost file to `take`, in walking order.
pub(crate) fn each_record(file: &[u8], judged: &Judged, take: &mut impl FnMut(Record)) {
    let outermost = Place {
        depth: 0,
        start: Outermost(0),
    };
    each_record_of(file, &judged.chain.blocks, outermost, take);
}

/// Where a file is among the files around it.
#[derive(Clone, Copy)]
struct Place {
    depth: u8,
    start: Outermost,
}

/// Passes the records of one file's blocks to `take`. Each record is followed by the records of the
/// block's inner file.
fn each_record_of(file: &[u8], blocks: &[Block], place: Place, take: &mut impl FnMut(Record)) {
    for block in blocks {
        let content = block.content(file);
        let (inner, inner_blocks) = look_inside(block, content, place.depth);
        let offset = block.offset.to_outermost(place.start);
        take(Record {
            depth: place.depth,
            offset,
            block: *block,
            inner,
        });

        let inner_start = block.content_start().to_outermost(place.start);
        let inner_place = Place {
            depth: place.depth + 1,
            start: inner_start,
        };
        each_record_of(content, &inner_blocks, inner_place, take);
    }
}

/// Returns a block's inner state, and the blocks of its inner file if that file was opened.
fn look_inside(block: &Block, content: &[u8], depth: u8) -> (Inner, Vec<Block>) {
    if block.is_compressed() || !begins_like_file(content) {
        return (Inner::Plain, Vec::new());
    }
    if depth == DEEPEST {
        return (Inner::TooDeep, Vec::new());
    }
    match judge(content) {
        Ok(judged) => (Inner::Opened, judged.chain.blocks),
        Err(refusal) => (Inner::Refused(refusal), Vec::new()),
    }
}
