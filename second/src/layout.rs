//! Reads the layout of one file, front to back.

use crate::block::{find_mark, mark_at, walk_chain, Block, Chain, Tail};
use crate::header::{comments_end, read_header, Version};
use crate::index::{judge_index, Verdict};
use crate::line::LineEnd;
use crate::offset::InFile;
use crate::refusal::*;
use crate::tree::tree_end;

/// The length of the longest file.
const LONGEST_FILE: u64 = 4_294_967_295;

/// A range of a file's bytes. It is empty if both ends are the same.
#[derive(Debug, Clone, Copy, PartialEq, Eq)]
pub struct Stretch {
    pub start: InFile,
    pub end: InFile,
}

/// The extent of a tree, and where the room for editing it ends.
#[derive(Debug, Clone, Copy, PartialEq, Eq)]
pub struct Tree {
    pub start: InFile,
    pub end: InFile,
    /// The offset of the first block, or the end of the file.
    pub room_end: InFile,
}

/// Everything that is reported about one file. Its blocks are not opened.
#[derive(Debug, Clone, PartialEq, Eq)]
pub struct Layout {
    pub version: Version,
    /// The header's line end. The other lines of the file may end differently.
    pub line_end: LineEnd,
    pub header_end: InFile,
    pub comments: Stretch,
    pub tree: Option<Tree>,
    pub blocks: Vec<Block>,
    pub index: Verdict,
}

/// A file whose layout was accepted. Its index has not been judged yet.
pub(crate) struct Judged {
    pub version: Version,
    pub line_end: LineEnd,
    pub comments: Stretch,
    pub tree: Option<Tree>,
    pub chain: Chain,
}

impl Judged {
    /// Returns the verdict on the index of this file.
    pub(crate) fn index_verdict(&self, file: &[u8]) -> Verdict {
        match self.chain.tail {
            Tail::NoIndex => Verdict::Absent,
            Tail::Index(start) => judge_index(&file[start..], &self.chain.blocks),
        }
    }
}

/// Reads a file's own layout. Refusals: 1 to 17.
pub fn read(file: &[u8]) -> Result<Layout, Refusal> {
    let judged = judge(file)?;
    Ok(Layout {
        version: judged.version,
        line_end: judged.line_end,
        header_end: judged.comments.start,
        comments: judged.comments,
        tree: judged.tree,
        index: judged.index_verdict(file),
        blocks: judged.chain.blocks,
    })
}

/// Judges a file's own layout, once and front to back. Refusals: 1 to 17.
pub(crate) fn judge(file: &[u8]) -> Result<Judged, Refusal> {
    refuse_too_long(file.len() as u64)?;
    let header = read_header(file)?;
    let comments_end = comments_end(file, header.end)?;
    let tree_end = tree_end(file, comments_end)?;
    let first_block = first_block(file, comments_end, tree_end)?;
    let chain = match first_block {
        Some(mark) => walk_chain(file, mark)?,
        None => Chain::empty(),
    };
    Ok(Judged {
        version: header.version,
        line_end: header.line_end,
        comments: Stretch {
            start: InFile::at(header.end),
            end: InFile::at(comments_end),
        },
        tree: tree_end.map(|end| Tree {
            start: InFile::at(comments_end),
            end: InFile::at(end),
            room_end: InFile::at(first_block.unwrap_or(file.len())),
        }),
        chain,
    })
}

/// Refuses a length above the limit. Refusal: 1.
fn refuse_too_long(length: u64) -> Result<(), Refusal> {
    if length > LONGEST_FILE {
        return Err(Refusal::of_whole(FILE_TOO_LONG));
    }
    Ok(())
}

/// Returns the mark of the first block, if there is one. After a tree, this is the first mark that
/// is found. Without a tree, it can only be at the comments' end. Refusal: 7.
fn first_block(
    file: &[u8],
    comments_end: usize,
    tree_end: Option<usize>,
) -> Result<Option<usize>, Refusal> {
    if let Some(tree_end) = tree_end {
        Ok(find_mark(file, tree_end))
    } else if mark_at(file, comments_end) {
        Ok(Some(comments_end))
    } else if comments_end == file.len() {
        Ok(None)
    } else {
        Err(Refusal::at(NEITHER_TREE_NOR_BLOCK, comments_end))
    }
}

#[cfg(test)]
mod tests {
    use super::*;

    #[test]
    fn length_at_the_limit_is_taken_and_one_above_is_refused_with_1() {
        assert_eq!(refuse_too_long(4_294_967_295), Ok(()));
        assert_eq!(
            refuse_too_long(4_294_967_296),
            Err(Refusal {
                number: 1,
                place: 0
            })
        );
        assert_eq!(
            refuse_too_long(u64::MAX),
            Err(Refusal {
                number: 1,
                place: 0
            })
        );
        assert_eq!(refuse_too_long(0), Ok(()));
    }
}
