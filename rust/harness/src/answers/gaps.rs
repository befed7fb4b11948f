//! The bytes between two blocks, according to the second program.

use super::file::{block_end, Answers};
use crate::format::limits::DEEPEST;
use crate::format::text::MARK;
use asdf_second::{read, Record};
use std::ops::Range;

/// The bytes between two blocks of one file. There is at least one byte.
pub struct Gap<'a> {
    pub before: &'a Record,
    pub after: &'a Record,
    /// The outermost file, and where the gap is in it.
    file: &'a [u8],
    stretch: Range<usize>,
}

impl<'a> Gap<'a> {
    /// The gap between two blocks of one file, if there is one.
    fn between(file: &'a [u8], before: &'a Record, after: &'a Record) -> Option<Gap<'a>> {
        let own_file = (after.offset.0 - after.block.offset.0) as usize;
        let stretch = own_file + block_end(&before.block)..after.offset.0 as usize;
        (!stretch.is_empty()).then_some(Gap {
            before,
            after,
            file,
            stretch,
        })
    }

    pub fn bytes(&self) -> &'a [u8] {
        &self.file[self.stretch.clone()]
    }

    /// Where the mark after the gap begins.
    pub fn mark(&self) -> usize {
        self.stretch.end
    }

    /// Whether the four bytes of a mark begin in the block before the gap and end in the gap.
    pub fn ends_a_mark(&self) -> bool {
        let mut begins = (1..MARK.len()).map(|length| self.stretch.start - length);
        begins.any(|begin| self.file[begin..].starts_with(MARK))
    }
}

/// The gaps of an accepted file and of the files inside it.
pub fn gaps<'a>(file: &'a [u8], answers: &'a Answers) -> Vec<Gap<'a>> {
    let mut gaps = Vec::new();
    let mut latest = [None; DEEPEST as usize + 1];
    for after in answers.records() {
        // Between the records of two blocks of one file there are only records of greater depth. So
        // the latest record of this depth is that of the block before.
        let before = latest[usize::from(after.depth)].replace(after);
        if after.block.ordinal > 0 {
            gaps.extend(before.and_then(|before| Gap::between(file, before, after)));
        }
    }
    gaps
}

/// The bytes between a mark and the block before it, in a file that is refused at this mark (11 to
/// 16). The second program reads the file cut off at the mark. This shows where the last block
/// ends, either in the layout or as the place of a refused tail (17).
pub fn gap_before(file: &[u8], mark: usize) -> &[u8] {
    let front = &file[..mark];
    let end = match read(front) {
        Ok(layout) => layout.blocks.last().map_or(mark, block_end),
        Err(refusal) => refusal.place as usize,
    };
    &front[end..]
}

#[cfg(test)]
mod tests {
    use super::*;
    use crate::files::nests::{file_of, file_with_gaps};

    /// The bytes of each gap of a file, with the depth of its blocks.
    fn gaps_of(file: &[u8]) -> Vec<(u8, Vec<u8>)> {
        gaps(file, &Answers::to(file))
            .iter()
            .map(|gap| (gap.after.depth, gap.bytes().to_vec()))
            .collect()
    }

    #[test]
    fn gaps_of_a_file_and_of_one_inside_are_found() {
        let inner = file_with_gaps([&b""[..]; 2], b"in");
        let file = file_with_gaps([&b"a"[..], &inner, b"c"], b"out");
        let out = || (0, b"out".to_vec());
        assert_eq!(gaps_of(&file), [out(), (1, b"in".to_vec()), out()]);
        assert_eq!(gaps_of(&file_of([&b""[..]; 3])), []);
    }

    #[test]
    fn gap_before_a_refused_block_is_found() {
        for gap in [&b""[..], b"\0\0", b"x", b"\xD3BL"] {
            let file = file_of([&b"a"[..], b"b"]);
            let refused = [&file, gap, MARK].concat();
            assert_eq!(gap_before(&refused, file.len() + gap.len()), gap);
        }
    }

    #[test]
    fn free_space_is_no_gap() {
        let refused = b"#ASDF 1.0.0\n%YAML 1.1\n---\n...\n   \xD3BLK";
        assert_eq!(gap_before(refused, 33), b"");
    }
}
