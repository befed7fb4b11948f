//! Checks where content is said to be, in files that are made here: their bytes tell where it was put.

use asdf_layout::{Block, Inner, Records};

/// What a block is made of.
struct Parts<'a> {
    /// The space between the end of the previous block and this block.
    before: &'a [u8],
    header_size: u16,
    content: &'a [u8],
    /// How many bytes are allocated, but not used.
    spare: usize,
}

/// Makes a file with these blocks. Also returns where each block ends.
fn made(blocks: &[Parts]) -> (Vec<u8>, Vec<usize>) {
    let mut file = b"#ASDF 1.0.0\n".to_vec();
    let mut ends = Vec::new();
    for block in blocks {
        let used = block.content.len() as u64;
        let allocated = used + block.spare as u64;
        let sizes = [allocated, used, used].map(u64::to_be_bytes).concat();
        file.extend(block.before);
        file.extend(b"\xD3BLK");
        file.extend(block.header_size.to_be_bytes());
        // Flags and compression, the sizes, the checksum and the rest of the header.
        file.extend([0; 8]);
        file.extend(&sizes);
        file.resize(file.len() + usize::from(block.header_size) - 32, 0);
        file.extend(block.content);
        file.resize(file.len() + block.spare, b'-');
        ends.push(file.len());
    }
    (file, ends)
}

/// A block with the smallest header, whose content fills the allocated space.
fn plain(content: &[u8]) -> Parts<'_> {
    Parts {
        before: b"",
        header_size: 48,
        content,
        spare: 0,
    }
}

/// The contents of the blocks of `inner`.
const CONTENTS: [&[u8]; 3] = [b"first", b"", b"the third"];

/// Makes a file whose blocks have different header sizes, with free space between and inside them.
fn inner() -> (Vec<u8>, Vec<usize>) {
    let [first, second, third] = CONTENTS;
    made(&[
        plain(first),
        Parts {
            before: b"free",
            header_size: 300,
            content: second,
            spare: 7,
        },
        Parts {
            before: b"",
            header_size: 49,
            content: third,
            spare: 2,
        },
    ])
}

#[test]
fn block_says_where_its_content_was_put() {
    let (file, ends) = inner();
    let blocks: Vec<Block> = Records::read(&file).unwrap().blocks().collect();
    assert_eq!(blocks.len(), CONTENTS.len());
    for (ordinal, block) in blocks.into_iter().enumerate() {
        assert_eq!(Block::read(&file, ordinal as u64), Ok(Some(block)));
        assert_eq!(file[block.content()], *CONTENTS[ordinal]);
        assert_eq!(block.end(), ends[ordinal]);
    }
}

#[test]
fn content_of_an_inner_file_is_found_in_both_files() {
    let (inner, _) = inner();
    let blocks: Vec<Block> = Records::read(&inner).unwrap().blocks().collect();
    let middle = Parts {
        before: b"gap",
        header_size: 60,
        content: &inner,
        spare: 5,
    };
    let (outer, ends) = made(&[plain(b"other"), middle, plain(b"last")]);

    let records = Records::read(&outer).unwrap();
    let opened = records.iter().nth(1).unwrap();
    assert_eq!(opened.inner, Inner::Opened);
    assert_eq!(outer[opened.content()], inner);
    assert_eq!(opened.content(), opened.block.content());
    assert_eq!(opened.block.end(), ends[1]);

    // The inner file, read as a file of its own, has the same blocks.
    let inside: Vec<_> = records.iter().filter(|record| record.depth == 1).collect();
    assert_eq!(inside.len(), CONTENTS.len());
    for (record, (block, content)) in inside.iter().zip(blocks.iter().zip(CONTENTS)) {
        assert_eq!(record.block, *block);
        assert_eq!(outer[record.content()], *content);
        assert_eq!(inner[record.block.content()], *content);
        let start = opened.content().start;
        let own = block.content();
        assert_eq!(record.content(), start + own.start..start + own.end);
    }
}

#[test]
fn streamed_block_ends_with_its_file() {
    let (mut file, _) = made(&[plain(b"abc"), plain(b"")]);
    // The flag of a streamed block is in the last byte of the flags.
    let last = Block::read(&file, 1).unwrap().unwrap();
    file[last.at + 9] = 1;
    file.extend(b"whatever follows");
    let last = Block::read(&file, 1).unwrap().unwrap();
    assert!(last.is_streamed());
    assert_eq!(file[last.content()], *b"whatever follows");
    assert_eq!(last.end(), file.len());
}

#[test]
fn more_records_than_are_usual_are_counted_and_read() {
    // 32 blocks, each of them with a file of three blocks inside.
    let (inner, _) = inner();
    let blocks: Vec<Parts> = (0..32).map(|_| plain(&inner)).collect();
    let (outer, ends) = made(&blocks);
    let records = Records::read(&outer).unwrap();
    assert_eq!(records.len(), 32 * 4);
    assert_eq!(records.iter().len(), 32 * 4);
    assert_eq!(records.iter().next_back().unwrap().depth, 1);
    let found: Vec<usize> = records.blocks().map(|block| block.end()).collect();
    assert_eq!(found, ends);
}
