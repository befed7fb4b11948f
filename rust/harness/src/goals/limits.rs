//! The goals for both sides of each limit.

use super::goal::Goal;
use crate::answers::file::content_start;
use crate::format::block::{
    Field, ALLOCATED, DATA_SIZE, FIELD_BYTES, HEADER_SIZE, HEADER_SIZE_COUNTS_FROM, USED,
};
use crate::format::text::{FILE_BEGIN, INDEX_LINE, MARK, YAML_LINE};
use asdf_second::{Block, Inner, Verdict};

/// Returns all goals for limits.
pub fn goals() -> Vec<Goal> {
    [
        block_counts(),
        text_limits(),
        header_size_limits(),
        size_limits(),
        streamed_blocks(),
        content_limits(),
        length_limits(),
    ]
    .into_iter()
    .flatten()
    .collect()
}

/// Returns goals for files with few blocks, with as many as a file may have, and with one more.
fn block_counts() -> Vec<Goal> {
    let mut goals: Vec<Goal> = [0, 1, 2, 62, 63, 64]
        .map(|count| {
            Goal::of_file(format!("{count} blocks"), move |_, answers| {
                answers.blocks().len() == count
            })
        })
        .into();
    goals.extend([
        Goal::of_file("64 blocks with a good index", |_, answers| {
            answers.blocks().len() == 64 && answers.verdict() == Some(Verdict::Good)
        }),
        Goal::of_file("64 blocks, the last streamed", |_, answers| {
            answers.blocks().get(63).is_some_and(Block::is_streamed)
        }),
        Goal::of_refusal("65 blocks (16)", 16, |file, place| {
            file.len() - place >= FIELD_BYTES
        }),
        Goal::of_refusal(
            "65th mark at the end of the file (16)",
            16,
            |file, place| file.len() - place == MARK.len(),
        ),
    ]);
    goals
}

/// Returns goals for texts that the end of the file cuts short.
fn text_limits() -> Vec<Goal> {
    vec![
        Goal::of_refusal("unterminated version line (3)", 3, |file, _| {
            !file.contains(&b'\n')
        }),
        Goal::of_refusal(
            "unterminated index line among comments (5)",
            5,
            |file, place| &file[place..] == INDEX_LINE,
        ),
        Goal::of_refusal("unterminated first line of a tree (7)", 7, |file, place| {
            &file[place..] == YAML_LINE
        }),
        Goal::of_refusal("three bytes of a mark (7)", 7, |file, place| {
            file[place..] == MARK[..3]
        }),
        Goal::of_refusal("unterminated line in a tree (10)", 10, |file, place| {
            place < file.len()
        }),
        Goal::of_refusal("missing line in a tree (10)", 10, |file, place| {
            place == file.len()
        }),
        Goal::of_refusal("16 of an index line's 17 bytes (17)", 17, |file, place| {
            file[place..] == INDEX_LINE[..16]
        }),
    ]
}

/// Returns goals for both sides of the limits on the header size.
fn header_size_limits() -> Vec<Goal> {
    vec![
        Goal::of_block("header size 48", |_, block| block.header_size == 48),
        Goal::of_block("header size 49", |_, block| block.header_size == 49),
        Goal::of_block("header size 65535", |_, block| {
            block.header_size == u16::MAX
        }),
        Goal::of_refusal("header size 47 (12)", 12, |file, block| {
            HEADER_SIZE.number(file, block) == Some(47)
        }),
        Goal::of_refusal("header size 0 (12)", 12, |file, block| {
            HEADER_SIZE.number(file, block) == Some(0)
        }),
        Goal::of_block("header up to the end of the file", |file, block| {
            content_start(block) == file.len()
        }),
        Goal::of_refusal(
            "header one byte past the end of the file (11)",
            11,
            |file, block| stored_content_start(file, block) == Some(file.len() as u128 + 1),
        ),
        Goal::of_refusal("four bytes of a header (11)", 11, |file, block| {
            file.len() - block == 4
        }),
        Goal::of_refusal("five bytes of a header (11)", 11, |file, block| {
            file.len() - block == 5
        }),
        Goal::of_refusal("six bytes of a header (11)", 11, |file, block| {
            file.len() - block == 6
        }),
        Goal::of_refusal(
            "six bytes of a header, header size below 48 (12)",
            12,
            |file, block| file.len() - block == 6,
        ),
    ]
}

/// Returns where the content of a block begins according to its stored header size.
fn stored_content_start(file: &[u8], block: usize) -> Option<u128> {
    let header_size = HEADER_SIZE.number(file, block)?;
    Some((block + HEADER_SIZE_COUNTS_FROM) as u128 + header_size)
}

/// Returns where the allocated space of a block ends according to its stored sizes.
fn stored_end(file: &[u8], block: usize) -> Option<u128> {
    Some(stored_content_start(file, block)? + ALLOCATED.number(file, block)?)
}

/// Returns goals for both sides of the limits on the allocated size, the used size and the data
/// size.
fn size_limits() -> Vec<Goal> {
    vec![
        Goal::of_block("used equals allocated", |_, block| {
            block.used > 0 && block.used == block.allocated
        }),
        Goal::of_block("used below allocated", |_, block| {
            block.used < block.allocated
        }),
        Goal::of_refusal("used one above allocated (13)", 13, |file, block| {
            is_one_above(file, block, USED, ALLOCATED)
        }),
        Goal::of_refusal("data size one above used (14)", 14, |file, block| {
            is_one_above(file, block, DATA_SIZE, USED)
        }),
        Goal::of_refusal("data size one below used (14)", 14, |file, block| {
            is_one_above(file, block, USED, DATA_SIZE)
        }),
        Goal::of_block("data size with all bytes FF", |_, block| {
            block.data_size == u64::MAX
        }),
        Goal::of_file(
            "allocated space up to the end of the file",
            |file, answers| answers.chain_end() == Some(file.len()),
        ),
        Goal::of_refusal(
            "allocated space one byte past the end (15)",
            15,
            |file, block| stored_end(file, block) == Some(file.len() as u128 + 1),
        ),
        Goal::of_refusal(
            "allocated size with all bytes FF (15)",
            15,
            |file, block| ALLOCATED.number(file, block) == Some(u128::from(u64::MAX)),
        ),
        Goal::of_refusal("end that wraps in 64 bits (15)", 15, |file, block| {
            wraps(file, block, 64)
        }),
        Goal::of_refusal("end that wraps in 32 bits (15)", 15, |file, block| {
            wraps(file, block, 32)
        }),
    ]
}

/// Whether one stored size is one larger than another.
fn is_one_above(file: &[u8], block: usize, above: Field, below: Field) -> bool {
    above.number(file, block) == below.number(file, block).map(|size| size + 1)
}

/// Whether the end of the allocated space overflows this many bits, and the low bits that are left
/// give an offset inside the file.
fn wraps(file: &[u8], block: usize, bits: u32) -> bool {
    stored_end(file, block).is_some_and(|end| {
        let range_end = 1 << bits;
        end >= range_end && end % range_end <= file.len() as u128
    })
}

/// Returns goals for the kinds of streamed blocks.
fn streamed_blocks() -> Vec<Goal> {
    vec![
        Goal::of_record("streamed block", |record| record.block.is_streamed()),
        Goal::of_record("streamed block without content", |record| {
            record.block.is_streamed() && record.block.used == 0
        }),
        Goal::of_record("streamed block with a compression", |record| {
            record.block.is_streamed() && record.block.is_compressed()
        }),
        Goal::of_record("streamed block that is opened", |record| {
            record.block.is_streamed() && record.inner == Inner::Opened
        }),
        Goal::of_record("streamed block in an inner file", |record| {
            record.block.is_streamed() && record.depth > 0
        }),
        Goal::of_block(
            "streamed block, allocated size past the end",
            |file, block| {
                let end = stored_end(file, block.offset.0 as usize);
                block.is_streamed() && end.is_some_and(|end| end > file.len() as u128)
            },
        ),
    ]
}

/// Returns goals for contents that begin like a file, or almost do.
fn content_limits() -> Vec<Goal> {
    vec![
        Goal::of_block("content of a file's first five bytes", |file, block| {
            begins_like_file(file, block, 5)
        }),
        Goal::of_block("content of a file's first six bytes", |file, block| {
            begins_like_file(file, block, 6)
        }),
        Goal::of_block(
            "compressed content that begins like a file",
            |file, block| {
                block.is_compressed() && file[content_start(block)..].starts_with(FILE_BEGIN)
            },
        ),
    ]
}

/// Whether the content of a block is the first `length` bytes of a file and no more.
fn begins_like_file(file: &[u8], block: &Block, length: usize) -> bool {
    block.used as usize == length && file[content_start(block)..].starts_with(&FILE_BEGIN[..length])
}

/// Returns goals for lengths around the longest input of the program `list`, and the largest length
/// of a file.
fn length_limits() -> Vec<Goal> {
    [65_535, 65_536, 65_537, 4_294_967_295]
        .map(|length| {
            Goal::of_file(format!("file of {length} bytes"), move |file, _| {
                file.len() == length
            })
        })
        .into()
}
