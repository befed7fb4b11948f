//! The goals for gaps: bytes between two blocks that belong to neither.

use super::goal::Goal;
use super::index::{index, numbers_in};
use super::nests::{content, is_opened, refused_inside, unused};
use super::searches::BLOCK;
use crate::answers::file::{block_end, Answers};
use crate::answers::gaps::{gap_before, gaps, Gap};
use crate::format::block::{FIELD_BYTES, HEADER_SIZE, LEAST_HEADER_SIZE};
use crate::format::limits::{DEEPEST, MOST_BLOCKS};
use crate::format::refusals::{STRAY_TAIL, TOO_MANY_BLOCKS};
use crate::format::text::{places_of, INDEX_LINE, MARK};
use asdf_second::{read, Block, Record, Verdict};
use std::ops::RangeInclusive;

/// The numbers with which a file is refused for one of its blocks.
const OF_BLOCK: RangeInclusive<u8> = 11..=15;

/// Returns all goals for gaps.
pub fn goals() -> Vec<Goal> {
    [
        kinds("gap", |depth| depth == 0),
        kinds("inner gap", |depth| depth > 0),
        depths(),
        blocks_around(),
        no_marks(),
        refusals(),
        inner_refusals(),
        stray_tails(),
        indexes(),
    ]
    .into_iter()
    .flatten()
    .collect()
}

impl Goal {
    /// Makes a goal that the gaps of accepted files reach. The place is that of the mark after the
    /// gap.
    fn of_gap(name: impl Into<String>, reached: impl Fn(&Gap) -> bool + 'static) -> Goal {
        Goal::at(name, move |file, answers| {
            let gaps = gaps(file, answers);
            let reached = gaps.iter().filter(|gap| reached(gap));
            reached.map(Gap::mark).collect()
        })
    }
}

/// Returns a goal for each kind of gap between blocks at a depth that is `wanted`.
fn kinds(what: &str, wanted: fn(u8) -> bool) -> Vec<Goal> {
    let of_kind = |kind: &str, is_kind: fn(&[u8]) -> bool| {
        Goal::of_gap(format!("{what} {kind}"), move |gap| {
            wanted(gap.after.depth) && is_kind(gap.bytes())
        })
    };
    let mut goals = vec![
        of_kind("of zeros", |gap| gap.iter().all(|&byte| byte == 0)),
        of_kind("of spaces", |gap| gap.iter().all(|&byte| byte == b' ')),
        of_kind("of other bytes", |gap| {
            !gap.iter().any(|byte| b"\0 ".contains(byte))
        }),
        of_kind("of one byte", |gap| gap.len() == 1),
        of_kind("of 16 of an index line's 17 bytes", |gap| {
            gap == &INDEX_LINE[..16]
        }),
        of_kind("with an index line after one byte", |gap| {
            gap[1..].starts_with(INDEX_LINE)
        }),
        of_kind("of an old block's bytes", is_old_block),
        of_kind("of 64 bytes or more", |gap| gap.len() >= BLOCK),
        of_kind("before a mark across a 64-byte boundary", |gap| {
            gap.len() % BLOCK > BLOCK - MARK.len()
        }),
    ];
    goals.extend((1..MARK.len()).map(|length| {
        Goal::of_gap(
            format!("{what} that ends with {length} of a mark's 4 bytes"),
            move |gap| wanted(gap.after.depth) && gap.bytes().ends_with(&MARK[..length]),
        )
    }));
    goals
}

/// Whether these bytes begin like a block, except for one byte of its mark.
fn is_old_block(bytes: &[u8]) -> bool {
    let differing = bytes.iter().zip(MARK).filter(|(byte, mark)| byte != mark);
    let header_size = HEADER_SIZE.number(bytes, 0);
    bytes.len() >= FIELD_BYTES
        && differing.count() == 1
        && header_size >= Some(LEAST_HEADER_SIZE.into())
}

/// Returns goals for gaps at every depth.
fn depths() -> Vec<Goal> {
    (0..=DEEPEST)
        .map(|depth| {
            Goal::of_gap(format!("depth {depth}, block after a gap"), move |gap| {
                gap.after.depth == depth
            })
        })
        .collect()
}

/// Returns goals for the kinds of blocks before and after a gap.
fn blocks_around() -> Vec<Goal> {
    vec![
        Goal::of_gap("streamed block after a gap", |gap| {
            gap.after.block.is_streamed()
        }),
        Goal::of_gap("inner streamed block after a gap", |gap| {
            gap.after.block.is_streamed() && gap.after.depth > 0
        }),
        Goal::of_gap("opened file after a gap", |gap| is_opened(gap.after)),
        Goal::of_gap("opened file before a gap", |gap| is_opened(gap.before)),
        Goal::of_gap("inner file refused with 17 before a gap", |gap| {
            refused_inside(gap.before, STRAY_TAIL).is_some()
        }),
        Goal::of_gap("unused space before a gap", |gap| {
            gap.before.block.used < gap.before.block.allocated
        }),
        Goal::of_gap("64th block after a gap", |gap| {
            usize::from(gap.after.block.ordinal) + 1 == MOST_BLOCKS
        }),
        Goal::of_file("64 blocks with gaps", |_, answers| {
            answers.blocks().len() == MOST_BLOCKS && have_gaps(answers.blocks())
        }),
    ]
}

/// Returns goals for the four bytes of a mark at places where no block is searched for: wholly or
/// partly inside a block that is not the last.
fn no_marks() -> Vec<Goal> {
    vec![
        of_followed("mark at the start of a block's content", |file, record| {
            content(file, record).starts_with(MARK)
        }),
        of_followed(
            "mark at the start of a block's unused space",
            |file, record| unused(file, record).starts_with(MARK),
        ),
        Goal::of_gap("mark that begins in a block and ends in a gap", |gap| {
            gap.ends_a_mark()
        }),
    ]
}

/// Makes a goal that the blocks of an accepted file reach, except its last block.
fn of_followed(name: &str, reached: fn(&[u8], &Record) -> bool) -> Goal {
    Goal::at(name, move |file, answers| {
        let last = answers.blocks().last().map(|block| block.ordinal);
        let outermost = answers.records().iter().filter(|record| record.depth == 0);
        outermost
            .filter(|record| Some(record.block.ordinal) < last && reached(file, record))
            .map(|record| record.offset.0 as usize)
            .collect()
    })
}

/// Returns goals for files that are refused for a block after a gap, and for a 65th mark with or
/// without a gap before it.
fn refusals() -> Vec<Goal> {
    let mut goals: Vec<Goal> = OF_BLOCK
        .map(|number| {
            let name = format!("block after a gap refused {number}");
            Goal::of_refusal(name, number, is_after_gap)
        })
        .collect();
    goals.extend([
        Goal::of_refusal("65th mark after a gap (16)", TOO_MANY_BLOCKS, is_after_gap),
        Goal::of_refusal(
            "65th mark without a gap (16)",
            TOO_MANY_BLOCKS,
            |file, mark| !is_after_gap(file, mark),
        ),
    ]);
    goals
}

/// Whether there is a gap before the mark for which the file is refused.
fn is_after_gap(file: &[u8], mark: usize) -> bool {
    !gap_before(file, mark).is_empty()
}

/// Returns goals for inner files that are refused for a block or a 65th mark after a gap.
fn inner_refusals() -> Vec<Goal> {
    OF_BLOCK
        .chain([TOO_MANY_BLOCKS])
        .map(|number| {
            let name = format!("inner block after a gap refused {number}");
            Goal::of_record_in(name, move |file, record| {
                let place = refused_inside(record, number);
                place.is_some_and(|place| is_after_gap(content(file, record), place))
            })
        })
        .collect()
}

/// Returns goals for stray tails, which contain no mark (17).
fn stray_tails() -> Vec<Goal> {
    vec![
        Goal::of_refusal(
            "index one byte after the last block (17)",
            STRAY_TAIL,
            |file, end| file[end + 1..].starts_with(INDEX_LINE),
        ),
        Goal::of_refusal(
            "tail of zeros and another byte (17)",
            STRAY_TAIL,
            |file, end| file[end] == 0,
        ),
        Goal::of_refusal(
            "stray tail of 64 bytes or more (17)",
            STRAY_TAIL,
            |file, end| file.len() - end >= BLOCK,
        ),
        Goal::of_refusal(
            "stray tail after 64 blocks (17)",
            STRAY_TAIL,
            |file, end| blocks_up_to(file, end).len() == MOST_BLOCKS,
        ),
        Goal::of_refusal("stray tail after gaps (17)", STRAY_TAIL, |file, end| {
            have_gaps(&blocks_up_to(file, end))
        }),
    ]
}

/// Returns the blocks of the file that is cut at `end`, where its last block ends.
fn blocks_up_to(file: &[u8], end: usize) -> Vec<Block> {
    read(&file[..end]).map_or(Vec::new(), |layout| layout.blocks)
}

/// Whether there is a gap between two of these blocks.
fn have_gaps(blocks: &[Block]) -> bool {
    let mut pairs = blocks.windows(2);
    pairs.any(|pair| block_end(&pair[0]) < pair[1].offset.0 as usize)
}

/// Returns goals for indexes after gaps, and indexes with a mark after their first 17 bytes.
fn indexes() -> Vec<Goal> {
    vec![
        Goal::of_file("good index after gaps", |_, answers| {
            answers.verdict() == Some(Verdict::Good) && have_gaps(answers.blocks())
        }),
        Goal::of_file(
            "index lists ends, not marks (ignored-list)",
            |file, answers| {
                answers.verdict() == Some(Verdict::IgnoredList) && lists_ends(file, answers)
            },
        ),
        Goal::of_file(
            "mark at offset 17 of an index (ignored-form)",
            |file, answers| mark_in_index(file, answers) == Some(INDEX_LINE.len()),
        ),
        Goal::of_file(
            "mark after offset 17 of an index (ignored-form)",
            |file, answers| mark_in_index(file, answers) > Some(INDEX_LINE.len()),
        ),
        Goal::of_file("mark in an index after 64 blocks", |file, answers| {
            answers.blocks().len() == MOST_BLOCKS && mark_in_index(file, answers).is_some()
        }),
        Goal::of_file("mark in an index after gaps", |file, answers| {
            have_gaps(answers.blocks()) && mark_in_index(file, answers).is_some()
        }),
    ]
}

/// Returns where the first mark is in an index that is ignored for its form.
fn mark_in_index(file: &[u8], answers: &Answers) -> Option<usize> {
    let ignored = answers.verdict() == Some(Verdict::IgnoredForm);
    let index = index(file, answers).filter(|_| ignored)?;
    places_of(index, MARK).first().copied()
}

/// Whether an index lists the first mark and then, instead of each further mark, the end of the
/// block before it.
fn lists_ends(file: &[u8], answers: &Answers) -> bool {
    let blocks = answers.blocks();
    let first = blocks.iter().take(1).map(|block| block.offset.0 as usize);
    let ends = blocks.windows(2).map(|pair| block_end(&pair[0]));
    let numbers: Vec<u64> = first.chain(ends).map(|number| number as u64).collect();
    index(file, answers).is_some_and(|index| numbers_in(index) == numbers)
}
