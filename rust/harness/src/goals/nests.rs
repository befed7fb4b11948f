//! The goals for files inside blocks.

use super::goal::Goal;
use crate::answers::file::{content_start, Answers};
use crate::format::limits::DEEPEST;
use crate::format::text::FILE_BEGIN;
use asdf_second::{records, Inner, InnerKind, Record};

/// The inner states with their names.
const INNER_STATES: [(InnerKind, &str); 4] = [
    (InnerKind::Plain, "plain"),
    (InnerKind::Opened, "opened"),
    (InnerKind::Refused, "refused"),
    (InnerKind::TooDeep, "too deep"),
];

/// Returns all goals for files inside blocks.
pub fn goals() -> Vec<Goal> {
    [
        inner_states(),
        inner_refusals("inner file", 0),
        inner_refusals("inner file in an inner file", 1),
        branches(),
        kinds_of_inner_blocks(),
        contents(),
        unread_files(),
    ]
    .into_iter()
    .flatten()
    .collect()
}

/// Returns a goal for each inner state at each depth at which it is possible.
fn inner_states() -> Vec<Goal> {
    let depths = 0..=DEEPEST;
    let pairs = depths.flat_map(|depth| INNER_STATES.map(|state| (depth, state)));
    pairs
        .filter(|(depth, (kind, _))| is_possible(*depth, *kind))
        .map(|(depth, (kind, name))| {
            Goal::of_record(
                format!("depth {depth}, inner state {name}"),
                move |record| record.depth == depth && InnerKind::from(record.inner) == kind,
            )
        })
        .collect()
}

/// Whether a block at this depth can have this inner state.
fn is_possible(depth: u8, kind: InnerKind) -> bool {
    match kind {
        InnerKind::Plain => true,
        InnerKind::Opened | InnerKind::Refused => depth < DEEPEST,
        InnerKind::TooDeep => depth == DEEPEST,
    }
}

/// Returns a goal for each number with which an inner file is refused. Only inner files in blocks
/// of at least this depth count. The numbers 1 and 2 never occur: no file can contain one that is
/// too long to be a file, and a content that does not begin like a file is plain.
fn inner_refusals(what: &'static str, least_depth: u8) -> Vec<Goal> {
    (3..=17)
        .map(|number| {
            Goal::at(format!("{what} refused {number}"), move |_, answers| {
                inner_places(answers, least_depth, number)
            })
        })
        .collect()
}

/// Returns where inner files are refused with this number. Each place is counted from the first
/// byte of its own inner file.
fn inner_places(answers: &Answers, least_depth: u8, number: u8) -> Vec<usize> {
    let records = answers.records().iter();
    records
        .filter(|record| record.depth >= least_depth)
        .filter_map(|record| refused_inside(record, number))
        .collect()
}

/// Returns where the file in a block is refused with this number. The place is counted from the
/// first byte of that inner file.
pub fn refused_inside(record: &Record, number: u8) -> Option<usize> {
    match record.inner {
        Inner::Refused(refusal) if refusal.number == number => Some(refusal.place as usize),
        _ => None,
    }
}

/// Returns goals for the ways in which the walk continues after an inner file.
fn branches() -> Vec<Goal> {
    let mut goals: Vec<Goal> = (1..=DEEPEST)
        .map(|up| {
            Goal::of_pair(
                format!("next row less deep by {up}"),
                move |record, next| record.depth == next.depth + up,
            )
        })
        .collect();
    goals.extend([
        Goal::of_pair("row of an opened file's first block", |record, next| {
            record.depth + 1 == next.depth
        }),
        Goal::of_pair("opened file without a block", |record, next| {
            record.inner == Inner::Opened && next.depth <= record.depth
        }),
        Goal::of_file("two files opened in the outermost file", |_, answers| {
            opened_at(answers, 0) > 1
        }),
        Goal::of_file("several files opened in blocks at depth 6", |_, answers| {
            opened_at(answers, 6) > 1
        }),
        Goal::of_file("refused inner file before an opened one", |_, answers| {
            let records = answers.records();
            let refused = records
                .iter()
                .position(|record| matches!(record.inner, Inner::Refused(_)));
            refused.is_some_and(|place| records[place..].iter().any(is_opened))
        }),
        Goal::of_file("more than 64 rows", |_, answers| {
            answers.records().len() > 64
        }),
        Goal::of_file("more than 255 rows", |_, answers| {
            answers.records().len() > 255
        }),
    ]);
    goals
}

/// Counts the blocks at this depth that hold an opened file.
fn opened_at(answers: &Answers, depth: u8) -> usize {
    let records = answers.records().iter();
    records
        .filter(|record| record.depth == depth && is_opened(record))
        .count()
}

/// Whether a block holds an opened file.
pub fn is_opened(record: &Record) -> bool {
    record.inner == Inner::Opened
}

impl Goal {
    /// Makes a goal that a record reaches together with the next record.
    fn of_pair(
        name: impl Into<String>,
        reached: impl Fn(&Record, &Record) -> bool + 'static,
    ) -> Goal {
        Goal::at(name, move |_, answers| {
            let pairs = answers.records().windows(2);
            let reached = pairs.filter(|pair| reached(&pair[0], &pair[1]));
            reached.map(|pair| pair[0].offset.0 as usize).collect()
        })
    }

    /// Makes a goal that records of inner files reach.
    fn of_inner(name: &str, reached: impl Fn(&Record) -> bool + 'static) -> Goal {
        Goal::of_record(name, move |record| record.depth > 0 && reached(record))
    }
}

/// Returns goals for the kinds of blocks in inner files.
fn kinds_of_inner_blocks() -> Vec<Goal> {
    vec![
        Goal::of_inner("inner block, streamed", |record| record.block.is_streamed()),
        Goal::of_inner("inner block, streamed and opened", |record| {
            record.block.is_streamed() && is_opened(record)
        }),
        Goal::of_inner("inner block, compressed", |record| {
            record.block.is_compressed()
        }),
        Goal::of_inner("inner block with a checksum", |record| {
            record.block.has_checksum()
        }),
        Goal::of_inner("inner block with unused space", |record| {
            record.block.used < record.block.allocated
        }),
        Goal::of_inner("inner block with a longer header", |record| {
            record.block.header_size > 48
        }),
        Goal::of_inner("inner block with ordinal 63", |record| {
            record.block.ordinal == 63
        }),
        Goal::of_record("streamed block at the highest depth", |record| {
            record.block.is_streamed() && record.depth == DEEPEST
        }),
    ]
}

/// Returns goals for contents that begin like a file, or would do so if more or less of the block
/// were read.
fn contents() -> Vec<Goal> {
    vec![
        Goal::of_record("content of exactly six bytes, refused 3", |record| {
            is_refused_at_once(record) && record.block.used as usize == FILE_BEGIN.len()
        }),
        Goal::of_inner("inner content of exactly six bytes, refused 3", |record| {
            is_refused_at_once(record) && record.block.used as usize == FILE_BEGIN.len()
        }),
        Goal::of_record_in(
            "first five bytes of a file used, sixth unused",
            |file, record| {
                record.block.used == 5 && content_with_unused(file, record).starts_with(FILE_BEGIN)
            },
        ),
        Goal::of_record_in("file in unused space", |file, record| {
            unused(file, record).starts_with(FILE_BEGIN)
        }),
        Goal::of_record_in("inner file with unused space after it", |_, record| {
            is_opened(record) && record.block.used < record.block.allocated
        }),
        Goal::of_record_in("compressed file in an inner file", |file, record| {
            record.depth > 0
                && record.block.is_compressed()
                && content_with_unused(file, record).starts_with(FILE_BEGIN)
        }),
    ]
}

/// Returns goals for what is inside files that are too deep to be read.
fn unread_files() -> Vec<Goal> {
    vec![
        too_deep("file that is too deep and would be refused", |content| {
            records(content).is_err()
        }),
        too_deep("file at depth 9", |content| holds_file_at(content, 1)),
        too_deep("file at depth 10", |content| holds_file_at(content, 2)),
        too_deep("file at depth 11", |content| holds_file_at(content, 3)),
    ]
}

/// Makes a goal that a block reaches if its content is a file that is too deep and `reached` holds
/// for it.
fn too_deep(name: &str, reached: fn(&[u8]) -> bool) -> Goal {
    Goal::of_record_in(name, move |file, record| {
        record.inner == Inner::TooDeep && reached(content(file, record))
    })
}

/// Whether a file holds another file, `levels` levels further in.
fn holds_file_at(file: &[u8], levels: u8) -> bool {
    let records = records(file).unwrap_or_default();
    records
        .iter()
        .any(|record| is_opened(record) && record.depth + 1 == levels)
}

/// Whether an inner file is refused for its version line.
fn is_refused_at_once(record: &Record) -> bool {
    refused_inside(record, 3).is_some()
}

/// Returns the content of a block, as a part of the outermost file.
pub fn content<'a>(file: &'a [u8], record: &Record) -> &'a [u8] {
    &content_with_unused(file, record)[..record.block.used as usize]
}

/// Returns the unused space after the content of a block.
pub fn unused<'a>(file: &'a [u8], record: &Record) -> &'a [u8] {
    &content_with_unused(file, record)[record.block.used as usize..]
}

/// Returns the content of a block with the unused space after it, as a part of the outermost file.
fn content_with_unused<'a>(file: &'a [u8], record: &Record) -> &'a [u8] {
    let header_bytes = content_start(&record.block) - record.block.offset.0 as usize;
    let start = record.offset.0 as usize + header_bytes;
    &file[start..][..record.block.allocated as usize]
}
