//! The goals for line ends: the line end of the header, the line end of the index that is written,
//! and lines with the other line end.

use super::goal::Goal;
use crate::answers::file::Answers;
use crate::format::block::HEADER_SIZE_COUNTS_FROM;
use crate::format::limits::MOST_BLOCKS;
use asdf_second::{Inner, LineEnd, Record};

/// The length of the index of one block at an offset of two digits, with 0D 0A. The index is also
/// requested with a buffer that is one byte shorter.
const SHORT_INDEX: usize = 45;

/// Returns all goals for line ends.
pub fn goals() -> Vec<Goal> {
    let kinds = [(LineEnd::Lf, "0A"), (LineEnd::Crlf, "0D 0A")];
    let mut goals: Vec<Goal> = kinds
        .into_iter()
        .flat_map(|(kind, words)| header_goals(kind, words))
        .collect();
    goals.push(Goal::of_file("index of 45 bytes", |_, answers| {
        index_length(answers) == Some(SHORT_INDEX) && line_end(answers) == Some(LineEnd::Crlf)
    }));
    goals
}

/// Makes the goals for files whose header line has this line end. `words` is its name.
fn header_goals(kind: LineEnd, words: &str) -> Vec<Goal> {
    let header = |what: &str, reached: fn(&[u8], &Answers) -> bool| {
        let name = format!("header ended by {words}{what}");
        Goal::of_file(name, move |file, answers| {
            line_end(answers) == Some(kind) && reached(file, answers)
        })
    };
    vec![
        header("", |_, _| true),
        header(", no index possible", |_, answers| answers.index.is_err()),
        header(", index", |_, answers| answers.index.is_ok()),
        header(", index of 64 blocks", |_, answers| {
            answers.index.is_ok() && answers.blocks().len() == MOST_BLOCKS
        }),
        header(", index, other line ends", |file, answers| {
            answers.index.is_ok() && has_other_lines(file, answers)
        }),
        header(", index, other line end inside", |file, answers| {
            answers.index.is_ok() && has_other_header(file, answers)
        }),
    ]
}

/// Returns the line end of the header line, if the file is accepted.
pub fn line_end(answers: &Answers) -> Option<LineEnd> {
    Some(answers.layout.as_ref().ok()?.line_end)
}

/// Returns the length of the index that is written, if there is one.
fn index_length(answers: &Answers) -> Option<usize> {
    answers.index.as_ref().ok().map(Vec::len)
}

/// Returns the line ends in a text.
pub fn line_ends_in(text: &[u8]) -> Vec<LineEnd> {
    let mut lines: Vec<&[u8]> = text.split(|&byte| byte == b'\n').collect();
    lines.pop();
    let ends = lines.iter().map(|line| match line.last() {
        Some(b'\r') => LineEnd::Crlf,
        _ => LineEnd::Lf,
    });
    ends.collect()
}

/// Whether a line of the comments or the tree has another line end than the header line.
fn has_other_lines(file: &[u8], answers: &Answers) -> bool {
    let comments = answers.layout.as_ref().ok().map(|layout| layout.comments);
    let comments = comments.map(|comments| comments.start..comments.end);
    let tree = answers.tree().map(|tree| tree.start..tree.end);
    let mut stretches = comments.into_iter().chain(tree);
    stretches.any(|stretch| {
        let text = &file[stretch.start.0 as usize..stretch.end.0 as usize];
        let mut ends = line_ends_in(text).into_iter();
        ends.any(|end| Some(end) != line_end(answers))
    })
}

/// Whether the header line of an opened inner file has another line end than that of the outermost
/// file.
fn has_other_header(file: &[u8], answers: &Answers) -> bool {
    let content_start = |record: &Record| {
        let header_size = usize::from(record.block.header_size);
        record.offset.0 as usize + HEADER_SIZE_COUNTS_FROM + header_size
    };
    let mut opened = answers
        .records()
        .iter()
        .filter(|record| record.inner == Inner::Opened);
    opened.any(|record| {
        let content = &file[content_start(record)..];
        let header_end = content.iter().position(|&byte| byte == b'\n');
        let header = header_end.map_or(content, |end| &content[..=end]);
        line_ends_in(header).first().copied() != line_end(answers)
    })
}
