//! Finds the extent of the tree. Its content is not interpreted.

use crate::line::{exact_line_at, line_at, Line};
use crate::refusal::*;

/// The first line of a tree, and the second line of an index.
pub(crate) const YAML_LINE: &[u8] = b"%YAML 1.1";
/// A start line that has nothing but its dashes.
pub(crate) const START_LINE: &[u8] = b"---";
/// The last line of a tree and of an index.
pub(crate) const END_LINE: &[u8] = b"...";

/// Returns where the tree that starts at `start` ends, or `None` if no tree starts there. Refusals:
/// 8, 9, 10.
pub(crate) fn tree_end(bytes: &[u8], start: usize) -> Result<Option<usize>, Refusal> {
    match exact_line_at(bytes, start, YAML_LINE) {
        None => Ok(None),
        Some(line) => {
            let content_start = after_start_line(bytes, line.next)?;
            after_end_line(bytes, content_start).map(Some)
        }
    }
}

/// Passes over the lines before the start line and over the start line itself.
fn after_start_line(bytes: &[u8], from: usize) -> Result<usize, Refusal> {
    let mut at = from;
    loop {
        let line = tree_line(bytes, at)?;
        if is_start_line(line.text) {
            return Ok(line.next);
        }
        if !matches!(line.text.first(), Some(b'%' | b'#')) {
            return Err(Refusal::at(WRONG_LINE_BEFORE_START, at));
        }
        at = line.next;
    }
}

/// Passes over the content and the end line.
fn after_end_line(bytes: &[u8], from: usize) -> Result<usize, Refusal> {
    let mut at = from;
    loop {
        let line = tree_line(bytes, at)?;
        if line.text == END_LINE {
            return Ok(line.next);
        }
        if is_start_line(line.text) {
            return Err(Refusal::at(SECOND_START_LINE, at));
        }
        at = line.next;
    }
}

/// Returns the next line of a tree, which must exist and have a line end.
fn tree_line(bytes: &[u8], start: usize) -> Result<Line<'_>, Refusal> {
    line_at(bytes, start).ok_or(Refusal::at(TREE_NOT_ENDED, start))
}

/// Whether the line is `---` alone, or `---` followed by a space and anything.
fn is_start_line(text: &[u8]) -> bool {
    text == START_LINE || text.starts_with(b"--- ")
}
