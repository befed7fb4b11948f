//! Gives the verdict on an index of either style. The blocks are passed in, so this module does not
//! need to know the layout.

use crate::block::Block;
use crate::index_form::{INDEX_LINE, LIST_BEGIN, LIST_END, MOST_OFFSET_DIGITS};
use crate::line::{decimal, exact_line_at, line_at, Line};
use crate::tree::{END_LINE, START_LINE, YAML_LINE};
use crate::zeros::only_zeros;
use std::fmt;

/// The bytes before each number in the dash style.
const DASH: &[u8] = b"- ";

/// The verdict on a file's index. An ignored index never refuses the file.
#[derive(Debug, Clone, Copy, PartialEq, Eq)]
pub enum Verdict {
    /// There is no index.
    Absent,
    /// The form is right and the list equals the walked offsets.
    Good,
    /// The text does not have the form of either style.
    IgnoredForm,
    /// The form is right, but the list differs from the walked offsets.
    IgnoredList,
}

impl fmt::Display for Verdict {
    fn fmt(&self, f: &mut fmt::Formatter<'_>) -> fmt::Result {
        f.write_str(match self {
            Verdict::Absent => "absent",
            Verdict::Good => "good",
            Verdict::IgnoredForm => "ignored-form",
            Verdict::IgnoredList => "ignored-list",
        })
    }
}

/// Judges a tail that begins as an index. Its list is compared with the walked blocks of its file.
pub(crate) fn judge_index(tail: &[u8], blocks: &[Block]) -> Verdict {
    match list_equals(tail, blocks) {
        None => Verdict::IgnoredForm,
        Some(false) => Verdict::IgnoredList,
        Some(true) => Verdict::Good,
    }
}

/// Whether the index's list equals the offsets of the blocks. Returns `None` if the form is wrong.
fn list_equals(tail: &[u8], blocks: &[Block]) -> Option<bool> {
    let mut offsets = blocks.iter().map(|block| u64::from(block.offset.0));
    let mut equal = true;
    each_number(tail, &mut |number| equal &= offsets.next() == Some(number))?;
    Some(equal && offsets.next().is_none())
}

/// Passes each number of the index to `take`, in order. Returns `None` if the form is wrong. That
/// may become clear only after some numbers were passed on.
fn each_number(tail: &[u8], take: &mut impl FnMut(u64)) -> Option<()> {
    let first = exact_line_at(tail, 0, INDEX_LINE)?;
    let second = exact_line_at(tail, first.next, YAML_LINE)?;
    // The start line decides the style, so no text can mix the two styles.
    let last_of_list = match exact_line_at(tail, second.next, START_LINE) {
        Some(start_line) => dash_lines(tail, start_line.next, take)?,
        None => bracket_line(tail, second.next, take)?,
    };
    let end_line = exact_line_at(tail, last_of_list.next, END_LINE)?;
    only_zeros(&tail[end_line.next..]).then_some(())
}

/// Returns the one line that holds the list in the bracket style.
fn bracket_line<'a>(tail: &'a [u8], start: usize, take: &mut impl FnMut(u64)) -> Option<Line<'a>> {
    let line = line_at(tail, start)?;
    let list = line.text.strip_prefix(LIST_BEGIN)?.strip_suffix(LIST_END)?;
    for item in list.split(|&byte| byte == b',') {
        take(list_number(without_outer_spaces(item))?);
    }
    Some(line)
}

/// Returns the last line of the list in the dash style. The list has one line for each number, and
/// at least one line.
fn dash_lines<'a>(tail: &'a [u8], start: usize, take: &mut impl FnMut(u64)) -> Option<Line<'a>> {
    let mut line = dash_line(tail, start, take)?;
    while tail[line.next..].starts_with(DASH) {
        line = dash_line(tail, line.next, take)?;
    }
    Some(line)
}

/// Returns one line of the dash style. More spaces are allowed only after its number.
fn dash_line<'a>(tail: &'a [u8], start: usize, take: &mut impl FnMut(u64)) -> Option<Line<'a>> {
    let line = line_at(tail, start)?;
    let item = line.text.strip_prefix(DASH)?;
    take(list_number(without_spaces_after(item))?);
    Some(line)
}

/// Reads a number of the list. Numbers have the same form in both styles.
fn list_number(digits: &[u8]) -> Option<u64> {
    decimal(digits, MOST_OFFSET_DIGITS)
}

/// Returns the bytes without the spaces at their beginning and at their end.
fn without_outer_spaces(bytes: &[u8]) -> &[u8] {
    let spaces = bytes.iter().take_while(|&&byte| byte == b' ').count();
    without_spaces_after(&bytes[spaces..])
}

/// Returns the bytes without the spaces at their end.
fn without_spaces_after(bytes: &[u8]) -> &[u8] {
    let spaces = bytes.iter().rev().take_while(|&&byte| byte == b' ').count();
    &bytes[..bytes.len() - spaces]
}
