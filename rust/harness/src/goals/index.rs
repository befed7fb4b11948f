//! The goals for block indexes, in brackets and with dashes.

use super::goal::Goal;
use crate::answers::file::Answers;
use crate::format::limits::MOST_BLOCKS;
use crate::format::text::{places_of, DASH_START, END_LINE, INDEX_LINE, YAML_LINE};
use crate::generate::index::{WRONG_DASH_LINES, WRONG_START_LINES};
use asdf_second::Verdict;

/// The most digits that a number in the list may have.
const MOST_DIGITS: usize = 10;

/// Returns all goals for indexes.
pub fn goals() -> Vec<Goal> {
    [
        style("brackets", |index| !has_dashes(index)),
        style("dashes", has_dashes),
        empty_lists(),
        spaces_before_line_ends(),
        mixed_styles(),
        wrong_start_lines(),
        wrong_dash_lines(),
    ]
    .into_iter()
    .flatten()
    .collect()
}

/// Returns the tail after the last block, if it begins like an index.
pub fn index<'a>(file: &'a [u8], answers: &Answers) -> Option<&'a [u8]> {
    let tail = &file[answers.chain_end()?..];
    tail.starts_with(INDEX_LINE).then_some(tail)
}

/// Returns the numbers in the list of an index, from its start line up to its end line.
pub fn numbers_in(index: &[u8]) -> Vec<u64> {
    let lines = lines(index).skip(2).take_while(|line| *line != END_LINE);
    let digits = lines.flat_map(|line| line.split(|byte| !byte.is_ascii_digit()));
    let numbers = digits.filter_map(|digits| std::str::from_utf8(digits).ok()?.parse().ok());
    numbers.collect()
}

/// Returns the lines of an index, without their line ends.
fn lines(index: &[u8]) -> impl Iterator<Item = &[u8]> {
    let lines = index.split(|&byte| byte == b'\n');
    lines.map(|line| line.strip_suffix(b"\r").unwrap_or(line))
}

/// Returns what follows this line, if the text begins with it.
fn after_line<'a>(text: &'a [u8], line: &[u8]) -> Option<&'a [u8]> {
    let rest = text.strip_prefix(line)?;
    rest.strip_prefix(b"\n")
        .or_else(|| rest.strip_prefix(b"\r\n"))
}

/// Returns an index from its start line on, if its first two lines are right.
fn from_start_line(index: &[u8]) -> Option<&[u8]> {
    after_line(after_line(index, INDEX_LINE)?, YAML_LINE)
}

/// Returns what follows the start line, if the index is one with dashes.
fn dash_lines(index: &[u8]) -> Option<&[u8]> {
    after_line(from_start_line(index)?, DASH_START)
}

/// Whether an index is one with dashes.
pub fn has_dashes(index: &[u8]) -> bool {
    dash_lines(index).is_some()
}

/// Returns the length of the longest run of digits in the list of an index.
fn most_digits(index: &[u8]) -> usize {
    let digits = lines(index)
        .skip(2)
        .flat_map(|line| line.split(|byte| !byte.is_ascii_digit()));
    digits.map(<[u8]>::len).max().unwrap_or(0)
}

/// Makes a goal that a file reaches if its index has this verdict and `reached` holds for it.
fn of_index(name: String, verdict: Verdict, reached: impl Fn(&[u8]) -> bool + 'static) -> Goal {
    Goal::of_file(name, move |file, answers| {
        answers.verdict() == Some(verdict) && index(file, answers).is_some_and(&reached)
    })
}

/// Returns goals for each verdict on an index of this style, and for the limits of its form.
fn style(name: &str, is_style: fn(&[u8]) -> bool) -> Vec<Goal> {
    let of_style = |what: &str, verdict: Verdict, reached: fn(&[u8]) -> bool| {
        let name = format!("{name}: {what} ({verdict})");
        of_index(name, verdict, move |index| {
            is_style(index) && reached(index)
        })
    };
    vec![
        of_style("one number", Verdict::Good, |index| {
            numbers_in(index).len() == 1
        }),
        of_style("several numbers", Verdict::Good, |index| {
            numbers_in(index).len() > 1
        }),
        of_style("64 numbers", Verdict::Good, |index| {
            numbers_in(index).len() == MOST_BLOCKS
        }),
        of_style("0D 0A", Verdict::Good, |index| index.contains(&b'\r')),
        of_style("two spaces together", Verdict::Good, |index| {
            !places_of(index, b"  ").is_empty()
        }),
        of_style("zeros after the index", Verdict::Good, |index| {
            index.ends_with(b"\0")
        }),
        of_style("one number", Verdict::IgnoredList, |index| {
            numbers_in(index).len() == 1
        }),
        of_style("more than 64 numbers", Verdict::IgnoredList, |index| {
            numbers_in(index).len() > MOST_BLOCKS
        }),
        of_style("ten digits", Verdict::IgnoredList, |index| {
            most_digits(index) == MOST_DIGITS
        }),
        of_style("eleven digits", Verdict::IgnoredForm, |index| {
            most_digits(index) == MOST_DIGITS + 1
        }),
        of_style("cut before its end line", Verdict::IgnoredForm, |index| {
            lines(index).all(|line| line != END_LINE)
        }),
    ]
}

/// Returns goals for lists without a number.
fn empty_lists() -> Vec<Goal> {
    vec![
        ignored("brackets: no number", |index| {
            from_start_line(index).is_some_and(|list| after_line(list, b"--- []").is_some())
        }),
        ignored("dashes: no number", |index| {
            dash_lines(index).is_some_and(|lines| after_line(lines, END_LINE).is_some())
        }),
    ]
}

/// Makes a goal that a file reaches if its index is ignored for its form and `reached` holds for
/// it.
fn ignored(name: &str, reached: fn(&[u8]) -> bool) -> Goal {
    let name = format!("{name} (ignored-form)");
    of_index(name, Verdict::IgnoredForm, reached)
}

/// Returns goals for indexes with dashes that have spaces before a line end, for either line end.
fn spaces_before_line_ends() -> Vec<Goal> {
    let with = |line_end: &str, bytes: &'static [u8]| {
        let name = format!("dashes: space before {line_end} (good)");
        of_index(name, Verdict::Good, move |index| {
            has_dashes(index) && !places_of(index, bytes).is_empty()
        })
    };
    vec![with("0A", b" \n"), with("0D 0A", b" \r\n")]
}

/// Returns goals for lists with lines of both styles.
fn mixed_styles() -> Vec<Goal> {
    vec![
        ignored("list in brackets, then a dash line", |index| {
            let mut list = lines(index).skip(2);
            list.next().is_some_and(|line| line.starts_with(b"--- ["))
                && list.next().is_some_and(|line| line.starts_with(b"- "))
        }),
        ignored("list in brackets after a dash line", |index| {
            has_dashes(index) && lines(index).skip(4).any(|line| line.starts_with(b"["))
        }),
    ]
}

/// Returns a goal for each wrong line in place of the start line, with a dash after it.
fn wrong_start_lines() -> Vec<Goal> {
    wrong_lines("start", WRONG_START_LINES, |index, wrong| {
        let rest = from_start_line(index).and_then(|list| after_line(list, wrong));
        rest.is_some_and(|rest| rest.starts_with(b"- "))
    })
}

/// Returns a goal for each wrong line after the start line of an index with dashes.
fn wrong_dash_lines() -> Vec<Goal> {
    wrong_lines("dash", WRONG_DASH_LINES, |index, wrong| {
        dash_lines(index).is_some_and(|lines| has_line(lines, wrong))
    })
}

/// Makes a goal for each of these wrong lines.
fn wrong_lines(
    what: &str,
    wrong: &'static [&'static [u8]],
    reached: fn(&[u8], &[u8]) -> bool,
) -> Vec<Goal> {
    let goal = |&line: &&'static [u8]| {
        let name = format!("wrong {what} line `{}`", line.escape_ascii());
        of_index(name, Verdict::IgnoredForm, move |index| {
            reached(index, line)
        })
    };
    wrong.iter().map(goal).collect()
}

/// Whether a text has this line anywhere.
fn has_line(text: &[u8], line: &[u8]) -> bool {
    let line_ends = places_of(text, b"\n");
    let mut starts = line_ends.iter().map(|end| end + 1).chain([0]);
    starts.any(|start| after_line(&text[start..], line).is_some())
}
