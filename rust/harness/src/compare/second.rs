//! Checks that the answers of the second program for one file are consistent.

use crate::answers::file::Answers;
use crate::format::refusals::{of_whole, BUFFER_TOO_SHORT, NO_INDEX_POSSIBLE};
use crate::same::same;
use asdf_second::{
    listing, most_rows, outline, read, read_outline, rewrite_outline, row_count, rows, write_index,
    Layout, LineEnd, Record, Refusal, Row, Verdict, LONGEST_INDEX, PROGRAM_LIMIT, ROW_LENGTH,
};

/// What a lent buffer holds before it is written to.
const UNTOUCHED: u8 = 0xA5;
/// How many bytes beyond its result a writer is lent.
const SPARE: usize = 3;
/// The bytes of a written index without its numbers, the commas and spaces between them, and its
/// line ends.
const INDEX_FRAME: usize = 35;
/// How many lines a written index has.
const INDEX_LINES: usize = 4;

/// Fails if the answers are not consistent, and says where.
pub fn check(file: &[u8], answers: &Answers) -> Result<(), String> {
    check_line_end(file, answers)?;
    check_records(answers)?;
    check_rows(file, answers)?;
    check_outline(file, answers)?;
    check_index(file, answers)?;
    check_listing(file, answers)
}

/// Checks that layout and records refuse the same files and report the same blocks.
fn check_records(answers: &Answers) -> Result<(), String> {
    let blocks = answers.layout.clone().map(|layout| layout.blocks);
    let outermost = answers.records.clone().map(|records| {
        let outermost = records.iter().filter(|record| record.depth == 0);
        outermost.map(|record| record.block).collect()
    });
    same("blocks of the records", outermost, blocks)
}

/// The rows that belong to the records.
fn expected_rows(answers: &Answers) -> Result<Vec<Row>, Refusal> {
    let records = answers.records.clone()?;
    Ok(records.into_iter().map(Row::from).collect())
}

/// Checks that the rows are those of the records, and that there are no more of them than a file of
/// this length can have.
fn check_rows(file: &[u8], answers: &Answers) -> Result<(), String> {
    let expected = expected_rows(answers);
    let count = expected.clone().map(|rows| rows.len());
    same("rows", rows(file), expected)?;
    same("row count", row_count(file), count)?;
    let too_many = count.is_ok_and(|count| count > most_rows(file.len()));
    same("more rows than fit the length", too_many, false)
}

/// Checks that the outline is read back as the same rows and written again as the same bytes.
fn check_outline(file: &[u8], answers: &Answers) -> Result<(), String> {
    let expected = expected_rows(answers);
    let length = expected.as_ref().map_or(0, Vec::len) * ROW_LENGTH;
    let stored = checked_writing("outline", length, |out| outline(file, out))?;
    match stored {
        Err(refusal) => same("outline", Err(refusal), expected),
        Ok(stored) => {
            same("outline read back", read_outline(&stored), expected)?;
            let again =
                checked_writing("outline again", length, |out| rewrite_outline(&stored, out))?;
            same("outline written again", again, Ok(stored))
        }
    }
}

/// What a writer writes into a buffer that is long enough. The bytes after the result must not
/// change. A buffer that is one byte too short must not change at all.
fn checked_writing(
    what: &str,
    most: usize,
    write: impl Fn(&mut [u8]) -> Result<usize, Refusal>,
) -> Result<Result<Vec<u8>, Refusal>, String> {
    let mut buffer = vec![UNTOUCHED; most + SPARE];
    let result = write(&mut buffer);
    let length = result.unwrap_or(0);
    let rest = buffer.split_off(length);
    same(what, rest, vec![UNTOUCHED; most + SPARE - length])?;
    if length > 0 {
        let mut short = vec![UNTOUCHED; length - 1];
        same(what, write(&mut short), Err(of_whole(BUFFER_TOO_SHORT)))?;
        same(what, short, vec![UNTOUCHED; length - 1])?;
    }
    Ok(result.map(|_| buffer))
}

/// Checks that the index is refused if there can be none, and is written otherwise.
fn check_index(file: &[u8], answers: &Answers) -> Result<(), String> {
    let text = checked_writing("index", LONGEST_INDEX, |out| write_index(file, out))?;
    match (&answers.layout, answers.chain_end(), text) {
        (Ok(layout), Some(end), Ok(text)) => check_index_text(&file[..end], layout, &text),
        (Ok(_), Some(_), Err(refusal)) => Err(format!("index: {refusal}")),
        (Ok(_), None, text) => same("index", text, Err(of_whole(NO_INDEX_POSSIBLE))),
        (Err(refusal), _, text) => same("index", text, Err(*refusal)),
    }
}

/// Checks that the written index has the stated length and is good after the last block.
fn check_index_text(chain: &[u8], layout: &Layout, text: &[u8]) -> Result<(), String> {
    same("length of the index", text.len(), index_length(layout))?;
    let mut expected = layout.clone();
    expected.index = Verdict::Good;
    let found = read(&[chain, text].concat());
    same("file with the written index", found, Ok(expected))
}

/// The length of the index of a file with this layout.
fn index_length(layout: &Layout) -> usize {
    let blocks = &layout.blocks;
    let digits = blocks.iter().map(|block| block.offset.0.to_string().len());
    let line_ends = INDEX_LINES * line_end_bytes(layout.line_end).len();
    INDEX_FRAME + line_ends + digits.sum::<usize>() + 2 * (blocks.len() - 1)
}

fn line_end_bytes(line_end: LineEnd) -> &'static [u8] {
    match line_end {
        LineEnd::Lf => b"\n",
        LineEnd::Crlf => b"\r\n",
    }
}

/// Checks that the reported line end is that of the header line.
fn check_line_end(file: &[u8], answers: &Answers) -> Result<(), String> {
    let Ok(layout) = &answers.layout else {
        return Ok(());
    };
    let header = file.get(..layout.header_end.0 as usize).unwrap_or(file);
    let expected = match header {
        [.., b'\r', b'\n'] => LineEnd::Crlf,
        _ => LineEnd::Lf,
    };
    same("line end of the header", layout.line_end, expected)
}

/// Checks that the listing states what layout and records state.
fn check_listing(file: &[u8], answers: &Answers) -> Result<(), String> {
    let expected = match &answers.layout {
        _ if file.len() > PROGRAM_LIMIT => "too long for this program\n".to_string(),
        Err(refusal) => format!("{refusal}\n"),
        Ok(layout) => listing_text(layout, answers.records()),
    };
    let found = String::from_utf8_lossy(&listing(file)).into_owned();
    same("listing", found, expected)
}

/// The listing of an accepted file.
fn listing_text(layout: &Layout, records: &[Record]) -> String {
    let tree = match layout.tree {
        None => "none".to_string(),
        Some(tree) => format!("{} {}", tree.start.0, tree.end.0),
    };
    let rows: String = records
        .iter()
        .map(|record| format!("{}\n", Row::from(*record)))
        .collect();
    format!("tree {tree}\n{rows}index {}\n", layout.index)
}

#[cfg(test)]
mod tests {
    use super::*;
    use crate::format::text::LEAST_TREE;

    const A: &[u8] = b"#ASDF 1.0.0\n";

    #[test]
    fn answers_to_a_file_fit_it() {
        let tree = [A, LEAST_TREE].concat();
        for file in [&b""[..], A, &tree] {
            assert_eq!(check(file, &Answers::to(file)), Ok(()));
        }
    }

    #[test]
    fn answers_to_another_file_are_found_out() {
        let tree = [A, LEAST_TREE].concat();
        assert!(check(A, &Answers::to(b"")).is_err());
        assert!(check(b"", &Answers::to(A)).is_err());
        assert!(check(&tree, &Answers::to(A)).is_err());
    }
}
