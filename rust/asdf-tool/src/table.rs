//! The listing for people.

use crate::output::{Output, Stop};
use crate::progress;
use crate::words::{self, Size};
use asdf_layout::{Layout, Record, Records, Tree};
use std::fmt::{self, Display, Formatter};
use std::io::Write;
use std::iter;
use std::ops::Range;

/// The number of columns in the table of blocks.
const COLUMNS: usize = 7;
const HEADINGS: [&str; COLUMNS] = [
    "block",
    "offset",
    "allocated",
    "used",
    "compression",
    "checksum",
    "content",
];
/// The number of spaces before the ordinal of a block, for each file around the file of the block.
const INDENTATION: usize = 2;
/// The number of spaces between two columns.
const GAP: usize = 2;

/// Prints the listing of an accepted file with this name and length.
pub fn print(
    name: &str,
    length: usize,
    layout: &Layout,
    records: &Records,
    out: &mut Output,
) -> Result<(), Stop> {
    let (version, length) = (layout.version, Size(length));
    writeln!(out, "{name}: ASDF {version}, length {length}")?;
    writeln!(out, "header    {}", Stretch(0..layout.header_end))?;
    writeln!(out, "comments  {}", Stretch(layout.comments()))?;
    match layout.tree {
        None => writeln!(out, "tree      none")?,
        Some(tree) => print_tree(tree, out)?,
    }
    match records.is_empty() {
        true => writeln!(out, "blocks    none")?,
        false => print_blocks(records, out)?,
    }
    writeln!(out, "index     {}", words::verdict(layout.index))
}

/// Where something is in the file.
struct Stretch(Range<usize>);

impl Display for Stretch {
    fn fmt(&self, f: &mut Formatter<'_>) -> fmt::Result {
        match self.0.is_empty() {
            true => f.write_str("none"),
            false => write!(f, "{} to {}", self.0.start, self.0.end),
        }
    }
}

/// Prints where the tree is, and how many bytes an edit may fill.
fn print_tree(tree: Tree, out: &mut Output) -> Result<(), Stop> {
    let room = Size(tree.room().len());
    writeln!(
        out,
        "tree      {}, in a room of {room}",
        Stretch(tree.text())
    )
}

/// Prints the table of all blocks. The records are read twice, because the widths of the columns are
/// known only after the last one.
fn print_blocks(records: &Records, out: &mut Output) -> Result<(), Stop> {
    let mut row = Row::default();
    let mut widths = HEADINGS.map(str::len);
    for record in records {
        row.describe(&record);
        row.widen(&mut widths);
    }
    writeln!(out)?;
    row.fill(HEADINGS.each_ref().map(|heading| heading as &dyn Display));
    row.print(&widths, out)?;
    for record in progress::shown(records.iter()) {
        row.describe(&record);
        row.print(&widths, out)?;
    }
    writeln!(out)
}

/// The words of one row of the table. The same memory is used for every row.
#[derive(Default)]
struct Row {
    /// The words, without anything between them.
    text: Vec<u8>,
    /// Where each word ends in the text.
    ends: [usize; COLUMNS],
    /// The row as it is printed.
    line: Vec<u8>,
}

impl Row {
    /// Fills the row with words.
    fn fill(&mut self, words: [&dyn Display; COLUMNS]) {
        self.text.clear();
        for (word, end) in iter::zip(words, &mut self.ends) {
            write!(self.text, "{word}").expect("a vector takes every text");
            *end = self.text.len();
        }
    }

    /// Fills the row with the words for a block.
    fn describe(&mut self, record: &Record) {
        let block = &record.block;
        let indentation = INDENTATION * usize::from(record.depth);
        let allocated: &dyn Display = match block.is_streamed() {
            true => &"streamed",
            false => &Size(block.allocated),
        };
        let name = words::compression(block);
        let compression: &dyn Display = match &name {
            None => &"none",
            Some(name) => name,
        };
        self.fill([
            &format_args!("{:indentation$}{}", "", block.ordinal),
            &record.offset,
            allocated,
            &Size(block.used),
            compression,
            &if block.has_checksum() { "yes" } else { "no" },
            &record.inner,
        ]);
    }

    /// Makes each column at least as wide as its word in this row.
    fn widen(&self, widths: &mut [usize; COLUMNS]) {
        let starts = iter::once(0).chain(self.ends);
        for (width, (start, end)) in iter::zip(widths, iter::zip(starts, self.ends)) {
            *width = (end - start).max(*width);
        }
    }

    /// Prints the row. Spaces fill each column, except the last one.
    fn print(&mut self, widths: &[usize; COLUMNS], out: &mut Output) -> Result<(), Stop> {
        self.line.clear();
        let (mut start, mut column) = (0, 0);
        for (&end, width) in iter::zip(&self.ends, widths) {
            self.line.resize(column, b' ');
            self.line.extend(&self.text[start..end]);
            start = end;
            column += width + GAP;
        }
        self.line.push(b'\n');
        out.write_all(&self.line)
    }
}
