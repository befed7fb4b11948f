//! Measures outlines, each next to that of a plain file of the same length.

use crate::blocks::{cases, Case};
use crate::measure::medians;
use crate::read::{tree_file, LINE_OF_41};
use asdf_harness::calls::exports;
use asdf_harness::files::sparse::SparseFile;
use asdf_second::{most_rows, ROW_LENGTH};
use std::hint::black_box;
use std::io;

/// How many bytes of a plain file are not content of its tree.
const PLAIN_FRAME: usize = 84;
/// Measures every file and prints a line for each.
pub fn print_table() -> io::Result<()> {
    println!(
        "{:<40}{:>9}{:>7}{:>14}{:>11}{:>11}{:>11}{:>14}{:>10}{:>17}",
        "file",
        "bytes",
        "rows",
        "asdf_outline",
        "second",
        "to second",
        "plain",
        "plain, second",
        "to plain",
        "second to plain"
    );
    cases().iter().try_for_each(print_row)
}

/// A file of about this length with a tree and an empty block.
fn plain_file(length: usize) -> io::Result<SparseFile> {
    let lines = length.saturating_sub(PLAIN_FRAME) / LINE_OF_41.len();
    tree_file(&LINE_OF_41.repeat(lines), b"")
}

/// Measures one file and the plain file of its length, and prints the times.
fn print_row(case: &Case) -> io::Result<()> {
    let plain = plain_file(case.file.len())?;
    let rows = check_outline(case)?;
    let (lent, plain_lent) = (case.rows_lent(), most_rows(plain.len()));
    let [ours, second, plain_ours, plain_second] = medians([
        &mut our_outline(&case.file, lent),
        &mut second_outline(&case.file, lent),
        &mut our_outline(&plain, plain_lent),
        &mut second_outline(&plain, plain_lent),
    ]);
    println!(
        "{:<40}{:>9}{rows:>7}{ours:>14.2}{second:>11.2}{:>11.2}{plain_ours:>11.2}{plain_second:>14.2}{:>10.2}{:>17.2}",
        case.name,
        case.file.len(),
        ours / second,
        ours / plain_ours,
        second / plain_second,
    );
    Ok(())
}

/// The number of rows. Fails unless both outlines have the same number.
fn check_outline(case: &Case) -> io::Result<usize> {
    let lent = case.rows_lent();
    let (ours, second) = (
        our_outline(&case.file, lent)(),
        second_outline(&case.file, lent)(),
    );
    if ours == second {
        Ok(ours / ROW_LENGTH)
    } else {
        Err(io::Error::other(format!(
            "an outline of {ours} bytes instead of {second}"
        )))
    }
}

/// Writes the outline with the proved function, into a buffer for `rows` rows.
fn our_outline(file: &[u8], rows: usize) -> impl FnMut() -> usize + '_ {
    let mut out = vec![0; rows * ROW_LENGTH];
    move || exports::outline(black_box(file), &mut out) as usize
}

/// Writes the outline with the second program, into a buffer for `rows` rows.
fn second_outline(file: &[u8], rows: usize) -> impl FnMut() -> usize + '_ {
    let mut out = vec![0; rows * ROW_LENGTH];
    move || asdf_second::outline(black_box(file), &mut out).unwrap_or(0)
}
