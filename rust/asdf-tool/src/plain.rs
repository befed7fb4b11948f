//! The listing for programs: a line for the tree, one for each row and one for the verdict. If the
//! file is refused, it is one line for the refusal.

use crate::output::{Output, Stop};
use crate::progress;
use asdf_layout::{Layout, Outline, Refusal};

/// Prints the listing of an accepted file.
pub fn print(layout: &Layout, outline: &Outline, out: &mut Output) -> Result<(), Stop> {
    match layout.tree {
        None => writeln!(out, "tree none")?,
        Some(tree) => writeln!(out, "tree {} {}", tree.start, tree.end)?,
    }
    rows(outline, out)?;
    writeln!(out, "index {}", layout.index)
}

/// Prints the listing of a refused file.
pub fn print_refusal(refusal: &Refusal, out: &mut Output) -> Result<(), Stop> {
    writeln!(out, "refused {} {}", refusal.number, refusal.place)
}

/// Prints the rows of an outline, one on each line.
pub fn rows(outline: &Outline, out: &mut Output) -> Result<(), Stop> {
    for row in progress::shown(outline.rows()) {
        writeln!(out, "{row}")?;
    }
    Ok(())
}
