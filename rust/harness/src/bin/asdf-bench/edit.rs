//! Measures the edit in place, next to that of the second program.

use crate::measure::medians;
use crate::read::{tree_text, GIB, LINE_OF_41, MIB};
use asdf_harness::calls::exports;
use asdf_harness::files::edits::file_with_room;
use asdf_harness::files::sparse::SparseFile;
use std::hint::black_box;
use std::io;

/// The length of the room of a small tree.
const SMALL_ROOM: usize = 100;
/// The length of the block after a room.
const LEAST_BLOCK: usize = 1_000;

/// A file with a room, and a text for this room.
struct Case {
    name: &'static str,
    length: usize,
    room: usize,
    text: Vec<u8>,
}

/// Measures every edit and prints a line for each.
pub fn print_table() -> io::Result<()> {
    println!(
        "{:<36}{:>12}{:>12}{:>12}",
        "file", "asdf_edit", "second", "to second"
    );
    cases().iter().try_for_each(print_row)
}

/// All edits that are measured.
fn cases() -> [Case; 3] {
    let long_text = tree_text(&LINE_OF_41.repeat(MIB / LINE_OF_41.len()));
    [
        Case {
            name: "tree of 1 MiB in its room",
            length: long_text.len() + LEAST_BLOCK,
            room: long_text.len(),
            text: long_text,
        },
        Case {
            name: "small tree in a room of 1 MiB",
            length: MIB + LEAST_BLOCK,
            room: MIB,
            text: tree_text(LINE_OF_41),
        },
        Case {
            name: "small tree before a sparse gigabyte",
            length: GIB,
            room: SMALL_ROOM,
            text: tree_text(LINE_OF_41),
        },
    ]
}

/// Measures one edit and prints the times. Every call finds the file as the call before it left it.
fn print_row(case: &Case) -> io::Result<()> {
    let (mut ours, mut second) = (edited(case, our_edit)?, edited(case, second_edit)?);
    if ours[..] != second[..] {
        return Err(io::Error::other("the edited files differ"));
    }
    let (our_file, second_file) = (ours.lend()?, second.lend()?);
    let [ours, second] = medians([
        &mut || our_edit(black_box(our_file), &case.text),
        &mut || second_edit(black_box(second_file), &case.text),
    ]);
    println!(
        "{:<36}{ours:>12.2}{second:>12.2}{:>12.2}",
        case.name,
        ours / second
    );
    Ok(())
}

/// The file of a case after the edit. The edit has to be accepted.
fn edited(case: &Case, edit: fn(&mut [u8], &[u8]) -> usize) -> io::Result<SparseFile> {
    let mut file = file_with_room(case.length, case.room)?;
    match edit(file.lend()?, &case.text) {
        0 => Ok(file),
        _ => Err(io::Error::other("the edit was refused")),
    }
}

/// Edits with the proved function. Returns 0 if the edit is made.
fn our_edit(file: &mut [u8], text: &[u8]) -> usize {
    exports::edit(file, black_box(text)) as usize
}

/// Edits with the second program. Returns 0 if the edit is made.
fn second_edit(file: &mut [u8], text: &[u8]) -> usize {
    usize::from(asdf_second::edit(file, black_box(text)).is_err())
}
