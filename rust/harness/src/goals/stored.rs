//! The goals for stored outlines.

use super::goal::Goal;
use crate::answers::stored::StoredAnswers;
use crate::format::refusals::{OUTLINE_LENGTH, OUTLINE_ROW};
use crate::generate::outline::StoredRow;
use asdf_second::{Row, ROW_LENGTH};

/// The three bits above the inner state in the first byte of a row.
const FLAG_BITS: [(u8, &str); 3] = [(16, "streamed"), (8, "compressed"), (4, "checksum")];

/// A goal that a stored outline can reach.
type StoredGoal = Goal<StoredAnswers>;

/// Returns all goals for stored outlines.
pub fn goals() -> Vec<StoredGoal> {
    [
        row_counts(),
        wrong_lengths(),
        wrong_rows(),
        accepted_rows(),
        neighbours(),
    ]
    .into_iter()
    .flatten()
    .collect()
}

/// Returns goals for accepted outlines with few rows and with many.
fn row_counts() -> Vec<StoredGoal> {
    let mut goals: Vec<StoredGoal> = [0, 1, 2]
        .map(|count| {
            StoredGoal::new(format!("stored, {count} rows"), move |_, answers| {
                accepted_length(answers, |rows| rows == count)
            })
        })
        .into();
    goals.push(StoredGoal::new(
        "stored, more than 255 rows",
        |_, answers| accepted_length(answers, |rows| rows > 255),
    ));
    goals
}

/// Returns the number of rows of an accepted outline, if it is `wanted`.
fn accepted_length(answers: &StoredAnswers, wanted: impl Fn(usize) -> bool) -> Vec<usize> {
    let rows = answers.rows.as_ref().ok().map(Vec::len);
    rows.filter(|&rows| wanted(rows)).into_iter().collect()
}

/// Returns a goal for each remainder of a wrong length, and one for a wrong length together with a
/// row that breaks the rules.
fn wrong_lengths() -> Vec<StoredGoal> {
    let mut goals: Vec<StoredGoal> = (1..ROW_LENGTH)
        .map(|rest| {
            StoredGoal::new(
                format!("stored, {rest} bytes too many (23)"),
                move |stored, answers| {
                    let refused = answers.refused_with(OUTLINE_LENGTH).is_some();
                    let reached = refused && stored.len() % ROW_LENGTH == rest;
                    reached.then_some(stored.len()).into_iter().collect()
                },
            )
        })
        .collect();
    goals.push(StoredGoal::new(
        "stored, wrong length and a wrong row (23)",
        |stored, answers| {
            let whole = stored.len() / ROW_LENGTH * ROW_LENGTH;
            let wrong_row = asdf_second::read_outline(&stored[..whole]).is_err();
            let reached = answers.refused_with(OUTLINE_LENGTH).is_some() && wrong_row;
            reached.then_some(stored.len()).into_iter().collect()
        },
    ));
    goals
}

/// Returns goals for rows that are one beyond a limit, while every other field is right.
fn wrong_rows() -> Vec<StoredGoal> {
    vec![
        wrong_row("stored, row refused (24)", |_, _| true),
        wrong_row("stored, first row refused (24)", |row, _| row.place == 0),
        wrong_row("stored, ordinal 64 (24)", |row, deepest| {
            row.row.ordinal == 64 && sizes_fit(row.row) && row.row.depth() <= deepest
        }),
        wrong_row("stored, header size 47 (24)", |row, deepest| {
            let fits = row.row.ordinal < 64 && row.row.used <= row.row.allocated;
            row.row.header_size == 47 && fits && row.row.depth() <= deepest
        }),
        wrong_row("stored, used one above allocated (24)", |row, deepest| {
            let fits = row.row.ordinal < 64 && row.row.header_size >= 48;
            let above = row.row.allocated.checked_add(1) == Some(row.row.used);
            above && fits && row.row.depth() <= deepest
        }),
        wrong_row("stored, first row at depth 1 (24)", |row, _| {
            row.place == 0 && row.row.depth() == 1 && keeps_to_its_limits(row.row)
        }),
        wrong_row(
            "stored, row two deeper than the row before (24)",
            |row, deepest| {
                row.place > 0 && row.row.depth() == deepest + 1 && keeps_to_its_limits(row.row)
            },
        ),
    ]
}

/// A stored row, and where it begins.
struct PlacedRow {
    place: usize,
    row: StoredRow,
}

/// Makes a goal that a refused row reaches. `reached` also gets the highest depth that this row may
/// have.
fn wrong_row(name: &str, reached: impl Fn(&PlacedRow, u8) -> bool + 'static) -> StoredGoal {
    StoredGoal::new(name, move |stored, answers| {
        let place = answers.refused_with(OUTLINE_ROW);
        place
            .filter(|&place| reached(&row_at(stored, place), deepest_at(stored, place)))
            .into_iter()
            .collect()
    })
}

/// Returns the row that begins at a place.
fn row_at(stored: &[u8], place: usize) -> PlacedRow {
    PlacedRow {
        place,
        row: StoredRow::from_bytes(&stored[place..]),
    }
}

/// Returns the highest depth that the row at a place may have.
fn deepest_at(stored: &[u8], place: usize) -> u8 {
    let before = place.checked_sub(ROW_LENGTH);
    before.map_or(0, |before| row_at(stored, before).row.depth() + 1)
}

/// Whether the header size and the other sizes of a row are right.
fn sizes_fit(row: StoredRow) -> bool {
    row.header_size >= 48 && row.used <= row.allocated
}

/// Whether everything in a row except its depth is right.
fn keeps_to_its_limits(row: StoredRow) -> bool {
    row.ordinal < 64 && sizes_fit(row)
}

/// Returns goals for rows at a limit, each inner state and each flag.
fn accepted_rows() -> Vec<StoredGoal> {
    let mut goals = vec![
        accepted_row("stored, ordinal 63", |row| row.ordinal == 63),
        accepted_row("stored, header size 48", |row| row.header_size == 48),
        accepted_row("stored, header size 65535", |row| {
            row.header_size == u16::MAX
        }),
        accepted_row("stored, used equals allocated", |row| {
            row.used > 0 && row.used == row.allocated
        }),
        accepted_row("stored, sizes with all bytes FF", |row| {
            row.used == u32::MAX
        }),
        accepted_row("stored, offset with all bytes FF", |row| {
            row.offset.0 == u32::MAX
        }),
        accepted_row("stored, depth 7", |row| row.depth == 7),
    ];
    goals.extend((0..4).map(|inner| {
        accepted_row(format!("stored, inner state {inner}"), move |row| {
            row.inner as u8 == inner
        })
    }));
    goals.extend(FLAG_BITS.map(|(bit, name)| {
        accepted_row(format!("stored, only {name}"), move |row| {
            flag_bits(row) == bit
        })
    }));
    goals
}

/// Makes a goal that a row of an accepted outline reaches.
fn accepted_row(name: impl Into<String>, reached: impl Fn(&Row) -> bool + 'static) -> StoredGoal {
    StoredGoal::new(name, move |_, answers| {
        let rows = answers.rows().iter().enumerate();
        let reached = rows.filter(|(_, row)| reached(row));
        reached.map(|(place, _)| place).collect()
    })
}

/// Returns the flags of a row as the bits that are stored for them.
fn flag_bits(row: &Row) -> u8 {
    let flags = [row.streamed, row.compressed, row.checksum];
    let set = flags.into_iter().zip(FLAG_BITS).filter(|(set, _)| *set);
    set.map(|(_, (bit, _))| bit).sum()
}

/// Returns goals for the depths of two consecutive rows in an accepted outline.
fn neighbours() -> Vec<StoredGoal> {
    vec![
        pair("stored, next row one deeper", |row, next| {
            next.depth == row.depth + 1
        }),
        pair("stored, next row deeper after a plain row", |row, next| {
            next.depth == row.depth + 1 && row.inner as u8 == 0
        }),
        pair("stored, next row at the same depth", |row, next| {
            next.depth == row.depth
        }),
        pair("stored, next row less deep by seven", |row, next| {
            next.depth + 7 == row.depth
        }),
    ]
}

/// Makes a goal that two consecutive rows reach.
fn pair(name: &str, reached: impl Fn(&Row, &Row) -> bool + 'static) -> StoredGoal {
    StoredGoal::new(name, move |_, answers| {
        let pairs = answers.rows().windows(2).enumerate();
        let reached = pairs.filter(|(_, pair)| reached(&pair[0], &pair[1]));
        reached.map(|(place, _)| place).collect()
    })
}
