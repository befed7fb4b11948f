//! Compares the proved functions with the second program: stored outlines.

use super::asked::{compare_count, compare_numbered, wanted, Asked};
use crate::answers::stored::StoredAnswers;
use crate::calls::exports;
use crate::calls::kinds::{Calls, Function};
use crate::calls::numbers::{bytes_of, row_numbers};
use crate::calls::returned::Expected;
use asdf_second::Row;

/// If an outline has at most this many rows, every row is asked for.
const FEW_ROWS: usize = 24;

/// Fails if a function answers differently from what is expected, and says where.
pub fn compare(stored: &[u8], expected: &StoredAnswers, calls: &mut Calls) -> Result<(), String> {
    let count = expected.rows.as_ref().map(Vec::len);
    let count = count.map_err(|&refusal| refusal);
    let word = exports::stored_count(stored);
    compare_count(Function::StoredCount, count, word, calls)?;
    let rewritten = expected.rewritten.clone();
    let rewritten = Asked::new(Function::Rewrite, rewritten, stored.len());
    rewritten.compare(|out| exports::rewrite(stored, out), calls)?;
    let rows = Asked::new(Function::StoredRows, expected_rows(expected), stored.len());
    rows.compare(|out| exports::stored_rows(stored, out), calls)?;
    compare_numbered(
        Function::StoredRow,
        row_places(expected.rows().len()),
        stored.len(),
        |number| expected_row(expected, number),
        |number, out| exports::stored_row(stored, number, out),
        calls,
    )
}

/// The numbers of the rows that are asked for: all rows if there are few, and in any case those
/// that `wanted` chooses.
fn row_places(count: usize) -> impl Iterator<Item = u64> {
    let all = if count <= FEW_ROWS { count as u64 } else { 0 };
    (0..all).chain(wanted(count))
}

/// The bytes of all rows.
fn expected_rows(expected: &StoredAnswers) -> Expected {
    let rows = expected.rows.as_ref().map_err(|&refusal| refusal)?;
    let bytes: Vec<Vec<u8>> = rows.iter().map(row_bytes).collect();
    Ok(bytes.concat())
}

/// The bytes of a row. There are none if there is no such row.
fn expected_row(expected: &StoredAnswers, number: u64) -> Expected {
    let rows = expected.rows.as_ref().map_err(|&refusal| refusal)?;
    Ok(rows.get(number as usize).map_or(Vec::new(), row_bytes))
}

/// The numbers of a row as bytes.
fn row_bytes(row: &Row) -> Vec<u8> {
    bytes_of(&row_numbers(row))
}

#[cfg(test)]
mod tests {
    use super::*;

    /// A row that keeps the rules.
    const ROW: [u8; 16] = [0, 0, 0, 48, 0, 0, 0, 12, 0, 0, 0, 2, 0, 0, 0, 1];

    /// What the comparison reports about `stored` if the answers for `other` are expected.
    fn said(stored: &[u8], other: &[u8]) -> Result<(), String> {
        compare(stored, &StoredAnswers::to(other), &mut Calls::new())
    }

    #[test]
    fn right_answers_are_taken() {
        for stored in [&b""[..], &ROW, &ROW[1..], &[0; 16], &[ROW, ROW].concat()] {
            assert_eq!(said(stored, stored), Ok(()));
        }
    }

    #[test]
    fn answers_to_another_outline_are_found_out() {
        for place in 0..ROW.len() {
            let mut other = ROW;
            other[place] ^= 1;
            assert!(said(&ROW, &other).is_err(), "byte {place}");
        }
        assert!(said(&ROW, b"").is_err());
        assert!(said(&[0; 16], &[0; 15]).is_err());
    }

    #[test]
    fn changed_row_is_found_out() {
        let mut expected = StoredAnswers::to(&ROW);
        expected.rows.as_mut().unwrap()[0].offset.0 += 1;
        assert!(compare(&ROW, &expected, &mut Calls::new()).is_err());
    }
}
