//! Measures the records of the same files, and their number. The second program makes a list of its
//! records in memory. So that both do the same work, its records are also written as the same
//! bytes.

use crate::blocks::{cases, Case};
use crate::measure::medians;
use asdf_harness::calls::exports;
use asdf_harness::calls::numbers::{record_numbers, NUMBER_BYTES, RECORD_NUMBERS};
use std::hint::black_box;
use std::io;

/// The length of a record in bytes.
const RECORD_BYTES: usize = RECORD_NUMBERS * NUMBER_BYTES;

/// Measures every file and prints a line for each.
pub fn print_table() -> io::Result<()> {
    println!(
        "{:<40}{:>7}{:>14}{:>12}{:>10}{:>13}{:>10}{:>12}{:>11}{:>11}",
        "file",
        "rows",
        "asdf_records",
        "second",
        "to it",
        "second, list",
        "to it",
        "asdf_count",
        "second",
        "to second"
    );
    cases().iter().try_for_each(print_row)
}

/// Measures one file and prints the times.
fn print_row(case: &Case) -> io::Result<()> {
    let rows = check_records(case)?;
    let file: &[u8] = &case.file;
    let [records, bytes, list, count, second_count] = medians([
        &mut our_records(case),
        &mut bytes_by_second(case),
        &mut || records_by_second(black_box(file)),
        &mut || exports::count(black_box(file)) as usize,
        &mut || count_by_second(black_box(file)),
    ]);
    println!(
        "{:<40}{rows:>7}{records:>14.2}{bytes:>12.2}{:>10.2}{list:>13.2}{:>10.2}{count:>12.2}{second_count:>11.2}{:>11.2}",
        case.name,
        records / bytes,
        records / list,
        count / second_count,
    );
    Ok(())
}

/// The number of rows. Fails unless the records and the counts of both programs have this number.
fn check_records(case: &Case) -> io::Result<usize> {
    let rows = records_by_second(&case.file);
    let records = our_records(case)() / RECORD_BYTES;
    let bytes = bytes_by_second(case)() / RECORD_BYTES;
    let counts = [
        exports::count(&case.file) as usize,
        count_by_second(&case.file),
    ];
    if [records, bytes, counts[0], counts[1]] == [rows; 4] {
        Ok(rows)
    } else {
        Err(io::Error::other(format!(
            "{rows} records, but {records} and {bytes} written and {counts:?} counted"
        )))
    }
}

/// Writes the records with the proved function.
fn our_records(case: &Case) -> impl FnMut() -> usize + '_ {
    let mut out = vec![0; case.rows_lent() * RECORD_BYTES];
    move || exports::records(black_box(&case.file), &mut out) as usize
}

/// Makes the records with the second program, and writes them as the same bytes.
fn bytes_by_second(case: &Case) -> impl FnMut() -> usize + '_ {
    let mut out = vec![0; case.rows_lent() * RECORD_BYTES];
    move || {
        let records = asdf_second::records(black_box(&case.file)).unwrap_or_default();
        let places = out.chunks_exact_mut(RECORD_BYTES);
        for (record, place) in records.iter().zip(places) {
            let numbers = record_numbers(record);
            for (number, bytes) in numbers.iter().zip(place.chunks_exact_mut(NUMBER_BYTES)) {
                bytes.copy_from_slice(&number.to_be_bytes());
            }
        }
        black_box(&mut out);
        records.len() * RECORD_BYTES
    }
}

/// How many records the second program makes.
fn records_by_second(file: &[u8]) -> usize {
    black_box(asdf_second::records(file)).map_or(0, |records| records.len())
}

/// How many rows the second program counts.
fn count_by_second(file: &[u8]) -> usize {
    asdf_second::row_count(file).unwrap_or(0)
}
