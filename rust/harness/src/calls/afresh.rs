//! What the proved functions report about a file. Every buffer that is lent fits exactly.

use super::exports;
use super::numbers::{numbers_of, LAYOUT_BYTES, NUMBER_BYTES, RECORD_NUMBERS};
use super::returned::{result_in, result_of, Expected};
use asdf_second::{Refusal, ROW_LENGTH};

/// The numbers of the layout.
pub fn layout(file: &[u8]) -> Result<Vec<u64>, Refusal> {
    let bytes = result_in(LAYOUT_BYTES, |out| exports::read(file, out))?;
    Ok(numbers_of(&bytes))
}

/// How many rows there are.
pub fn count(file: &[u8]) -> Result<usize, Refusal> {
    result_of(exports::count(file)).map(|count| count as usize)
}

/// The bytes of the outline.
pub fn outline(file: &[u8]) -> Expected {
    let length = count(file)? * ROW_LENGTH;
    result_in(length, |out| exports::outline(file, out))
}

/// The bytes of all records.
pub fn records(file: &[u8]) -> Expected {
    let length = count(file)? * RECORD_NUMBERS * NUMBER_BYTES;
    result_in(length, |out| exports::records(file, out))
}
