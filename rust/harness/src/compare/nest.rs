//! Compares the proved functions with the second program: the files inside a file, and its index.

use super::asked::{compare_count, compare_numbered, wanted, Asked};
use crate::answers::file::Answers;
use crate::calls::exports;
use crate::calls::kinds::{Calls, Function};
use crate::calls::numbers::{bytes_of, record_numbers};
use crate::calls::returned::Expected;
use asdf_second::Record;

/// Fails if count, outline, records or index differ, and says where.
pub fn compare(file: &[u8], answers: &Answers, calls: &mut Calls) -> Result<(), String> {
    let count = answers.count();
    compare_count(Function::Count, count, exports::count(file), calls)?;
    let asked = |function, expected| Asked::new(function, expected, file.len());
    let outline = asked(Function::Outline, answers.outline.clone());
    outline.compare(|out| exports::outline(file, out), calls)?;
    let records = asked(Function::Records, expected_records(answers));
    records.compare(|out| exports::records(file, out), calls)?;
    let index = asked(Function::Index, answers.index.clone());
    index.compare(|out| exports::index(file, out), calls)?;
    compare_numbered(
        Function::Record,
        wanted(count.unwrap_or(0)).into_iter(),
        file.len(),
        |number| expected_record(answers, number),
        |number, out| exports::record(file, number, out),
        calls,
    )
}

/// The bytes of all records according to the second program.
fn expected_records(answers: &Answers) -> Expected {
    let records = answers.records.as_ref().map_err(|&refusal| refusal)?;
    let bytes: Vec<Vec<u8>> = records.iter().map(record_bytes).collect();
    Ok(bytes.concat())
}

/// The bytes of one record according to the second program. There are none if there is no such
/// record.
fn expected_record(answers: &Answers, number: u64) -> Expected {
    let records = answers.records.as_ref().map_err(|&refusal| refusal)?;
    Ok(records
        .get(number as usize)
        .map_or(Vec::new(), record_bytes))
}

fn record_bytes(record: &Record) -> Vec<u8> {
    bytes_of(&record_numbers(record))
}
