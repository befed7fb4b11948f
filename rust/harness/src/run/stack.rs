//! Shows how much stack the proved functions need on the files that make them go deepest.

use crate::calls::numbers::{NUMBER_BYTES, RECORD_NUMBERS};
use crate::calls::returned::{result_in, Expected};
use crate::calls::{afresh, exports};
use crate::files::nests::deepest;
use crate::same::same;
use std::io;
use std::thread;

/// What the walk of one file gives.
#[derive(Debug, PartialEq)]
struct Walked {
    count: u64,
    outline: Expected,
    records: Expected,
    last: Expected,
}

/// Walks the deepest files in a thread with a stack of `bytes` bytes. Compares the outcome with a
/// walk on the stack of the calling thread. A stack that is too small ends the whole process.
pub fn walk_with_stack(bytes: usize) -> io::Result<Result<(), String>> {
    let files = deepest();
    let expected: Vec<Walked> = files.iter().map(|file| walked(file)).collect();
    let walk = move || files.iter().map(|file| walked(file)).collect();
    let thread = thread::Builder::new().stack_size(bytes).spawn(walk)?;
    let found: Option<Vec<Walked>> = thread.join().ok();
    Ok(same("walk with a small stack", found, Some(expected)))
}

/// What the functions for count, outline, records and the last record give for a file.
fn walked(file: &[u8]) -> Walked {
    let count = exports::count(file);
    let length = RECORD_NUMBERS * NUMBER_BYTES;
    let last = result_in(length, |out| exports::record(file, count - 1, out));
    Walked {
        count,
        outline: afresh::outline(file),
        records: afresh::records(file),
        last,
    }
}
