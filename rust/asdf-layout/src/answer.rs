//! Turns the numbers that proved functions return into results, and reads numbers from a buffer.

use crate::Refusal;
use asdf_sys::{LEAST_BLOCK, NUMBER_BYTES};

/// If a file has at most this many rows, they are written at the first try.
const USUAL_ROWS: usize = 64;
/// A buffer of at most this length is made for as many rows as a file can have.
const MOST_UNCOUNTED: usize = 1 << 20;

/// Returns a count, or the refusal.
pub(crate) fn answer(word: u64) -> Result<u64, Refusal> {
    asdf_sys::answer(word).map_err(|(number, place)| Refusal { number, place })
}

/// Returns what a function writes into a buffer of `most` bytes.
pub(crate) fn written(most: usize, ask: impl FnOnce(&mut [u8]) -> u64) -> Result<Vec<u8>, Refusal> {
    let mut out = vec![0; most];
    let length = answer(ask(&mut out))?;
    out.truncate(length as usize);
    Ok(out)
}

/// Returns all rows of a file, each of `row_bytes` bytes.
///
/// One call is enough for a file with few rows, and for a short file: its length says how many rows
/// it can have. The rows of other files are counted, and a second call writes them.
pub(crate) fn written_rows(
    file: &[u8],
    row_bytes: usize,
    write: fn(&[u8], &mut [u8]) -> u64,
) -> Result<Vec<u8>, Refusal> {
    let rows_in = |rows| written(rows * row_bytes, |out| write(file, out));
    let possible = file.len() / LEAST_BLOCK;
    let first_try = match possible <= MOST_UNCOUNTED / row_bytes {
        true => possible,
        false => USUAL_ROWS,
    };
    match rows_in(first_try) {
        Err(refusal) if refusal.number == Refusal::BUFFER_TOO_SHORT => {
            rows_in(crate::row_count(file)? as usize)
        }
        rows => rows,
    }
}

/// Returns the `N` numbers that a function writes, or `None` if it writes none.
pub(crate) fn numbers<const N: usize>(
    ask: impl FnOnce(&mut [u8]) -> u64,
) -> Result<Option<[u64; N]>, Refusal> {
    let bytes = written(N * NUMBER_BYTES, ask)?;
    Ok((!bytes.is_empty()).then(|| numbers_of(&bytes)))
}

/// Reads `N` numbers from the start of a buffer.
pub(crate) fn numbers_of<const N: usize>(bytes: &[u8]) -> [u64; N] {
    let (numbers, _) = bytes.as_chunks();
    std::array::from_fn(|k| u64::from_be_bytes(numbers[k]))
}
