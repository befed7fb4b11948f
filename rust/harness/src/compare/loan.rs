//! Lends a buffer, and checks every byte of it and around it after the call.

use crate::calls::numbers::{numbers_of, NUMBER_BYTES};
use crate::calls::returned::{result_of, Expected};
use crate::format::refusals::{of_whole, BUFFER_TOO_SHORT};
use crate::same::same;
use asdf_second::Refusal;
use std::ops::Range;

/// The minimum number of bytes that are watched before and after a lent buffer.
const AROUND: usize = 16;

/// A buffer that is lent. It is in the middle of bytes that are watched too.
#[derive(Clone, Copy)]
pub struct Loan {
    pub length: usize,
    pub filling: usize,
}

impl Loan {
    /// A buffer that is as long as these bytes.
    pub fn of(bytes: &[u8]) -> Loan {
        Loan {
            length: bytes.len(),
            filling: bytes.len(),
        }
    }

    /// The part that is lent. Its start modulo 8 depends on `filling` and may be any number from 0
    /// to 7.
    fn stretch(self) -> Range<usize> {
        let start = AROUND + self.filling % NUMBER_BYTES;
        start..start + self.length
    }

    /// All bytes before the call. No two neighbours are equal.
    fn filled(self) -> Vec<u8> {
        let watched = self.stretch().end + AROUND;
        let byte = |place| (self.filling + 37 * place) as u8;
        (0..watched).map(byte).collect()
    }

    /// All bytes, with these at the start of the part that is lent.
    fn holding(self, bytes: &[u8]) -> Vec<u8> {
        let mut all = self.filled();
        all[self.stretch()][..bytes.len()].copy_from_slice(bytes);
        all
    }

    /// The answer that is expected with a buffer of this length.
    pub fn answer(self, expected: &Expected) -> Result<&[u8], Refusal> {
        match expected {
            Err(refusal) => Err(*refusal),
            Ok(bytes) if bytes.len() > self.length => Err(of_whole(BUFFER_TOO_SHORT)),
            Ok(bytes) => Ok(bytes),
        }
    }

    /// Asks a function. Compares what it returns, and every byte of the buffer and around it.
    pub fn check(
        self,
        expected: Result<&[u8], Refusal>,
        ask: impl Fn(&mut [u8]) -> u64,
    ) -> Result<(), String> {
        let mut bytes = self.filled();
        let word = ask(&mut bytes[self.stretch()]);
        let returned = expected.map(|written| written.len() as u64);
        same("returned", result_of(word), returned)?;
        self.check_bytes(&bytes, expected.unwrap_or(&[]))
    }

    /// Lends a file to an edit. Compares what is returned, and every byte of the file and around
    /// it. Returns the file as it was left.
    pub fn check_edit(
        self,
        file: &[u8],
        expected: &Expected,
        edit: impl Fn(&mut [u8]) -> u64,
    ) -> Result<Vec<u8>, String> {
        let mut bytes = self.holding(file);
        let word = edit(&mut bytes[self.stretch()]);
        let returned = expected.as_ref().map(|_| 0).map_err(|&refusal| refusal);
        same("returned", result_of(word), returned)?;
        self.check_bytes(&bytes, expected.as_deref().unwrap_or(file))?;
        Ok(bytes[self.stretch()].to_vec())
    }

    /// Compares all bytes after a call that had to leave the bytes `written` at the start of the
    /// lent part.
    fn check_bytes(self, bytes: &[u8], written: &[u8]) -> Result<(), String> {
        let left = self.holding(written);
        if bytes == left {
            return Ok(());
        }
        self.difference(bytes, &left, written.len())
    }

    /// Reports where `bytes` differs from `left`, which is what the call had to leave. The first
    /// `written` bytes of the lent part are the result.
    fn difference(self, bytes: &[u8], left: &[u8], written: usize) -> Result<(), String> {
        let result = self.stretch().start..self.stretch().start + written;
        same_result(&bytes[result.clone()], &left[result.clone()])?;
        let changed = (0..bytes.len()).find(|&place| bytes[place] != left[place]);
        let from_start = changed.map(|place| place as isize - result.start as isize);
        same("changed byte, from the buffer's start", from_start, None)
    }
}

/// Compares a result byte by byte. The message for a difference also names the number that holds
/// it.
fn same_result(found: &[u8], expected: &[u8]) -> Result<(), String> {
    let Some(place) = (0..expected.len()).find(|&place| found[place] != expected[place]) else {
        return Ok(());
    };
    let number = place / NUMBER_BYTES;
    let shown = |bytes| numbers_of(bytes).get(number).copied();
    let (found_number, expected_number) = (shown(found), shown(expected));
    Err(format!(
        "result, byte {place}: {:#04X} instead of {:#04X}; number {number}: {found_number:?} instead of {expected_number:?}",
        found[place], expected[place]
    ))
}

#[cfg(test)]
mod tests {
    use super::*;
    use crate::calls::numbers::bytes_of;
    use asdf_sys::PLACE_BITS;

    const LOAN: Loan = Loan {
        length: 20,
        filling: 3,
    };

    /// What the check reports about a function that returns `word` and writes these bytes.
    fn said(expected: Result<&[u8], Refusal>, word: u64, written: &[u8]) -> Result<(), String> {
        LOAN.check(expected, |out| {
            out[..written.len()].copy_from_slice(written);
            word
        })
    }

    #[test]
    fn wrong_number_count_and_refusal_are_found_out() {
        let right = bytes_of(&[5, 6]);
        assert_eq!(said(Ok(&right), 16, &right), Ok(()));
        assert!(said(Ok(&bytes_of(&[5, 7])), 16, &right).is_err());
        assert!(said(Ok(&right), 8, &right).is_err());
        assert!(said(Ok(&right), 21 << PLACE_BITS, &right).is_err());
        let refusal = Refusal {
            number: 7,
            place: 12,
        };
        assert_eq!(said(Err(refusal), 7 << PLACE_BITS | 12, b""), Ok(()));
        assert!(said(Err(refusal), 7 << PLACE_BITS | 13, b"").is_err());
    }

    #[test]
    fn byte_changed_after_the_result_or_by_a_refusal_is_found_out() {
        let right = bytes_of(&[5, 6]);
        let mut longer = right.clone();
        longer.push(!LOAN.filled()[LOAN.stretch().start + 16]);
        assert!(said(Ok(&right), 16, &longer).is_err());
        let first = !LOAN.filled()[LOAN.stretch().start];
        assert!(said(Err(of_whole(21)), 21 << PLACE_BITS, &[first]).is_err());
    }

    #[test]
    fn too_short_buffer_is_refused_with_21_and_a_refused_file_with_its_own() {
        let (fits, too_long) = (vec![1; 20], vec![1; 21]);
        assert_eq!(LOAN.answer(&Ok(too_long)), Err(of_whole(21)));
        assert_eq!(LOAN.answer(&Err(of_whole(2))), Err(of_whole(2)));
        assert_eq!(LOAN.answer(&Ok(fits.clone())), Ok(&fits[..]));
    }
}
