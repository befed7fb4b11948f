//! Asks a proved function with buffers of each kind, and compares its answer with the expected one.

use super::loan::Loan;
use crate::calls::kinds::{Answer, Buffer, Call, Calls, Function};
use crate::calls::returned::{result_of, Expected};
use crate::format::refusals::{
    BUFFER_TOO_SHORT, EDIT_WITHOUT_TREE, NO_INDEX_POSSIBLE, OUTLINE_LENGTH, OUTLINE_ROW,
    TEXT_LONGER_THAN_ROOM, TEXT_NOT_ONE_TREE,
};
use crate::rng::Rng;
use crate::same::same;
use asdf_second::Refusal;

/// The length that counts as exact if a writer refuses, because then there is no result to measure.
const USUAL_RESULT: usize = 48;

/// A function that is asked, and the answer that it has to give.
pub struct Asked {
    function: Function,
    /// The length of a buffer that fits exactly.
    exact: usize,
    expected: Expected,
    /// Decides what fills the buffers and where in memory they begin.
    filling: usize,
}

impl Asked {
    /// Prepares the question. `filling` may be any number.
    pub fn new(function: Function, expected: Expected, filling: usize) -> Asked {
        let usual = function.result_bytes();
        let exact = usual.or(expected.as_ref().ok().map(Vec::len));
        Asked {
            function,
            exact: exact.unwrap_or(USUAL_RESULT),
            expected,
            filling,
        }
    }

    /// Asks with a buffer of each kind.
    pub fn compare(&self, ask: impl Fn(&mut [u8]) -> u64, calls: &mut Calls) -> Result<(), String> {
        Buffer::LENT
            .into_iter()
            .try_for_each(|buffer| self.compare_with(buffer, &ask, calls))
    }

    /// Asks with a buffer of one kind.
    fn compare_with(
        &self,
        buffer: Buffer,
        ask: impl Fn(&mut [u8]) -> u64,
        calls: &mut Calls,
    ) -> Result<(), String> {
        let loan = Loan {
            length: buffer.length(self.exact),
            filling: self.filling,
        };
        let expected = loan.answer(&self.expected);
        let call = Call {
            function: self.function,
            buffer,
            answer: kind_of(expected),
        };
        calls.count(call);
        loan.check(expected, ask)
            .map_err(|reason| format!("{call}: {reason}"))
    }
}

/// Asks for the item with each of these numbers, with a buffer of each kind.
pub fn compare_numbered(
    function: Function,
    mut numbers: impl Iterator<Item = u64>,
    filling: usize,
    expected: impl Fn(u64) -> Expected,
    ask: impl Fn(u64, &mut [u8]) -> u64,
    calls: &mut Calls,
) -> Result<(), String> {
    numbers.try_for_each(|number| {
        Asked::new(function, expected(number), filling)
            .compare(|out| ask(number, out), calls)
            .map_err(|reason| format!("number {number}: {reason}"))
    })
}

/// Compares `word`, which was returned by a function that only counts.
pub fn compare_count(
    function: Function,
    expected: Result<usize, Refusal>,
    word: u64,
    calls: &mut Calls,
) -> Result<(), String> {
    let call = Call {
        function,
        buffer: Buffer::No,
        answer: expected.map_or_else(kind_of_refusal, |_| Answer::Counted),
    };
    calls.count(call);
    let expected = expected.map(|count| count as u64);
    same("returned", result_of(word), expected).map_err(|reason| format!("{call}: {reason}"))
}

/// Compares what an edit returns, and every byte of the file and around it. Returns the file as the
/// edit left it.
pub fn compare_edited(
    file: &[u8],
    expected: &Expected,
    edit: impl Fn(&mut [u8]) -> u64,
    calls: &mut Calls,
) -> Result<Vec<u8>, String> {
    let answer = expected.as_ref().map(|_| Answer::Edited);
    let call = Call {
        function: Function::Edit,
        buffer: Buffer::No,
        answer: answer.unwrap_or_else(|refusal| kind_of_refusal(*refusal)),
    };
    calls.count(call);
    Loan::of(file)
        .check_edit(file, expected, edit)
        .map_err(|reason| format!("{call}: {reason}"))
}

/// The kind of an answer that was given with a buffer.
fn kind_of(answer: Result<&[u8], Refusal>) -> Answer {
    match answer {
        Ok([]) => Answer::Nothing,
        Ok(_) => Answer::Written,
        Err(refusal) => kind_of_refusal(refusal),
    }
}

/// The kind of a refusal.
fn kind_of_refusal(refusal: Refusal) -> Answer {
    match refusal.number {
        BUFFER_TOO_SHORT => Answer::TooShort,
        NO_INDEX_POSSIBLE => Answer::NoIndex,
        OUTLINE_LENGTH => Answer::WrongLength,
        OUTLINE_ROW => Answer::WrongRow,
        EDIT_WITHOUT_TREE => Answer::NoTree,
        TEXT_NOT_ONE_TREE => Answer::NotOneTree,
        TEXT_LONGER_THAN_ROOM => Answer::TooLong,
        _ => Answer::FileRefused,
    }
}

/// The numbers that are asked for if there are `count` items: the first, the last, the one after
/// the last, a random one, and two that are far too high. Cut to 32 bits, the first of these two
/// would be the last number.
pub fn wanted(count: usize) -> [u64; 6] {
    let next = count as u64;
    let last = next.saturating_sub(1);
    let any = Rng::for_file(0, next).below(count) as u64;
    [0, last, next, any, last + (1 << 32), u64::MAX]
}

#[cfg(test)]
mod tests {
    use super::*;
    use crate::format::refusals::of_whole;
    use asdf_sys::PLACE_BITS;

    #[test]
    fn edit_with_another_answer_or_another_byte_is_found_out() {
        let said = |expected: &Expected, word, byte| {
            let edit = |file: &mut [u8]| {
                file[1] = byte;
                word
            };
            compare_edited(b"abc", expected, edit, &mut Calls::new())
        };
        let edited = Ok(b"axc".to_vec());
        assert_eq!(said(&edited, 0, b'x'), Ok(b"axc".to_vec()));
        assert!(said(&edited, 0, b'y').is_err());
        assert!(said(&edited, 1, b'x').is_err());
        let refused = Err(of_whole(20));
        assert_eq!(said(&refused, 20 << PLACE_BITS, b'b'), Ok(b"abc".to_vec()));
        assert!(said(&refused, 20 << PLACE_BITS, b'x').is_err());
        assert!(said(&refused, 19 << PLACE_BITS, b'b').is_err());
    }

    #[test]
    fn wrong_count_is_found_out() {
        let said = |expected, word| {
            let function = Function::StoredCount;
            compare_count(function, expected, word, &mut Calls::new()).is_ok()
        };
        assert!(said(Ok(3), 3));
        assert!(!said(Ok(3), 4));
        assert!(said(Err(of_whole(23)), 23 << PLACE_BITS));
        assert!(!said(Err(of_whole(23)), 24 << PLACE_BITS));
    }

    #[test]
    fn first_last_next_and_far_numbers_are_wanted() {
        let [first, last, next, any, cut, far] = wanted(5);
        assert_eq!([first, last, next], [0, 4, 5]);
        assert!(any < 5);
        assert_eq!((cut as u32, far), (4, u64::MAX));
        assert_eq!(wanted(0)[..4], [0; 4]);
    }
}
