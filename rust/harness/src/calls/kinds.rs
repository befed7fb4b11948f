//! Counts the calls of the proved functions by function, by buffer and by answer.

use super::numbers::{BLOCK_NUMBERS, LAYOUT_NUMBERS, NUMBER_BYTES, RECORD_NUMBERS, ROW_NUMBERS};
use std::collections::BTreeMap;
use std::fmt;

/// A proved function.
#[derive(Debug, Clone, Copy, PartialEq, Eq, PartialOrd, Ord)]
pub enum Function {
    Read,
    Block,
    Count,
    Outline,
    Record,
    Records,
    Index,
    StoredCount,
    StoredRow,
    StoredRows,
    Rewrite,
    Edit,
}

/// The length of a lent buffer, compared with the length of the result.
#[derive(Debug, Clone, Copy, PartialEq, Eq, PartialOrd, Ord)]
pub enum Buffer {
    /// No buffer is lent.
    No,
    Exact,
    Short,
    Empty,
    Long,
}

/// What a call resulted in.
#[derive(Debug, Clone, Copy, PartialEq, Eq, PartialOrd, Ord)]
pub enum Answer {
    Counted,
    Written,
    Nothing,
    TooShort,
    FileRefused,
    NoIndex,
    WrongLength,
    WrongRow,
    Edited,
    NoTree,
    NotOneTree,
    TooLong,
}

/// A kind of call.
#[derive(Debug, Clone, Copy, PartialEq, Eq, PartialOrd, Ord)]
pub struct Call {
    pub function: Function,
    pub buffer: Buffer,
    pub answer: Answer,
}

impl Function {
    const ALL: [Function; 12] = [
        Function::Read,
        Function::Block,
        Function::Count,
        Function::Outline,
        Function::Record,
        Function::Records,
        Function::Index,
        Function::StoredCount,
        Function::StoredRow,
        Function::StoredRows,
        Function::Rewrite,
        Function::Edit,
    ];

    /// Whether the function is lent a stored outline and not a file.
    fn is_of_stored(self) -> bool {
        matches!(
            self,
            Function::StoredCount | Function::StoredRow | Function::StoredRows | Function::Rewrite
        )
    }

    /// Whether the function only counts.
    fn is_count(self) -> bool {
        matches!(self, Function::Count | Function::StoredCount)
    }

    /// Whether the function is lent a buffer for its result.
    fn is_lent_buffer(self) -> bool {
        !self.is_count() && self != Function::Edit
    }

    /// The length of the result in bytes, if every result that is not empty has the same length.
    pub fn result_bytes(self) -> Option<usize> {
        let numbers = match self {
            Function::Read => LAYOUT_NUMBERS,
            Function::Block => BLOCK_NUMBERS,
            Function::Record => RECORD_NUMBERS,
            Function::StoredRow => ROW_NUMBERS,
            _ => return None,
        };
        Some(numbers * NUMBER_BYTES)
    }

    /// Whether the function always writes something if it succeeds.
    fn finds_something(self) -> bool {
        matches!(self, Function::Read | Function::Index)
    }
}

impl Buffer {
    /// The kinds of buffer that are lent.
    pub const LENT: [Buffer; 4] = [Buffer::Exact, Buffer::Short, Buffer::Empty, Buffer::Long];
    const ALL: [Buffer; 5] = [
        Buffer::No,
        Buffer::Exact,
        Buffer::Short,
        Buffer::Empty,
        Buffer::Long,
    ];

    /// How many bytes longer than the result a long buffer is.
    const SPARE: usize = 21;

    /// The length of this buffer for a result of `result` bytes. If the result is empty, a short
    /// buffer is empty too, because no buffer can be shorter.
    pub fn length(self, result: usize) -> usize {
        match self {
            Buffer::Exact => result,
            Buffer::Short => result.saturating_sub(1),
            Buffer::No | Buffer::Empty => 0,
            Buffer::Long => result + Buffer::SPARE,
        }
    }
}

impl Answer {
    const ALL: [Answer; 12] = [
        Answer::Counted,
        Answer::Written,
        Answer::Nothing,
        Answer::TooShort,
        Answer::FileRefused,
        Answer::NoIndex,
        Answer::WrongLength,
        Answer::WrongRow,
        Answer::Edited,
        Answer::NoTree,
        Answer::NotOneTree,
        Answer::TooLong,
    ];
}

impl Call {
    /// Whether a call of this kind can occur at all.
    fn is_possible(&self) -> bool {
        let lends = self.buffer != Buffer::No;
        let fits = matches!(self.buffer, Buffer::Exact | Buffer::Long);
        let answers = match self.answer {
            Answer::Counted => self.function.is_count(),
            Answer::Written => fits,
            Answer::Nothing => lends && !self.function.finds_something(),
            Answer::TooShort => lends && !fits,
            Answer::FileRefused => !self.function.is_of_stored(),
            Answer::NoIndex => self.function == Function::Index,
            Answer::WrongLength | Answer::WrongRow => self.function.is_of_stored(),
            Answer::Edited | Answer::NoTree | Answer::NotOneTree | Answer::TooLong => {
                self.function == Function::Edit
            }
        };
        answers && lends == self.function.is_lent_buffer()
    }

    /// Every combination of function, buffer and answer, whether or not it is possible.
    fn all() -> impl Iterator<Item = Call> {
        Function::ALL.into_iter().flat_map(|function| {
            Buffer::ALL.into_iter().flat_map(move |buffer| {
                Answer::ALL.into_iter().map(move |answer| Call {
                    function,
                    buffer,
                    answer,
                })
            })
        })
    }
}

impl fmt::Display for Function {
    fn fmt(&self, f: &mut fmt::Formatter<'_>) -> fmt::Result {
        f.write_str(match self {
            Function::Read => "asdf_read",
            Function::Block => "asdf_block",
            Function::Count => "asdf_count",
            Function::Outline => "asdf_outline",
            Function::Record => "asdf_record",
            Function::Records => "asdf_records",
            Function::Index => "asdf_index",
            Function::StoredCount => "asdf_stored_count",
            Function::StoredRow => "asdf_stored_row",
            Function::StoredRows => "asdf_stored_rows",
            Function::Rewrite => "asdf_rewrite",
            Function::Edit => "asdf_edit",
        })
    }
}

impl fmt::Display for Call {
    fn fmt(&self, f: &mut fmt::Formatter<'_>) -> fmt::Result {
        let buffer = match self.buffer {
            Buffer::No => "no",
            Buffer::Exact => "exact",
            Buffer::Short => "one byte short",
            Buffer::Empty => "empty",
            Buffer::Long => "long",
        };
        let answer = match self.answer {
            Answer::Counted => "counted",
            Answer::Written => "written",
            Answer::Nothing => "nothing there",
            Answer::TooShort => "refused 21",
            Answer::FileRefused => "file refused",
            Answer::NoIndex => "refused 22",
            Answer::WrongLength => "refused 23",
            Answer::WrongRow => "refused 24",
            Answer::Edited => "edited",
            Answer::NoTree => "refused 18",
            Answer::NotOneTree => "refused 19",
            Answer::TooLong => "refused 20",
        };
        write!(f, "{}, {buffer} buffer: {answer}", self.function)
    }
}

/// How often each kind of call occurred.
pub struct Calls {
    times: BTreeMap<Call, u64>,
}

impl Calls {
    /// Begins with no call counted. All possible kinds are there from the start, so that missing
    /// ones are seen.
    pub fn new() -> Calls {
        let possible = Call::all().filter(Call::is_possible);
        Calls {
            times: possible.map(|call| (call, 0)).collect(),
        }
    }

    pub fn count(&mut self, call: Call) {
        *self.times.entry(call).or_default() += 1;
    }

    /// The kinds of call that never occurred.
    pub fn missing(&self) -> Vec<String> {
        let missing = self.times.iter().filter(|(_, &times)| times == 0);
        missing.map(|(call, _)| call.to_string()).collect()
    }
}

impl fmt::Display for Calls {
    /// Writes a table with a line for each kind of call.
    fn fmt(&self, f: &mut fmt::Formatter<'_>) -> fmt::Result {
        writeln!(f, "{:<52}{:>10}", "called", "times")?;
        self.times
            .iter()
            .try_for_each(|(call, times)| writeln!(f, "{:<52}{times:>10}", call.to_string()))
    }
}

#[cfg(test)]
mod tests {
    use super::*;

    #[test]
    fn counted_call_is_no_longer_missing() {
        let mut calls = Calls::new();
        let missing = calls.missing();
        calls.count(Call {
            function: Function::Read,
            buffer: Buffer::Short,
            answer: Answer::TooShort,
        });
        let counted = "asdf_read, one byte short buffer: refused 21".to_string();
        assert!(missing.contains(&counted));
        assert!(!calls.missing().contains(&counted));
        assert_eq!(calls.missing().len(), missing.len() - 1);
    }

    #[test]
    fn only_what_can_come_is_asked_for() {
        let missing = Calls::new().missing();
        let of = |name: &str| missing.iter().filter(|call| call.starts_with(name)).count();
        assert_eq!(of("asdf_read,"), 8);
        assert_eq!(of("asdf_block,"), 12);
        assert_eq!(of("asdf_count,"), 2);
        assert_eq!(of("asdf_index,"), 12);
        assert_eq!(of("asdf_stored_count,"), 3);
        assert_eq!(of("asdf_stored_rows,"), 16);
        assert_eq!(of("asdf_rewrite,"), 16);
        assert_eq!(of("asdf_edit,"), 5);
    }
}
