//! Reads back what the proved functions write: the outline as a stored outline, and the index after
//! the last block.

use super::stored;
use crate::answers::file::Answers;
use crate::answers::stored::StoredAnswers;
use crate::calls::exports;
use crate::calls::kinds::Calls;
use crate::calls::numbers::{bytes_of, layout_numbers};
use crate::calls::returned::result_in;
use crate::same::same;
use asdf_second::{Row, Verdict, LONGEST_INDEX, ROW_LENGTH};

/// Checks that the proved functions read what they write: the outline as a stored outline, and the
/// index after the last block.
pub fn read_back(file: &[u8], answers: &Answers, calls: &mut Calls) -> Result<(), String> {
    read_outline_back(file, answers, calls).map_err(|reason| format!("read back: {reason}"))?;
    read_index_back(file, answers)
}

/// Checks that the outline is accepted as a stored outline, and that its rows are those of the
/// records.
fn read_outline_back(file: &[u8], answers: &Answers, calls: &mut Calls) -> Result<(), String> {
    let Ok(records) = &answers.records else {
        return Ok(());
    };
    let length = records.len() * ROW_LENGTH;
    let outline =
        result_in(length, |out| exports::outline(file, out)).map_err(|r| r.to_string())?;
    let expected = StoredAnswers {
        rows: Ok(records.iter().map(|record| Row::from(*record)).collect()),
        rewritten: Ok(outline.clone()),
    };
    stored::compare(&outline, &expected, calls)
}

/// Checks that a file that is cut after its last block and followed by its index reads the same,
/// with a good index.
fn read_index_back(file: &[u8], answers: &Answers) -> Result<(), String> {
    let (Ok(layout), Some(end)) = (&answers.layout, answers.chain_end()) else {
        return Ok(());
    };
    let text = result_in(LONGEST_INDEX, |out| exports::index(file, out));
    let text = text.map_err(|refusal| refusal.to_string())?;
    let indexed = [&file[..end], &text].concat();
    let mut expected = layout.clone();
    expected.index = Verdict::Good;
    let expected = bytes_of(&layout_numbers(&expected));
    let found = result_in(expected.len(), |out| exports::read(&indexed, out));
    same("file with the written index", found, Ok(expected))
}

#[cfg(test)]
mod tests {
    use super::super::nest;
    use super::*;
    use crate::files::nests::path;
    use crate::format::refusals::of_whole;
    use asdf_second::{Inner, Record};

    /// What the comparisons report if the answers for a file in a file in a file are changed.
    fn said(change: fn(&mut Answers)) -> Result<(), String> {
        let file = path(3, 2, 1, b"#ASDF ");
        let mut answers = Answers::to(&file);
        change(&mut answers);
        let mut calls = Calls::new();
        nest::compare(&file, &answers, &mut calls)?;
        read_back(&file, &answers, &mut calls)
    }

    fn change_last(answers: &mut Answers, change: fn(&mut Record)) {
        let records = answers.records.as_mut().unwrap();
        change(records.last_mut().unwrap());
    }

    #[test]
    fn right_answers_are_taken() {
        assert_eq!(said(|_| {}), Ok(()));
    }

    #[test]
    fn every_changed_answer_is_found_out() {
        let changes: [fn(&mut Answers); 8] = [
            |answers| answers.records.as_mut().unwrap().truncate(3),
            |answers| answers.records = Err(of_whole(2)),
            |answers| answers.outline.as_mut().unwrap()[20] ^= 1,
            |answers| answers.index.as_mut().unwrap()[30] ^= 1,
            |answers| change_last(answers, |record| record.depth = 3),
            |answers| change_last(answers, |record| record.offset.0 += 1),
            |answers| change_last(answers, |record| record.inner = Inner::Opened),
            |answers| answers.layout.as_mut().unwrap().header_end.0 += 1,
        ];
        for (number, change) in changes.into_iter().enumerate() {
            assert!(said(change).is_err(), "change {number}");
        }
    }
}
