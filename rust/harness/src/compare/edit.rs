//! Compares the proved edit with the edit of the second program, and reads the edited file again.

use super::asked::compare_edited;
use crate::calls::kinds::Calls;
use crate::calls::returned::{result_of, Expected};
use crate::calls::{afresh, exports};
use crate::files::edits::{LongEdit, TEXT};
use crate::generate::corpus::Edit;
use crate::same::same;
use std::io;
use std::ops::Range;

/// Compares an edit with the outcome of the second program's edit, which is `expected`. Fails if
/// the edit returns something else or leaves other bytes. Also fails if the file that it leaves
/// does not read as it has to.
pub fn compare(
    pair: &Edit,
    expected: &Expected,
    edit: impl Fn(&mut [u8], &[u8]) -> u64,
    calls: &mut Calls,
) -> Result<(), String> {
    let text = pair.text.clone();
    let left = compare_edited(&pair.file, expected, |file| edit(file, &text), calls)?;
    same("text after the edit", &text, &pair.text)?;
    if expected.is_ok() {
        check_edited(&pair.file, &left, &text)?;
    }
    Ok(())
}

/// Edits the file with the second program. If this program refuses the edit, it has to leave the
/// file as it was.
pub fn edited_by_second(pair: &Edit) -> Result<Expected, String> {
    let mut file = pair.file.clone();
    let outcome = asdf_second::edit(&mut file, &pair.text);
    if outcome.is_err() {
        same(
            "file after the second program refused the edit",
            &file,
            &pair.file,
        )?;
    }
    Ok(outcome.map(|()| file))
}

/// Makes a long edit with both programs, and compares the outcomes with the one that is stated by
/// hand.
pub fn compare_long(edit: &LongEdit, before: &[u8]) -> io::Result<Result<(), String>> {
    let (mut ours, mut second) = (edit.file()?, edit.file()?);
    let our_outcome = result_of(exports::edit(ours.lend()?, TEXT));
    let second_outcome = asdf_second::edit(second.lend()?, TEXT);
    let checked = same("returned", our_outcome, edit.outcome.map(|()| 0))
        .and_then(|()| same("second program", second_outcome, edit.outcome))
        .and_then(|()| check_left(edit, before, &ours))
        .and_then(|()| check_left(edit, before, &second));
    Ok(checked)
}

/// Checks that a long edit left the file as it has to.
fn check_left(edit: &LongEdit, before: &[u8], after: &[u8]) -> Result<(), String> {
    match edit.outcome {
        Ok(()) => check_edited(before, after, TEXT),
        Err(_) => same("file unchanged", after == before, true),
    }
}

/// Checks that an edited file has the text in the room of its tree and is otherwise what it was
/// before. This is checked for every byte, and for all that the proved functions report about both
/// files.
fn check_edited(before: &[u8], after: &[u8], text: &[u8]) -> Result<(), String> {
    let mut expected = afresh::layout(before);
    let mut room = 0..0;
    if let Ok([.., start, end, room_end, _blocks, _verdict, _line_end]) = expected.as_deref_mut() {
        room = *start as usize..*room_end as usize;
        *end = *start + text.len() as u64;
    }
    check_bytes(before, after, text, room)?;
    same("layout after the edit", afresh::layout(after), expected)?;
    let outlines = [after, before].map(afresh::outline);
    let records = [after, before].map(afresh::records);
    let [after, before] = outlines;
    same("outline after the edit", after, before)?;
    let [after, before] = records;
    same("records after the edit", after, before)
}

/// Checks that the room holds the text and then spaces, and that every other byte is as it was.
fn check_bytes(before: &[u8], after: &[u8], text: &[u8], room: Range<usize>) -> Result<(), String> {
    same("length", after.len(), before.len())?;
    let (front, rest) = (..room.start, room.end..);
    same("bytes before the room", after[front] == before[front], true)?;
    let kept = after[rest.clone()] == before[rest];
    same("bytes after the room", kept, true)?;
    let spaces = after[room].strip_prefix(text);
    let only_spaces = spaces.map(|spaces| spaces.iter().all(|&byte| byte == b' '));
    same("text and only spaces in the room", only_spaces, Some(true))
}

#[cfg(test)]
mod tests {
    use super::*;
    use crate::format::block::block_header;
    use crate::format::text::{HEADER_LINE, LEAST_TREE};

    /// A file with a tree, free space and a block.
    fn file() -> Vec<u8> {
        let tree: &[u8] = b"%YAML 1.1\n---\nabc\n...\n";
        [HEADER_LINE, tree, b"free", &block_header(0, 0)].concat()
    }

    /// What the comparison reports about this edit, made with this text.
    fn said(text: &[u8], edit: impl Fn(&mut [u8], &[u8]) -> u64) -> Result<(), String> {
        let pair = Edit {
            file: file(),
            text: text.to_vec(),
        };
        let expected = edited_by_second(&pair)?;
        compare(&pair, &expected, edit, &mut Calls::new())
    }

    #[test]
    fn proved_edit_is_taken() {
        let too_long = [b"%YAML 1.1\n--- ", &[b'x'; 20][..], b"\n...\n"].concat();
        for text in [LEAST_TREE, b"", &too_long] {
            assert_eq!(said(text, exports::edit), Ok(()));
        }
    }

    #[test]
    fn byte_written_into_the_block_is_found_out() {
        let block = file().len() - 54;
        let edit = |file: &mut [u8], text: &[u8]| {
            let word = exports::edit(file, text);
            file[block] = b' ';
            word
        };
        assert!(said(LEAST_TREE, edit).is_err());
    }

    #[test]
    fn forgotten_spaces_are_found_out() {
        let edit = |file: &mut [u8], text: &[u8]| {
            file[HEADER_LINE.len()..][..text.len()].copy_from_slice(text);
            0
        };
        assert!(said(LEAST_TREE, edit).is_err());
    }

    #[test]
    fn text_one_byte_too_long_is_found_out_if_it_is_taken() {
        let text = b"%YAML 1.1\n---\nabcdefgh\n...\n";
        assert_eq!(said(text, exports::edit), Ok(()));
        let edit = |file: &mut [u8], text: &[u8]| {
            file[HEADER_LINE.len()..][..text.len()].copy_from_slice(text);
            0
        };
        assert!(said(text, edit).is_err());
    }

    #[test]
    fn other_bytes_and_another_tree_are_found_out_by_reading_afresh() {
        let before = file();
        let mut edited = before.clone();
        assert_eq!(exports::edit(&mut edited, LEAST_TREE), 0);
        assert_eq!(check_edited(&before, &edited, LEAST_TREE), Ok(()));
        for place in 0..edited.len() {
            let mut other = edited.clone();
            other[place] ^= 1;
            assert!(check_edited(&before, &other, LEAST_TREE).is_err());
        }
        assert!(check_edited(&before, &before, LEAST_TREE).is_err());
    }
}
