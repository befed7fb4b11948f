//! What the second program reports about an edit.

use super::file::Answers;
use crate::format::text::HEADER_LINE;
use asdf_second::{read, Layout, Refusal, Tree};

/// What is reported about a file and a text for its tree.
pub struct EditAnswers {
    pub text: Vec<u8>,
    /// The answers for the file before the edit.
    pub file: Answers,
    /// How the text reads after a header line.
    pub text_read: Result<Layout, Refusal>,
    /// Whether the edit was made, or how it was refused.
    pub outcome: Result<(), Refusal>,
}

impl EditAnswers {
    /// Asks the second program about the file and the text. `outcome` is the outcome of the edit
    /// itself.
    pub fn to(file: &[u8], text: &[u8], outcome: Result<(), Refusal>) -> EditAnswers {
        EditAnswers {
            text: text.to_vec(),
            file: Answers::to(file),
            text_read: after_header(text),
            outcome,
        }
    }

    /// The place at which the edit is refused, if it is refused with this number.
    pub fn refused_with(&self, number: u8) -> Option<usize> {
        let refusal = self.outcome.err()?;
        (refusal.number == number).then_some(refusal.place as usize)
    }

    /// The place at which the text is refused, if it is refused with this number. It is counted
    /// from the first byte of the text.
    pub fn text_refused_with(&self, number: u8) -> Option<usize> {
        let refusal = self.text_read.as_ref().err()?;
        let place = (refusal.place as usize).checked_sub(HEADER_LINE.len())?;
        (refusal.number == number).then_some(place)
    }

    /// The bytes after the tree at the start of the text, if there is one.
    pub fn after_tree(&self) -> Option<&[u8]> {
        let end = leading_tree_end(&self.text_read)?;
        self.text.get(end..)
    }
}

/// How a text reads after a header line.
fn after_header(text: &[u8]) -> Result<Layout, Refusal> {
    read(&[HEADER_LINE, text].concat())
}

/// Where the tree at the start of a text ends, if there is one.
fn leading_tree_end(read: &Result<Layout, Refusal>) -> Option<usize> {
    let tree: Tree = read.as_ref().ok()?.tree?;
    let begins = tree.start.0 as usize == HEADER_LINE.len();
    begins.then(|| tree.end.0 as usize - HEADER_LINE.len())
}

/// Whether a text is exactly one tree.
pub fn is_one_tree(text: &[u8]) -> bool {
    leading_tree_end(&after_header(text)) == Some(text.len())
}
