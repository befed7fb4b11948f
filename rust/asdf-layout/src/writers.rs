//! Writes the text of a block index, and replaces a tree.

use crate::answer::{answer, written};
use crate::Refusal;
use asdf_sys::LONGEST_INDEX;

/// Returns the text of a block index for a file.
///
/// The index is in brackets, and is to be placed directly after the last block. Its lines end as
/// the header line does.
///
/// ```
/// use asdf_layout::{index_text, Layout, Verdict};
///
/// let mut file = b"#ASDF 1.0.0\n\xD3BLK\0\x30".to_vec();
/// file.extend([0; 48]);
/// let text = index_text(&file)?;
/// assert_eq!(text, b"#ASDF BLOCK INDEX\n%YAML 1.1\n--- [12]\n...\n");
/// file.extend(text);
/// assert_eq!(Layout::read(&file)?.index, Verdict::Good);
/// # Ok::<(), asdf_layout::Refusal>(())
/// ```
pub fn index_text(file: &[u8]) -> Result<Vec<u8>, Refusal> {
    written(LONGEST_INDEX, |out| asdf_sys::index(file, out))
}

/// Replaces the tree of a file by a text that is exactly one tree.
///
/// The rest of the room is filled with spaces. A refusal changes no byte.
///
/// ```
/// use asdf_layout::{edit, Refusal};
///
/// let mut file = b"#ASDF 1.0.0\n%YAML 1.1\n---\n...\n     ".to_vec();
/// edit(&mut file, b"%YAML 1.1\n---\na: 1\n...\n")?;
/// assert_eq!(file, b"#ASDF 1.0.0\n%YAML 1.1\n---\na: 1\n...\n");
///
/// let refusal = edit(&mut file, b"%YAML 1.1\n---\na: 12\n...\n").unwrap_err();
/// assert_eq!(refusal.number, Refusal::TEXT_LONGER_THAN_ROOM);
/// # Ok::<(), Refusal>(())
/// ```
pub fn edit(file: &mut [u8], text: &[u8]) -> Result<(), Refusal> {
    answer(asdf_sys::edit(file, text)).map(|_| ())
}
