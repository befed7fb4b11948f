//! The spelling of an index. It is here for the modules that judge an index, write one, or only
//! have to recognise one. This module imports nothing, so that all of them can import it.

/// The first line of an index.
pub(crate) const INDEX_LINE: &[u8] = b"#ASDF BLOCK INDEX";
/// The bytes before the numbers in the bracket style.
pub(crate) const LIST_BEGIN: &[u8] = b"--- [";
/// The bytes after the numbers in the bracket style.
pub(crate) const LIST_END: &[u8] = b"]";
/// The highest number of digits that a number in the list may have.
pub(crate) const MOST_OFFSET_DIGITS: usize = 10;
