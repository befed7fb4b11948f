//! Files that are made by hand: files inside files, files at the length limit, and edits of such
//! long files.

pub mod edits;
pub(crate) mod long;
pub mod nests;
pub mod sparse;
