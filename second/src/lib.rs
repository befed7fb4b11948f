//! The second program: an independent reader of the ASDF file layout.
//!
//! It works on plain slices, keeps nothing between calls and exists to be compared with the
//! verified implementation. The rules of the order decide first, with the requests W-201 (index
//! written with dashes), W-204 (space between blocks) and W-205 (DOS files stay DOS). The ASDF
//! standard 1.1.1 (file layout) decides next. NOTES.md lists what was decided where these documents
//! leave room.

#![forbid(unsafe_code)]

mod block;
mod edit;
mod header;
mod index;
mod index_form;
mod index_writer;
mod layout;
mod line;
mod listing;
mod offset;
mod outline;
mod records;
mod refusal;
mod tree;
mod zeros;

pub use block::Block;
pub use edit::edit;
pub use header::Version;
pub use index::Verdict;
pub use index_writer::{write_index, LONGEST_INDEX};
pub use layout::{read, Layout, Stretch, Tree};
pub use line::LineEnd;
pub use listing::{listing, PROGRAM_LIMIT};
pub use offset::{InFile, Outermost};
pub use outline::{
    most_rows, outline, read_outline, rewrite_outline, row_count, rows, InnerKind, Row, ROW_LENGTH,
};
pub use records::{records, Inner, Record};
pub use refusal::Refusal;
