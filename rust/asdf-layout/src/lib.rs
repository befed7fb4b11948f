//! The layout of ASDF files: where everything is, also in the files inside blocks.
//!
//! Every answer comes from a function that is proved to give it. This crate lends bytes to these
//! functions and gives names to their numbers. If they refuse something, the crate returns a
//! [`Refusal`], which prints as a sentence.
//!
//! ```
//! use asdf_layout::{Layout, Records, Verdict};
//!
//! // A header line, and a block with three bytes of content.
//! let mut file = b"#ASDF 1.0.0\n".to_vec();
//! file.extend(b"\xD3BLK\0\x30\0\0\0\0\0\0\0\0");
//! file.extend([3u64, 3, 3].map(u64::to_be_bytes).concat());
//! file.extend([0; 16]);
//! file.extend(b"abc");
//!
//! let layout = Layout::read(&file)?;
//! assert_eq!(layout.version.to_string(), "1.0.0");
//! assert_eq!(layout.tree, None);
//! assert_eq!(layout.index, Verdict::Absent);
//!
//! for record in &Records::read(&file)? {
//!     assert_eq!((record.depth, record.offset), (0, 12));
//!     assert_eq!(file[record.content()], *b"abc");
//! }
//!
//! // Now the used size of the block is 4, and its allocated size is still 3.
//! file[12 + 29] = 4;
//! let refusal = Layout::read(&file).unwrap_err();
//! assert_eq!(refusal.to_string(), "used size is above allocated size, in the block at 12 (refusal 13)");
//! # Ok::<(), asdf_layout::Refusal>(())
//! ```
//!
//! | To get | Call |
//! |---|---|
//! | the header, the comments, the tree and the verdict on the index | [`Layout::read`] |
//! | one block of the file itself | [`Block::read`] |
//! | every block, including those of inner files, with all that is known about it | [`Records::read`] |
//! | where a block's content is, in the outermost file or in the block's own | [`Record::content`], [`Block::content`] |
//! | sixteen bytes for each block, to be stored | [`Outline::of_file`] |
//! | the rows of a stored outline | [`Outline::read`] |
//! | the text of a block index | [`index_text`] |
//! | another tree in place of the old one | [`edit`] |
//! | every reason for a refusal, in words | [`REASONS`] |

#![forbid(unsafe_code)]
#![warn(missing_docs)]

mod answer;
mod block;
mod layout;
mod outline;
mod records;
mod refusal;
mod writers;

pub use block::Block;
pub use layout::{Layout, LineEnd, Tree, Verdict, Version};
pub use outline::{InnerState, Outline, Row};
pub use records::{row_count, Inner, Record, Records};
pub use refusal::{Reason, Refusal, REASONS};
pub use writers::{edit, index_text};

/// Runs the examples of docs/USING.md with those of this documentation.
#[cfg(doctest)]
#[doc = include_str!("../../../docs/USING.md")]
struct Using;
