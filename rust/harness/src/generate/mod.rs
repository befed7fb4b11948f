//! What a run generates: structured files, stored outlines, and texts for edits. The files have
//! each part of the layout, right and wrong, and near misses of both. A number in parentheses is
//! the number with which the file is refused.

mod block;
mod chain;
mod comments;
mod content;
pub mod corpus;
mod cut;
mod damage;
mod file;
mod free_space;
mod gap;
mod header;
pub(crate) mod index;
mod markless;
pub(crate) mod outline;
mod replacement;
mod shape;
mod tail;
mod text;
mod tree;
mod wrong_block;
