//! What the format fixes: its words, the fields of a block header, its limits and the numbers of
//! its refusals.

pub mod block;
pub mod limits;
pub mod refusals;
pub mod text;
