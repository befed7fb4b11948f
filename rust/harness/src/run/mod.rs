//! What the command does: the run of all comparisons, the files of a run for a reader that runs
//! elsewhere, and the walk with a small stack.

mod comparison;
pub mod dump;
pub mod stack;

pub use comparison::{run, DEFAULT_COUNT, DEFAULT_SEED};
