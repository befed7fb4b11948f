//! What a run has to reach at least once, and how often it did. In the name of a goal, parentheses
//! hold the number of a refusal or the verdict on an index.

pub mod coverage;
pub mod edits;
mod file;
mod gaps;
pub mod goal;
mod index;
mod limits;
mod line_ends;
mod nests;
pub mod searches;
pub mod stored;

use goal::Goal;

/// Returns all goals for files.
pub fn of_files() -> Vec<Goal> {
    [
        file::goals(),
        line_ends::goals(),
        limits::goals(),
        index::goals(),
        gaps::goals(),
        nests::goals(),
    ]
    .into_iter()
    .flatten()
    .collect()
}
