//! What the second program reports about a file, a stored outline and an edit.

pub mod edit;
pub mod file;
pub mod gaps;
pub mod stored;
