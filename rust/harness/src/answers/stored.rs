//! What the second program reports about a stored outline.

use super::file::written;
use asdf_second::{read_outline, rewrite_outline, Refusal, Row};

/// What the second program reports about a stored outline.
pub struct StoredAnswers {
    pub rows: Result<Vec<Row>, Refusal>,
    /// The outline written again.
    pub rewritten: Result<Vec<u8>, Refusal>,
}

impl StoredAnswers {
    /// Asks the second program.
    pub fn to(stored: &[u8]) -> StoredAnswers {
        StoredAnswers {
            rows: read_outline(stored),
            rewritten: written(stored.len(), |out| rewrite_outline(stored, out)),
        }
    }

    /// The rows. A refused outline has none.
    pub fn rows(&self) -> &[Row] {
        self.rows.as_ref().map_or(&[], |rows| rows)
    }

    /// The place at which the outline is refused, if it is refused with this number.
    pub fn refused_with(&self, number: u8) -> Option<usize> {
        let refusal = self.rows.as_ref().err()?;
        (refusal.number == number).then_some(refusal.place as usize)
    }
}
