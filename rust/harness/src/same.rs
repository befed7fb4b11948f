//! The one comparison on which every check is built.

use std::fmt::Debug;

/// Fails if two values differ that have to be the same.
pub fn same<T: PartialEq + Debug>(what: &str, found: T, expected: T) -> Result<(), String> {
    if found == expected {
        Ok(())
    } else {
        Err(format!("{what}: {found:?} instead of {expected:?}"))
    }
}
