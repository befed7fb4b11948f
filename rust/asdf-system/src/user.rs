//! Who calls, and the names of users.

use crate::calls::{geteuid, getpwuid};
use std::ffi::CStr;
use std::sync::Mutex;

/// The C library keeps one entry for all threads.
static ENTRY: Mutex<()> = Mutex::new(());

/// Returns the number of the user with whose rights the process runs.
pub fn caller() -> u32 {
    // SAFETY: the call always succeeds.
    unsafe { geteuid() }
}

/// Returns the name of a user, if the system knows one.
pub fn name_of(user: u32) -> Option<String> {
    let _entry = ENTRY.lock().ok()?;
    // SAFETY: the entry, if there is one, holds a text that ends with 0. It stays until the next call, which waits.
    unsafe {
        let entry = getpwuid(user).as_ref()?;
        let name = CStr::from_ptr(entry.name);
        Some(name.to_string_lossy().into_owned())
    }
}

#[cfg(test)]
mod tests {
    use super::*;

    #[test]
    fn root_has_a_name_and_most_numbers_have_none() {
        assert_eq!(name_of(0).as_deref(), Some("root"));
        assert_eq!(name_of(4_000_000_000), None);
    }
}
