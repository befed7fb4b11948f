//! What the tool needs of x86-64 Linux that Rust's standard library does not have, with a safe interface.
//!
//! | To get | Use |
//! |---|---|
//! | the bytes of a file of any length, which stand still | [`Filled`] |
//! | files by their names in one opened folder | [`Folder`] |
//! | a sentence and status 2 if there is no memory | [`Memory`] |
//! | an error, not a signal, if a file may not become so long | [`survive_size_limit`] |
//! | whether a standard stream was closed | [`input_was_closed`], [`output_was_closed`] |
//! | the caller and the names of users | [`caller`], [`name_of`] |
//! | long ranges of zeros, for tests | [`Zeros`] |

#![warn(missing_docs)]

#[cfg(not(all(target_arch = "x86_64", target_os = "linux", target_env = "gnu")))]
compile_error!(
    "the layouts and numbers in calls.rs are those of x86-64 Linux with the GNU C library"
);

mod calls;
mod ending;
mod filled;
mod folder;
mod spin;
mod standard;
mod user;
mod zeros;

pub use ending::{survive_size_limit, Memory};
pub use filled::{Filled, Sentences};
pub use folder::Folder;
pub use standard::{input_was_closed, output_was_closed};
pub use user::{caller, name_of};
pub use zeros::Zeros;
