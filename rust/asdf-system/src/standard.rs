//! Whether the standard streams were there when the process began.
//!
//! Rust opens `/dev/null` instead of a standard stream that is closed, so that no other file gets its number. Then a
//! closed input looks like an empty one, and what is written to a closed output seems to arrive.

use crate::calls::{fcntl, F_GETFD};
use std::ffi::c_int;
use std::sync::atomic::{AtomicBool, Ordering};

/// For standard input, output and error: whether it was closed.
static CLOSED: [AtomicBool; 3] = [const { AtomicBool::new(false) }; 3];

/// Is called before Rust begins.
#[used]
#[link_section = ".init_array"]
static BEFORE_MAIN: extern "C" fn() = look;

extern "C" fn look() {
    for (stream, closed) in CLOSED.iter().enumerate() {
        // SAFETY: the call only asks whether there is such a file.
        let answer = unsafe { fcntl(stream as c_int, F_GETFD) };
        closed.store(answer == -1, Ordering::Relaxed);
    }
}

/// Whether standard input was closed when the process began.
pub fn input_was_closed() -> bool {
    CLOSED[0].load(Ordering::Relaxed)
}

/// Whether standard output was closed when the process began.
pub fn output_was_closed() -> bool {
    CLOSED[1].load(Ordering::Relaxed)
}
