//! Ends the process where nothing else can be done: in a signal handler, and where there is no memory left.

use crate::calls::{_exit, sigaction, write, SignalAction, IGNORED, SIGXFSZ};
use std::alloc::{GlobalAlloc, Layout, System};
use std::ffi::c_int;
use std::ptr::null_mut;

const STANDARD_ERROR: c_int = 2;
/// The exit status of an operation that the system does not carry out.
const NOT_DONE: c_int = 2;

/// Writes a sentence to standard error and ends the process with status 2. It needs no memory and takes no lock, so that a
/// signal handler may call it.
pub(crate) fn end(sentence: &[u8]) -> ! {
    // SAFETY: the sentence has this many bytes. If they cannot be written, nobody can be told.
    unsafe {
        write(STANDARD_ERROR, sentence.as_ptr().cast(), sentence.len());
        _exit(NOT_DONE)
    }
}

/// If a write would make a file longer than the user allows (`ulimit -f`), it fails with an error. Otherwise the system would end
/// the process by a signal.
pub fn survive_size_limit() {
    let action = SignalAction {
        handler: IGNORED,
        ..SignalAction::NONE
    };
    // SAFETY: the action is valid, and nobody asks for the former one.
    unsafe { sigaction(SIGXFSZ, &action, null_mut()) };
}

/// The system's memory, for `#[global_allocator]`. If there is not enough of it, the process says so and ends with status 2.
/// Otherwise Rust would end it with a signal.
pub struct Memory {
    /// What is said then: a line with its end.
    pub sentence: &'static str,
}

impl Memory {
    /// Returns the memory. If it is null, the process ends.
    fn or_end(&self, memory: *mut u8) -> *mut u8 {
        if memory.is_null() {
            end(self.sentence.as_bytes());
        }
        memory
    }
}

// SAFETY: every call is passed on to the system's allocator as it is.
unsafe impl GlobalAlloc for Memory {
    unsafe fn alloc(&self, layout: Layout) -> *mut u8 {
        self.or_end(System.alloc(layout))
    }

    unsafe fn alloc_zeroed(&self, layout: Layout) -> *mut u8 {
        self.or_end(System.alloc_zeroed(layout))
    }

    unsafe fn realloc(&self, memory: *mut u8, layout: Layout, size: usize) -> *mut u8 {
        self.or_end(System.realloc(memory, layout, size))
    }

    unsafe fn dealloc(&self, memory: *mut u8, layout: Layout) {
        System.dealloc(memory, layout)
    }
}
