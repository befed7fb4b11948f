//! The proved functions, and the functions of libc that are used. This is the only unsafe code of
//! the harness.

#![allow(unsafe_code)]

pub use asdf_sys::{
    block, count, edit, index, outline, read, record, records, rewrite, stored_count, stored_row,
    stored_rows,
};
use std::ffi::{c_int, c_void};

extern "C" {
    fn bench_find_mark(bytes: *const u8, length: usize, at: usize) -> usize;
    fn bench_find_mark_plain(bytes: *const u8, length: usize, at: usize) -> usize;
    fn memcmp(bytes: *const c_void, others: *const c_void, length: usize) -> c_int;
    fn memchr(bytes: *const c_void, byte: c_int, length: usize) -> *mut c_void;
    fn memmem(
        bytes: *const c_void,
        length: usize,
        wanted: *const c_void,
        wanted_length: usize,
    ) -> *mut c_void;
}

/// A proved search for a mark.
type Search = unsafe extern "C" fn(*const u8, usize, usize) -> usize;

/// Where the first mark at or after an offset begins, or the end if there is none. This is the
/// search of the core.
pub fn find_mark(bytes: &[u8], at: usize) -> usize {
    searched(bench_find_mark, bytes, at)
}

/// Finds the same with the plain search, which looks at every byte.
pub fn find_mark_plain(bytes: &[u8], at: usize) -> usize {
    searched(bench_find_mark_plain, bytes, at)
}

/// Calls a proved search.
fn searched(search: Search, bytes: &[u8], at: usize) -> usize {
    // SAFETY: The pointer comes from a slice of this length, which outlives the call.
    unsafe { search(bytes.as_ptr(), bytes.len(), at) }
}

/// Where libc finds a byte for the first time.
pub fn find_byte(bytes: &[u8], byte: u8) -> Option<usize> {
    // SAFETY: The pointer comes from a slice of this length.
    let found = unsafe { memchr(bytes.as_ptr().cast(), c_int::from(byte), bytes.len()) };
    place_in(bytes, found)
}

/// Where libc finds these bytes for the first time.
pub fn find_bytes(bytes: &[u8], wanted: &[u8]) -> Option<usize> {
    // SAFETY: Both pointers come from slices of these lengths.
    let found = unsafe {
        memmem(
            bytes.as_ptr().cast(),
            bytes.len(),
            wanted.as_ptr().cast(),
            wanted.len(),
        )
    };
    place_in(bytes, found)
}

/// Whether libc finds only zeros. That is so if the first byte is zero and every byte is equal to
/// the next.
pub fn only_zeros(bytes: &[u8]) -> bool {
    let Some((first, rest)) = bytes.split_first() else {
        return true;
    };
    // SAFETY: Both pointers come from slices of at least this length.
    let order = unsafe { memcmp(bytes.as_ptr().cast(), rest.as_ptr().cast(), rest.len()) };
    *first == 0 && order == 0
}

/// The place in these bytes to which libc points. A null pointer means that nothing was found.
fn place_in(bytes: &[u8], found: *mut c_void) -> Option<usize> {
    (!found.is_null()).then(|| found as usize - bytes.as_ptr() as usize)
}

#[cfg(test)]
mod tests {
    use super::*;

    #[test]
    fn libc_finds_what_is_there_and_nothing_else() {
        assert_eq!(find_byte(b"abcb", b'b'), Some(1));
        assert_eq!(find_byte(b"abcb", b'x'), None);
        assert_eq!(find_bytes(b"abcb", b"cb"), Some(2));
        assert_eq!(find_bytes(b"abcb", b"ba"), None);
    }

    #[test]
    fn libc_tells_zeros_from_other_bytes() {
        for bytes in [&b""[..], b"\0", b"\0\0\0"] {
            assert!(only_zeros(bytes));
        }
        for bytes in [&b"\x01"[..], b"\x01\x01", b"\0\0\x01", b"\x01\0"] {
            assert!(!only_zeros(bytes));
        }
    }
}
