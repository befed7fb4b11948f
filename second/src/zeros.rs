//! Recognises the zero bytes that may fill the end of a file.

/// Whether all bytes are zero. This is also true if there are no bytes.
pub(crate) fn only_zeros(bytes: &[u8]) -> bool {
    bytes.iter().all(|&byte| byte == 0)
}
