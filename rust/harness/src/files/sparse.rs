//! Long files that are mostly zeros.

use crate::format::block::{block_header, FIELD_BYTES};
use crate::format::text::HEADER_LINE;
use asdf_system::Zeros;
use std::io;
use std::ops::Deref;

/// A long range of zeros with other bytes at some places. Only the bytes that are not zero take
/// memory.
pub struct SparseFile {
    zeros: Zeros,
}

impl SparseFile {
    /// A file of this length that has these bytes at these places.
    pub fn new(length: usize, parts: &[(usize, &[u8])]) -> io::Result<SparseFile> {
        let mut zeros = Zeros::new(length)?;
        let file = zeros.lend()?;
        for (place, bytes) in parts {
            file[*place..][..bytes.len()].copy_from_slice(bytes);
        }
        zeros.protect()?;
        Ok(SparseFile { zeros })
    }

    /// Lends the bytes, so that they can be changed.
    pub fn lend(&mut self) -> io::Result<&mut [u8]> {
        self.zeros.lend()
    }
}

impl Deref for SparseFile {
    type Target = [u8];

    fn deref(&self) -> &[u8] {
        &self.zeros
    }
}

/// A file of zeros with a header line and `blocks` blocks. Each block has `length` bytes, its
/// header included.
pub fn chain_of_blocks(blocks: usize, length: usize) -> io::Result<SparseFile> {
    let header = block_header(0, (length - FIELD_BYTES) as u64);
    let place = |block| HEADER_LINE.len() + block * length;
    let mut parts = vec![(0, HEADER_LINE)];
    parts.extend((0..blocks).map(|block| (place(block), &header[..])));
    SparseFile::new(place(blocks), &parts)
}

#[cfg(test)]
mod tests {
    use super::*;

    #[test]
    fn sparse_file_holds_its_parts_and_zeros() -> io::Result<()> {
        let file = SparseFile::new(10_000, &[(0, b"ab"), (9_998, b"yz")])?;
        let expected = [b"ab", &[0; 9_996][..], b"yz"].concat();
        assert_eq!(file[..], expected);
        Ok(())
    }
}
