//! Long ranges of zeros that take memory only where they are changed.

use crate::calls::*;
use std::ffi::c_int;
use std::io;
use std::ops::Deref;
use std::ptr::null_mut;
use std::slice;

/// Zeros. They can be read, and they are lent to be changed.
pub struct Zeros {
    /// Null if there are no bytes, because the system does not make an empty map.
    start: Address,
    length: usize,
}

impl Zeros {
    /// Makes `length` zeros, which can only be read.
    pub fn new(length: usize) -> io::Result<Zeros> {
        let start = match length {
            0 => null_mut(),
            _ => map(
                length,
                PROT_READ,
                MAP_PRIVATE | MAP_ANONYMOUS | MAP_NORESERVE,
                NO_FILE,
            )?,
        };
        Ok(Zeros { start, length })
    }

    /// Lends the bytes to be changed.
    pub fn lend(&mut self) -> io::Result<&mut [u8]> {
        self.allow(PROT_READ | PROT_WRITE)?;
        if self.length == 0 {
            return Ok(&mut []);
        }
        // SAFETY: a map of this length begins there and is writable now, and only the borrower of
        // `self` has the slice.
        Ok(unsafe { slice::from_raw_parts_mut(self.start.cast(), self.length) })
    }

    /// Makes the bytes read-only again after they were lent. The system then ends a process that
    /// writes to them, until they are lent again.
    pub fn protect(&mut self) -> io::Result<()> {
        self.allow(PROT_READ)
    }

    /// Sets what may be done with the bytes. They are always readable.
    fn allow(&mut self, protection: c_int) -> io::Result<()> {
        // SAFETY: the map has this length and is ours alone, and no slice of it is lent now.
        match unsafe { mprotect(self.start, self.length, protection) } {
            0 => Ok(()),
            _ => Err(io::Error::last_os_error()),
        }
    }
}

impl Deref for Zeros {
    type Target = [u8];

    fn deref(&self) -> &[u8] {
        if self.length == 0 {
            return &[];
        }
        // SAFETY: a map of this length begins there and is readable until it is dropped.
        unsafe { slice::from_raw_parts(self.start.cast(), self.length) }
    }
}

impl Drop for Zeros {
    fn drop(&mut self) {
        if self.length != 0 {
            // SAFETY: the map was made with this length, and every slice of it is gone.
            unsafe { munmap(self.start, self.length) };
        }
    }
}

/// Makes a new map of memory, at an address that the system chooses. The length is not 0.
pub(crate) fn map(
    length: usize,
    protection: c_int,
    flags: c_int,
    file: c_int,
) -> io::Result<Address> {
    // SAFETY: a new map at an address that the system chooses touches no memory in use.
    let start = unsafe { mmap(null_mut(), length, protection, flags, file, 0) };
    // A failed call returns the address whose bits are all ones.
    match start as isize {
        -1 => Err(io::Error::last_os_error()),
        _ => Ok(start),
    }
}

#[cfg(test)]
mod tests {
    use super::*;

    #[test]
    fn zeros_hold_what_is_put_into_them() -> io::Result<()> {
        let mut zeros = Zeros::new(10_000)?;
        zeros.lend()?[9_998..].copy_from_slice(b"yz");
        zeros.protect()?;
        assert_eq!(zeros[..], [&[0; 9_998][..], b"yz"].concat());
        Ok(())
    }

    #[test]
    fn no_zeros_are_lent_too() -> io::Result<()> {
        let mut none = Zeros::new(0)?;
        assert_eq!(none.lend()?, b"");
        none.protect()?;
        assert_eq!(none[..], b""[..]);
        Ok(())
    }
}
