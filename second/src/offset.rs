//! Two kinds of offset that must not be mixed. A file has at most 4,294,967,295 bytes, so both
//! kinds fit into 32 bits.

/// An offset counted from the first byte of the file it belongs to, nested or not.
#[derive(Debug, Clone, Copy, PartialEq, Eq, PartialOrd, Ord)]
pub struct InFile(pub u32);

/// An offset counted from the first byte of the outermost file.
#[derive(Debug, Clone, Copy, PartialEq, Eq, PartialOrd, Ord)]
pub struct Outermost(pub u32);

impl InFile {
    /// Returns the offset of a position in a file whose length was judged before.
    pub(crate) fn at(position: usize) -> InFile {
        InFile(position as u32)
    }

    /// Returns the offset as a position in the file's bytes.
    pub(crate) fn position(self) -> usize {
        self.0 as usize
    }

    /// Returns the offset in the outermost file by adding where the file itself starts. This is the
    /// only way from one kind of offset to the other.
    pub(crate) fn to_outermost(self, file_start: Outermost) -> Outermost {
        Outermost(file_start.0 + self.0)
    }
}
