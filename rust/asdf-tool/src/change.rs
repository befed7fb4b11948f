//! What an edit changes in a file, and how this is stored in the file that keeps the old room.
//!
//! The stored form begins with lines of text, so that people can see what it is. The bytes of the old room and of the new one
//! follow.

use crate::digest::Digest;
use asdf_layout::{Block, Layout, Refusal};
use std::fs::Metadata;
use std::ops::Range;
use std::os::unix::fs::MetadataExt;

/// The first line of the stored form.
pub const TITLE: &str = "asdf-layout old room, form 2";
/// The words at the start of the other lines.
const WORDS: [&str; 6] = ["inode", "device", "length", "room", "around", "whole"];

/// A change of a file's room.
#[derive(Debug, Clone, PartialEq)]
pub struct Change {
    pub inode: u64,
    /// The number of a device may be another one after a restart, so it is only a hint.
    pub device: u64,
    /// How many bytes the file has.
    pub length: u64,
    pub start: usize,
    /// The bytes of the room as they were lent to the proved edit.
    pub old: Vec<u8>,
    /// The bytes of the room as the proved edit gave them; as many as the old ones.
    pub new: Vec<u8>,
    /// The digest of what is around the room.
    pub around: String,
}

impl Change {
    /// Makes the change of a file from its old room and its bytes after the proved edit.
    pub fn new(
        metadata: &Metadata,
        start: usize,
        old: Vec<u8>,
        edited: &[u8],
        layout: &Layout,
    ) -> Result<Change, Refusal> {
        let room = start..start + old.len();
        Ok(Change {
            inode: metadata.ino(),
            device: metadata.dev(),
            length: metadata.len(),
            start,
            old,
            new: edited[room].to_vec(),
            around: around(edited, start, layout)?,
        })
    }

    /// Returns where the room is in the file.
    pub fn room(&self) -> Range<usize> {
        self.start..self.start + self.old.len()
    }

    /// Returns the lines of the stored form. After them come the old room and the new one.
    pub fn lines(&self) -> String {
        let lines = self.lines_but_last();
        let whole = Digest::of(&[lines.as_bytes(), &self.old, &self.new]);
        format!("{lines}{} {whole}\n", WORDS[5])
    }

    /// Returns the lines before the digest of the whole.
    fn lines_but_last(&self) -> String {
        let Range { start, end } = self.room();
        let values = [
            self.inode.to_string(),
            self.device.to_string(),
            self.length.to_string(),
            format!("{start} {end}"),
            self.around.clone(),
        ];
        let lines = WORDS.iter().zip(values);
        let lines: String = lines
            .map(|(word, value)| format!("{word} {value}\n"))
            .collect();
        format!("{TITLE}\n{lines}")
    }

    /// Makes a change of its stored form: what its lines state, and both rooms. Returns `None` if it is not exact.
    pub fn stored(stated: &Stated, old: Vec<u8>, new: Vec<u8>) -> Option<Change> {
        let [inode, device, length] = stated.numbers;
        let change = Change {
            inode,
            device,
            length,
            start: stated.room.start,
            old,
            new,
            around: stated.around.clone(),
        };
        let is_exact = change.old.len() == stated.room.len()
            && change.new.len() == stated.room.len()
            && change.lines() == stated.lines;
        is_exact.then_some(change)
    }
}

/// What the lines of a stored form state.
pub struct Stated {
    /// The inode, the device and the length of the file.
    pub numbers: [u64; 3],
    pub room: Range<usize>,
    around: String,
    /// The lines themselves.
    pub lines: String,
}

impl Stated {
    /// Reads the lines from the start of a stored form.
    pub fn read(start: &[u8]) -> Option<Stated> {
        let lines = lines_in(start)?;
        let mut parts = lines.split('\n');
        if parts.next()? != TITLE {
            return None;
        }
        let mut values = [""; WORDS.len()];
        for (value, word) in values.iter_mut().zip(WORDS) {
            *value = parts.next()?.strip_prefix(word)?.strip_prefix(' ')?;
        }
        let [inode, device, length, room, around, _] = values;
        let (start, end) = room.split_once(' ')?;
        let room = start.parse().ok()?..end.parse().ok()?;
        Some(Stated {
            numbers: [
                inode.parse().ok()?,
                device.parse().ok()?,
                length.parse().ok()?,
            ],
            room: (room.start <= room.end).then_some(room)?,
            around: around.to_string(),
            lines: lines.to_string(),
        })
    }
}

/// Returns the lines at the start of a stored form.
fn lines_in(start: &[u8]) -> Option<&str> {
    let mut ends = start.iter().enumerate().filter(|(_, &byte)| byte == b'\n');
    let (last, _) = ends.nth(WORDS.len())?;
    str::from_utf8(&start[..=last]).ok()
}

/// Returns a digest of what is before the room of a file, and of the headers of its blocks with their offsets. It does not
/// matter which room the file has, because nothing of the room is in the digest.
pub fn around(file: &[u8], start: usize, layout: &Layout) -> Result<String, Refusal> {
    let mut digest = Digest::new();
    digest.take(&file[..start]);
    for ordinal in 0..layout.blocks {
        let block = Block::read(file, ordinal.into())?;
        let block = block.expect("an accepted file has all its blocks");
        digest.take(&(block.at as u64).to_be_bytes());
        digest.take(&file[block.at..block.content().start]);
    }
    Ok(digest.finish())
}

#[cfg(test)]
mod tests {
    use super::*;

    fn change() -> Change {
        Change {
            inode: 7,
            device: u64::MAX,
            length: 1 << 40,
            start: 12,
            old: b"old\nroom".to_vec(),
            new: b"new\x00 rm\n".to_vec(),
            around: Digest::of(&[]),
        }
    }

    /// Returns the stored form of a change.
    fn stored(change: &Change) -> Vec<u8> {
        [change.lines().as_bytes(), &change.old, &change.new].concat()
    }

    /// Reads a stored form.
    fn read(stored: &[u8]) -> Option<Change> {
        let stated = Stated::read(stored)?;
        let rooms = &stored[stated.lines.len()..];
        let (old, new) = rooms.split_at_checked(stated.room.len())?;
        Change::stored(&stated, old.to_vec(), new.to_vec())
    }

    #[test]
    fn stored_change_reads_back() {
        assert_eq!(read(&stored(&change())), Some(change()));
        let empty = Change {
            old: Vec::new(),
            new: Vec::new(),
            ..change()
        };
        assert_eq!(read(&stored(&empty)), Some(empty));
    }

    #[test]
    fn stored_change_with_any_byte_changed_missing_or_added_is_refused() {
        let whole = stored(&change());
        for offset in 0..whole.len() {
            let mut other = whole.clone();
            other[offset] ^= 1;
            assert_eq!(read(&other), None, "{offset}");
            assert_eq!(read(&whole[..offset]), None, "{offset}");
        }
        assert_eq!(read(&[&whole[..], b" "].concat()), None);
        let with = |old: &str, new: &str| String::from_utf8_lossy(&whole).replace(old, new);
        // A room that ends before it begins is no room, numbers have one form only, and some are too large.
        for (old, new) in [
            ("room 12 20", "room 12 2"),
            ("inode 7", "inode 07"),
            ("room 12 20", "room 0 9223372036854775808"),
            ("room 12 20", "room 0 18446744073709551616"),
        ] {
            assert_eq!(read(with(old, new).as_bytes()), None, "{new}");
        }
    }
}
