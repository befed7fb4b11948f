//! A file to be changed in place. Everything goes through the descriptor of its folder, so that nobody can exchange
//! that folder for another.

use crate::failure::{note, Failure};
use crate::names::shown;
use crate::source;
use crate::steps::Steps;
use asdf_system::{Filled, Folder};
use std::ffi::{OsStr, OsString};
use std::fs::{self, File, Metadata, TryLockError};
use std::io::{self, ErrorKind};
use std::os::unix::fs::{FileExt, MetadataExt};
use std::path::{Path, PathBuf};

/// Bytes are written in pieces of this length, so that a test can stop the tool between two pieces.
const PIECE: usize = 1 << 16;
/// What holds if something fails before the file is written to.
pub const UNCHANGED: &str = "the file was not changed";

/// A file that no other call of this tool changes until this value is dropped.
pub struct Target {
    /// The path as the caller gave it.
    pub given: PathBuf,
    /// The path of the file itself, with every link followed.
    pub path: PathBuf,
    pub folder: Folder,
    pub file: File,
    metadata: Metadata,
}

impl Target {
    /// Opens a file, and waits until no other call of this tool is reading or editing it.
    pub fn open(given: &Path) -> Result<Target, Failure> {
        let failed = |error: io::Error| {
            let advice = (error.kind() == ErrorKind::PermissionDenied)
                .then_some("only somebody who may write to the file can do this");
            Failure::at("cannot open", given, error).with_advice_if(advice)
        };
        let path = fs::canonicalize(given).map_err(failed)?;
        let irregular = || {
            let name = shown(given);
            Failure::not_done(format!(
                "{name} is not a regular file and cannot be changed in place"
            ))
        };
        let (Some(parent), Some(name)) = (path.parent(), path.file_name()) else {
            return Err(irregular());
        };
        let folder = Folder::open(parent).map_err(failed)?;
        // Something else than a file is not opened, because that alone may have an effect.
        let found = folder.look_at(name).map_err(failed)?;
        if found.is_some_and(|found| !found.is_file()) {
            return Err(irregular());
        }
        let file = folder.open_to_change(name).map_err(failed)?;
        lock(&file, given)?;
        let metadata = file.metadata().map_err(failed)?;
        let target = Target {
            given: given.to_path_buf(),
            path,
            folder,
            file,
            metadata,
        };
        match target.is_named() {
            true => Ok(target),
            false => Err(Failure::not_done(format!(
                "{} was replaced or removed before it could be locked; nothing was changed; try again",
                shown(given)
            ))),
        }
    }

    /// Returns the name of the file, for messages.
    pub fn shown(&self) -> String {
        shown(&self.given)
    }

    /// Whether the path that the caller gave still names this file.
    pub fn is_named(&self) -> bool {
        let named = fs::metadata(&self.given);
        named.is_ok_and(|named| is_same(&named, &self.metadata))
    }

    /// Returns the metadata that the file had when it was locked.
    pub fn metadata(&self) -> &Metadata {
        &self.metadata
    }

    /// Holds the bytes of the file. While they are read, nothing of the file is changed.
    pub fn bytes(&self) -> Result<Filled, Failure> {
        let length = self.metadata.len().min(source::TOO_LONG);
        let advice = format!("{UNCHANGED}; ");
        source::filled(&self.file, length, &self.shown(), &advice)
            .map_err(|error| Failure::at("cannot read", &self.given, error).with_advice(UNCHANGED))
    }

    /// Writes bytes to the file. When this returns without a failure, they are on the disk.
    pub fn write(&self, bytes: &[u8], start: usize, steps: &mut Steps) -> Result<(), Failure> {
        write_at(&self.file, bytes, start as u64, steps)
            .and_then(|()| steps.run(|| self.file.sync_all()))
            .map_err(|error| Failure::at("cannot write", &self.given, error))
    }

    /// Brings the file to the disk as it is.
    pub fn sync(&self) -> Result<(), Failure> {
        let synced = self.file.sync_all();
        synced.map_err(|error| Failure::at("cannot bring to the disk", &self.given, error))
    }

    /// Returns the path of another name in the folder, for messages.
    pub fn beside(&self, name: &OsStr) -> PathBuf {
        self.path.with_file_name(name)
    }

    /// Returns the name of the file in its folder.
    pub fn name(&self) -> OsString {
        self.path.file_name().unwrap_or_default().to_owned()
    }
}

/// Whether both are about the same file.
pub fn is_same(one: &Metadata, other: &Metadata) -> bool {
    (one.dev(), one.ino()) == (other.dev(), other.ino())
}

/// Locks a file, and says so before it waits.
fn lock(file: &File, path: &Path) -> Result<(), Failure> {
    let locked = match file.try_lock() {
        Err(TryLockError::WouldBlock) => {
            let name = shown(path);
            note(format_args!(
                "waiting for {name}, which another program has locked"
            ));
            file.lock()
        }
        Err(TryLockError::Error(error)) => Err(error),
        Ok(()) => Ok(()),
    };
    locked.map_err(|error| Failure::at("cannot lock", path, error).with_advice(UNCHANGED))
}

/// Writes bytes at an offset of a file. Each piece is one step.
pub fn write_at(file: &File, bytes: &[u8], offset: u64, steps: &mut Steps) -> io::Result<()> {
    let offsets = (offset..).step_by(PIECE);
    for (piece, offset) in bytes.chunks(PIECE).zip(offsets) {
        steps.run(|| file.write_all_at(piece, offset))?;
    }
    Ok(())
}
