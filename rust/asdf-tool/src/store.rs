//! Stores a result in a file of its own. Another file is overwritten only if the user asks for it.

use crate::failure::Failure;
use crate::names::shown;
use crate::output::{Output, Stop};
use crate::source::{is_standard, Source};
use crate::target::is_same;
use asdf_system::Folder;
use std::ffi::{OsStr, OsString};
use std::fs::{self, File, Metadata};
use std::io::{self, ErrorKind, Write};
use std::os::fd::AsFd;
use std::os::unix::fs::{fchown, MetadataExt};
use std::path::{Path, PathBuf};
use std::process;

/// Only the owner may read a new file until it has the permissions of the old one.
const PRIVATE: u32 = 0o600;
/// How many names are tried for a new file.
const TRIES: u32 = 100;

/// Where a result goes.
#[derive(Debug, PartialEq)]
pub struct Out {
    /// The name of a file, or `-` for standard output.
    pub path: PathBuf,
    /// Whether a file that exists is overwritten.
    pub force: bool,
}

impl Out {
    /// Checks that this is not the file that a source was read from, even if the name differs.
    pub fn check_is_not(&self, file: &Path, source: &Source) -> Result<(), Failure> {
        if is_standard(&self.path) || !is_read_from(file, source, &self.path) {
            return Ok(());
        }
        let name = shown(&self.path);
        let sentence = format!("FILE and OUT are the same file, {name}, which was not changed");
        Err(Failure::not_done(sentence).with_advice("choose another name for OUT"))
    }

    /// Stores a result, or prints it.
    pub fn store(&self, bytes: &[u8]) -> Result<(), Stop> {
        let stored = match self.force {
            _ if is_standard(&self.path) => return Output::print(bytes),
            true => self.overwrite(bytes),
            false => self.create(bytes),
        };
        Ok(stored?)
    }

    /// Writes a file that does not exist yet. To look first whether it exists would not be enough,
    /// because somebody could make it after that.
    fn create(&self, bytes: &[u8]) -> Result<(), Failure> {
        let created = File::options()
            .write(true)
            .create_new(true)
            .open(&self.path);
        let file = created.map_err(|error| match error.kind() {
            ErrorKind::AlreadyExists => self.exists(),
            _ => Failure::at("cannot create", &self.path, error),
        })?;
        write(file, bytes).map_err(|error| {
            let failure = Failure::at("cannot write", &self.path, error);
            failure.with_advice(match fs::remove_file(&self.path) {
                Ok(()) => "the incomplete file was removed",
                Err(_) => "the incomplete file could not be removed",
            })
        })
    }

    /// Reports that there is something under the name of the new file.
    fn exists(&self) -> Failure {
        let (what, advice) = match fs::metadata(&self.path) {
            Ok(found) if found.is_dir() => ("is a folder", "give the name of a file in it"),
            Ok(_) => (
                "exists",
                "choose another name for OUT, or overwrite it with `--force`",
            ),
            Err(_) => (
                "is a link that leads nowhere",
                "choose another name for OUT, or remove the link",
            ),
        };
        let name = shown(&self.path);
        Failure::not_done(format!("{name} {what} and was not changed")).with_advice(advice)
    }

    /// Overwrites what exists under the name, or creates it. What is not a regular file, such as a
    /// device or a pipe, stays what it is and takes the bytes.
    fn overwrite(&self, bytes: &[u8]) -> Result<(), Failure> {
        let failed = |error| Failure::at("cannot overwrite", &self.path, error);
        // This also makes sure that the user may write to the old file.
        let mut old = match File::options().write(true).open(&self.path) {
            Err(error) if error.kind() == ErrorKind::NotFound => return self.create(bytes),
            opened => opened.map_err(failed)?,
        };
        let found = old.metadata().map_err(failed)?;
        match found.is_file() {
            true => self
                .replace(&found, bytes)
                .map_err(|error| failed(error).with_advice("the old file was not changed")),
            false => old.write_all(bytes).map_err(failed),
        }
    }

    /// Replaces the old file by a new one. If that fails, the old file is as it was. If the name is a
    /// link, the link stays, and the file it leads to is replaced.
    fn replace(&self, old: &Metadata, bytes: &[u8]) -> io::Result<()> {
        let path = fs::canonicalize(&self.path)?;
        let (Some(parent), Some(name)) = (path.parent(), path.file_name()) else {
            return Err(ErrorKind::IsADirectory.into());
        };
        let folder = Folder::open(parent)?;
        let (new, file) = new_file_in(&folder)?;
        let replaced = take_over(&file, old)
            .and_then(|()| write(file, bytes))
            .and_then(|()| check_name(&folder, name, old))
            .and_then(|()| folder.rename_over(&new, name));
        if replaced.is_err() {
            // The failure is reported in any case.
            let _ = folder.remove(&new);
        }
        replaced
    }
}

/// Makes sure that the name is still that of the old file, which the user may write to.
fn check_name(folder: &Folder, name: &OsStr, old: &Metadata) -> io::Result<()> {
    let found = folder.look_at(name)?;
    match found.is_some_and(|found| is_same(&found, old)) {
        true => Ok(()),
        false => Err(io::Error::other("another program has replaced it")),
    }
}

/// Whether a source, which has the name `file`, was read from the file at `out`.
fn is_read_from(file: &Path, source: &Source, out: &Path) -> bool {
    if !is_standard(file) {
        return source.is_at(out);
    }
    let input = io::stdin().as_fd().try_clone_to_owned();
    let input = input.and_then(|input| File::from(input).metadata());
    match (input, fs::metadata(out)) {
        (Ok(input), Ok(out)) => is_same(&input, &out),
        _ => false,
    }
}

/// Makes a new file in a folder, under a name that nothing has there.
fn new_file_in(folder: &Folder) -> io::Result<(OsString, File)> {
    let mut result = Err(ErrorKind::AlreadyExists.into());
    for number in 0..TRIES {
        let name = OsString::from(format!(".asdf-layout-{}-{number}.new", process::id()));
        result = folder.create(&name, PRIVATE).map(|file| (name, file));
        match &result {
            Err(error) if error.kind() == ErrorKind::AlreadyExists => (),
            _ => break,
        }
    }
    result
}

/// Gives a new file the owner, the group and the permissions of the old one.
fn take_over(file: &File, old: &Metadata) -> io::Result<()> {
    let new = file.metadata()?;
    if (new.uid(), new.gid()) != (old.uid(), old.gid()) {
        fchown(file, Some(old.uid()), Some(old.gid()))?;
    }
    file.set_permissions(old.permissions())
}

/// Writes all bytes of a new file, and brings them to the disk. Some failures show up only there.
fn write(mut file: File, bytes: &[u8]) -> io::Result<()> {
    file.write_all(bytes)?;
    file.sync_all()
}
