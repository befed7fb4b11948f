//! Files by their names in one opened folder. What another program does to the path of the folder changes nothing here, and
//! symbolic links are never followed.

use crate::calls::*;
use std::ffi::{c_int, c_uint, CString, OsStr};
use std::fs::{File, Metadata, OpenOptions};
use std::io::{
    self,
    ErrorKind::{InvalidInput, NotFound, PermissionDenied},
};
use std::os::fd::{AsRawFd, FromRawFd};
use std::os::unix::ffi::OsStrExt;
use std::os::unix::fs::OpenOptionsExt;
use std::path::Path;

/// An opened folder. It need not be readable.
pub struct Folder {
    folder: File,
}

impl Folder {
    /// Opens a folder. Symbolic links in its path are followed.
    pub fn open(path: &Path) -> io::Result<Folder> {
        let folder = OpenOptions::new()
            .read(true)
            .custom_flags(O_PATH | O_DIRECTORY)
            .open(path)?;
        Ok(Folder { folder })
    }

    /// Returns the metadata of what has a name, or `None` if nothing has it. It is not opened, so nothing happens to a pipe or
    /// a device.
    pub fn look_at(&self, name: &OsStr) -> io::Result<Option<Metadata>> {
        match self.open_with(name, O_PATH, 0) {
            Err(error) if error.kind() == NotFound => Ok(None),
            found => found?.metadata().map(Some),
        }
    }

    /// Opens a file to read it. Does not wait for the other end of a pipe.
    pub fn open_to_read(&self, name: &OsStr) -> io::Result<File> {
        self.open_with(name, O_NONBLOCK | O_NOCTTY, 0)
    }

    /// Opens a file to read and change it. Does not wait for the other end of a pipe.
    pub fn open_to_change(&self, name: &OsStr) -> io::Result<File> {
        self.open_with(name, O_RDWR | O_NONBLOCK | O_NOCTTY, 0)
    }

    /// Makes a new file to be written. Fails if anything has this name, even a link that leads nowhere.
    pub fn create(&self, name: &OsStr, mode: u32) -> io::Result<File> {
        self.open_with(name, O_WRONLY | O_CREAT | O_EXCL, mode)
    }

    fn open_with(&self, name: &OsStr, flags: c_int, mode: c_uint) -> io::Result<File> {
        let name = c_name(name)?;
        let flags = flags | O_NOFOLLOW | O_CLOEXEC;
        // SAFETY: the name ends with 0, and a new descriptor is nobody else's.
        unsafe {
            let file = openat(self.folder.as_raw_fd(), name.as_ptr(), flags, mode);
            done(file).map(|file| File::from_raw_fd(file))
        }
    }

    /// Gives a file another name. Fails if anything has that name.
    pub fn rename_to_new(&self, from: &OsStr, to: &OsStr) -> io::Result<()> {
        let folder = self.folder.as_raw_fd();
        let (old, new) = (c_name(from)?, c_name(to)?);
        let (old, new) = (old.as_ptr(), new.as_ptr());
        // SAFETY: both names end with 0.
        match done(unsafe { renameat2(folder, old, folder, new, RENAME_NOREPLACE) }) {
            // Some file systems cannot do this. A second name for the file does not replace another either.
            Err(error) if error.kind() == InvalidInput => {
                // SAFETY: as above.
                done(unsafe { linkat(folder, old, folder, new, 0) })?;
                self.remove(from)
            }
            result => result.map(|_| ()),
        }
    }

    /// Gives a file the name of another one, which it replaces.
    pub fn rename_over(&self, from: &OsStr, to: &OsStr) -> io::Result<()> {
        let folder = self.folder.as_raw_fd();
        let (old, new) = (c_name(from)?, c_name(to)?);
        // SAFETY: both names end with 0.
        done(unsafe { renameat(folder, old.as_ptr(), folder, new.as_ptr()) }).map(|_| ())
    }

    /// Removes a name that is not a folder's.
    pub fn remove(&self, name: &OsStr) -> io::Result<()> {
        let name = c_name(name)?;
        // SAFETY: the name ends with 0.
        done(unsafe { unlinkat(self.folder.as_raw_fd(), name.as_ptr(), 0) }).map(|_| ())
    }

    /// Brings the names in the folder to the disk. If the folder cannot be read, or its file system does not do this for a
    /// folder, everything in the file system of `file` is brought there.
    pub fn sync(&self, file: &File) -> io::Result<()> {
        let folder = self.open_with(OsStr::new("."), O_DIRECTORY, 0);
        match folder.and_then(|folder| folder.sync_all()) {
            Err(error) if matches!(error.kind(), PermissionDenied | InvalidInput) => {
                // SAFETY: the file is open.
                done(unsafe { syncfs(file.as_raw_fd()) }).map(|_| ())
            }
            result => result,
        }
    }
}

/// Returns the result of a call, or the system's error.
fn done(result: c_int) -> io::Result<c_int> {
    match result {
        -1 => Err(io::Error::last_os_error()),
        _ => Ok(result),
    }
}

/// Returns a name as the C library takes it. It is never a path.
fn c_name(name: &OsStr) -> io::Result<CString> {
    let bytes = name.as_bytes();
    if bytes.contains(&b'/') {
        return Err(InvalidInput.into());
    }
    Ok(CString::new(bytes)?)
}

#[cfg(test)]
mod tests {
    use super::*;
    use std::fs;
    use std::io::ErrorKind;
    use std::os::unix::fs::symlink;
    use std::path::PathBuf;
    use std::process::id;

    /// Makes an empty folder for a test.
    fn folder(test: &str) -> PathBuf {
        let path = std::env::temp_dir().join(format!("asdf-system-{}-{test}", id()));
        let _ = fs::remove_dir_all(&path);
        fs::create_dir_all(&path).unwrap();
        path
    }

    #[test]
    fn new_name_never_replaces_another() {
        let path = folder("rename");
        let folder = Folder::open(&path).unwrap();
        fs::write(path.join("a"), "a").unwrap();
        fs::write(path.join("b"), "b").unwrap();
        let kind = |to: &str| {
            let result = folder.rename_to_new(OsStr::new("a"), OsStr::new(to));
            result.map_err(|error| error.kind())
        };
        assert_eq!(kind("b"), Err(ErrorKind::AlreadyExists));
        assert_eq!(kind("c"), Ok(()));
        assert_eq!(fs::read(path.join("b")).unwrap(), b"b");
        assert_eq!(fs::read(path.join("c")).unwrap(), b"a");
        fs::remove_dir_all(path).unwrap();
    }

    #[test]
    fn links_are_not_followed_and_paths_are_not_names() {
        let path = folder("links");
        let folder = Folder::open(&path).unwrap();
        fs::write(path.join("a"), "a").unwrap();
        symlink("a", path.join("link")).unwrap();
        symlink("nothing", path.join("dangling")).unwrap();
        assert!(folder.open_to_read(OsStr::new("a")).is_ok());
        assert!(folder.open_to_read(OsStr::new("link")).is_err());
        assert!(folder.open_to_change(OsStr::new("link")).is_err());
        assert!(folder.create(OsStr::new("dangling"), 0o600).is_err());
        assert!(folder.open_to_read(OsStr::new("../links/a")).is_err());
        let link = folder.look_at(OsStr::new("dangling")).unwrap().unwrap();
        assert!(link.is_symlink());
        assert!(folder.look_at(OsStr::new("none")).unwrap().is_none());
        fs::remove_dir_all(path).unwrap();
    }
}
