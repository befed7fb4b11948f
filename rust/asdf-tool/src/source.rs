//! The bytes of a file or of standard input, which stand still while they are read.

use crate::failure::{note, Failure};
use crate::kept;
use crate::names::shown;
use crate::target::is_same;
use asdf_layout::Refusal;
use asdf_system::{input_was_closed, Filled, Sentences};
use std::fs::{self, File, TryLockError};
use std::io::{self, Read};
use std::ops::Deref;
use std::path::{Path, PathBuf};
use std::thread::sleep;
use std::time::{Duration, Instant};

/// The word that means standard input or output.
const STANDARD: &str = "-";
/// A file of this length or more is refused, whatever it holds. So no more of it is ever looked at.
pub const TOO_LONG: u64 = 1 << 32;
/// A command that only reads waits this long for an edit to end.
const PATIENCE: Duration = Duration::from_secs(1);
/// How long it waits before it tries again.
const PAUSE: Duration = Duration::from_millis(10);

/// Whether a path means standard input or output.
pub fn is_standard(path: &Path) -> bool {
    path == Path::new(STANDARD)
}

/// Returns the name of the input at a path, for messages.
fn name(path: &Path) -> String {
    match is_standard(path) {
        true => "standard input".to_string(),
        false => shown(path),
    }
}

/// Bytes, and where they come from.
pub struct Source {
    path: PathBuf,
    bytes: Bytes,
}

/// How the bytes are held.
enum Bytes {
    /// They are filled from a file when they are touched. `Source::file` locks it against edits while it is open.
    Filled(Filled, File),
    Read(Vec<u8>),
}

impl Source {
    /// Opens an ASDF file. Waits for a while if an edit of it is running, and warns if an edit was not finished.
    pub fn file(path: &Path) -> Result<Source, Failure> {
        let source = Source::open(path, TOO_LONG)?;
        // While an edit is running, its old room is kept, and that means nothing. What is not a regular file has none.
        let no_edit_runs = match &source.bytes {
            Bytes::Filled(_, file) => lock(path, file),
            Bytes::Read(_) => false,
        };
        if let Some(warning) = kept::warning(path).filter(|_| no_edit_runs) {
            note(format_args!("warning: {warning}"));
        }
        Ok(source)
    }

    /// Opens any other input. A file may have any length. What has to be read whole into memory, such as a pipe, may not.
    pub fn whole(path: &Path) -> Result<Source, Failure> {
        let source = Source::open(path, u64::MAX)?;
        match &source.bytes {
            Bytes::Read(bytes) if bytes.len() as u64 > TOO_LONG => Err(Failure::not_done(format!(
                "{} has more than 4 GiB; store it in a file, and give that",
                source.name()
            ))),
            _ => Ok(source),
        }
    }

    /// Opens an input, but takes no more than `enough` bytes of it.
    fn open(path: &Path, enough: u64) -> Result<Source, Failure> {
        let bytes = match is_standard(path) {
            true if input_was_closed() => Err(io::Error::other("it is closed")),
            true => read(io::stdin(), enough),
            false => File::open(path).and_then(|file| bytes_of(file, path, enough)),
        };
        let failed = |error| Failure::system(format_args!("cannot read {}", name(path)), error);
        Ok(Source {
            bytes: bytes.map_err(failed)?,
            path: path.to_path_buf(),
        })
    }

    /// Returns what a proved function reports about these bytes, or the failure that states its
    /// refusal.
    pub fn accepted<T>(&self, result: Result<T, Refusal>) -> Result<T, Failure> {
        result.map_err(|refusal| Failure::refused(self.name(), refusal))
    }

    /// Returns the name of the bytes, for messages.
    pub fn name(&self) -> String {
        name(&self.path)
    }

    /// Whether these bytes are those of the file at `path`, even if its name differs.
    pub fn is_at(&self, path: &Path) -> bool {
        match (fs::metadata(&self.path), fs::metadata(path)) {
            (Ok(here), Ok(there)) => is_same(&here, &there),
            _ => false,
        }
    }
}

impl Deref for Source {
    type Target = [u8];

    fn deref(&self) -> &[u8] {
        match &self.bytes {
            Bytes::Filled(bytes, _) => bytes,
            Bytes::Read(bytes) => bytes,
        }
    }
}

/// Holds the bytes of an opened file, or reads them if it is not a regular file, such as a pipe. Some files of the system
/// say that they have no bytes and can be read all the same.
fn bytes_of(file: File, path: &Path, enough: u64) -> io::Result<Bytes> {
    let metadata = file.metadata()?;
    if !metadata.is_file() || metadata.len() == 0 {
        return read(file, enough);
    }
    let length = metadata.len().min(enough);
    let bytes = filled(&file, length, &shown(path), "")?;
    Ok(Bytes::Filled(bytes, file))
}

/// Holds the first bytes of a regular file, to be filled from it when they are touched. `holds` is what the message says, if
/// the file cannot be read then, between what happened and what to do.
pub fn filled(file: &File, length: u64, name: &str, holds: &str) -> io::Result<Filled> {
    let length = usize::try_from(length).map_err(io::Error::other)?;
    let sentence = |what: String, advice: &str| format!("asdf-layout: {what}; {holds}{advice}\n");
    let sentences = Sentences {
        shortened: sentence(
            format!("{name} has fewer bytes than its length said, as if it had become shorter"),
            "try again",
        ),
        unreadable: sentence(
            format!("cannot read {name}"),
            "its disk or its file system failed",
        ),
        no_memory: sentence(
            format!("there is not enough memory to read {name}"),
            "try a machine with more",
        ),
    };
    Filled::new(file, length, sentences)
}

/// Reads to the end, but no more than `enough` bytes.
fn read(input: impl Read, enough: u64) -> io::Result<Bytes> {
    let mut bytes = Vec::new();
    // One more byte shows that there are too many.
    input
        .take(enough.min(TOO_LONG + 1))
        .read_to_end(&mut bytes)?;
    Ok(Bytes::Read(bytes))
}

/// Locks a file against edits. If an edit goes on for too long, or the file cannot be locked, it is read as it is. Returns
/// false if an edit goes on.
fn lock(path: &Path, file: &File) -> bool {
    let begun = Instant::now();
    while let Err(TryLockError::WouldBlock) = file.try_lock_shared() {
        if begun.elapsed() >= PATIENCE {
            let name = shown(path);
            note(format_args!(
                "warning: another program has locked {name} and may be editing it; it is read as it is"
            ));
            return false;
        }
        sleep(PAUSE);
    }
    true
}
