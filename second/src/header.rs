//! Reads the header line and the comments after it.

use crate::index_form::INDEX_LINE;
use crate::line::{decimal, line_at, LineEnd};
use crate::refusal::*;

/// The six bytes with which every file begins.
const FILE_BEGIN: &[u8] = b"#ASDF ";
const MOST_VERSION_DIGITS: usize = 4;

/// The three numbers of the file format version.
#[derive(Debug, Clone, Copy, PartialEq, Eq)]
pub struct Version {
    pub major: u16,
    pub minor: u16,
    pub patch: u16,
}

/// The header line: its version, its line end and where the next line starts.
pub(crate) struct Header {
    pub version: Version,
    pub line_end: LineEnd,
    pub end: usize,
}

/// Whether the bytes begin like a file. Looks at six bytes at most.
pub(crate) fn begins_like_file(bytes: &[u8]) -> bool {
    bytes.starts_with(FILE_BEGIN)
}

/// Reads the header line. Refusals, in this order: 2, 3, 4.
pub(crate) fn read_header(file: &[u8]) -> Result<Header, Refusal> {
    if !begins_like_file(file) {
        return Err(Refusal::of_whole(NOT_ASDF));
    }
    let version_start = FILE_BEGIN.len();
    let refused = |number| Refusal::at(number, version_start);
    let line = line_at(file, version_start).ok_or(refused(VERSION_MALFORMED))?;
    let version = version(line.text).ok_or(refused(VERSION_MALFORMED))?;
    if version.major != 1 {
        return Err(refused(VERSION_NOT_ONE));
    }
    Ok(Header {
        version,
        line_end: line.line_end,
        end: line.next,
    })
}

/// Returns the version if the whole text is one, from its first byte to its last.
fn version(text: &[u8]) -> Option<Version> {
    let mut numbers = text.split(|&byte| byte == b'.').map(version_number);
    let version = Version {
        major: numbers.next()??,
        minor: numbers.next()??,
        patch: numbers.next()??,
    };
    numbers.next().is_none().then_some(version)
}

/// Reads one number of a version.
fn version_number(digits: &[u8]) -> Option<u16> {
    decimal(digits, MOST_VERSION_DIGITS).map(|value| value as u16)
}

/// Returns where the comments that start at `start` end. Refusals: 5, 6.
pub(crate) fn comments_end(file: &[u8], start: usize) -> Result<usize, Refusal> {
    let mut at = start;
    while file.get(at) == Some(&b'#') {
        let line = line_at(file, at).ok_or(Refusal::at(COMMENT_NOT_ENDED, at))?;
        if line.text == INDEX_LINE {
            return Err(Refusal::at(INDEX_AMONG_COMMENTS, at));
        }
        at = line.next;
    }
    Ok(at)
}
