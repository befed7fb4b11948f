//! The old room of a file that is being edited, kept in a second file beside it until the edit is finished.
//!
//! The second file is first written under another name, and gets its own name only when it is complete and on the disk. So if
//! it is there, the file may be half edited; if it is not, the file is whole, unless somebody who may rename files in the
//! folder took it away. What is found under that name may also be a stranger's, so it is believed only if nobody but the
//! caller, the file's owner or root can have written it.

use crate::change::{self, Change, Stated};
use crate::digest::Digest;
use crate::failure::Failure;
use crate::names::{quoted, shown};
use crate::steps::Steps;
use crate::target::{is_same, write_at, Target, UNCHANGED};
use asdf_system::{caller, name_of};
use std::ffi::{OsStr, OsString};
use std::fs::{self, File, Metadata};
use std::io::{self, ErrorKind, Read};
use std::os::unix::ffi::{OsStrExt, OsStringExt};
use std::os::unix::fs::{FileExt, FileTypeExt, MetadataExt};
use std::path::{Path, PathBuf};

/// What the name of a kept room has after the name of its file.
const SUFFIX: &str = ".old-room";
/// The suffixes while it is being written. If somebody else has a file with the first one, the next one is taken.
const PART_SUFFIXES: [&str; 4] = [
    ".old-room.part",
    ".old-room.pt-2",
    ".old-room.pt-3",
    ".old-room.pt-4",
];
/// The longest suffix. A kept room that is set aside has a point and a number of up to four digits instead of `.part`.
const LONGEST_SUFFIX: usize = PART_SUFFIXES[0].len();
/// The lines of a kept room have fewer bytes than this.
const MOST_LINES: u64 = 4_096;
/// The last number of a kept room that is set aside.
const MOST_ASIDE: u32 = 9_999;
/// The longest name of a file that Linux allows, in bytes.
const LONGEST_NAME: usize = 255;
/// How many digits of its digest a long name gets instead of its end.
const DIGITS: usize = 16;
/// Only the owner may read the kept room, because the file itself may be private.
const MODE: u32 = 0o600;
/// The rights of others to write.
const WRITABLE_BY_OTHERS: u32 = 0o022;
const ROOT: u32 = 0;

/// What has the name of a kept room.
pub enum Beside {
    Nothing,
    /// It can be believed, and is about a file with this inode and length. Whether it fits the file is not known yet.
    Kept(Box<Change>, File),
    /// It cannot be believed, for this reason, which follows its name in a sentence.
    Strange(String),
}

/// Returns the name of a file with a suffix. The end of a name that is too long for that is replaced by a digest.
fn with_suffix(name: &OsStr, suffix: &str) -> OsString {
    let name = name.as_bytes();
    let mut stem = name.to_vec();
    if name.len() + LONGEST_SUFFIX > LONGEST_NAME {
        let digest = Digest::of(&[name]);
        let mut kept = LONGEST_NAME - LONGEST_SUFFIX - DIGITS - 1;
        // A character of several bytes is not cut.
        while kept > 0 && name[kept] & 0xC0 == 0x80 {
            kept -= 1;
        }
        stem.truncate(kept);
        stem.push(b'~');
        stem.extend(&digest.as_bytes()[..DIGITS]);
    }
    stem.extend(suffix.as_bytes());
    OsString::from_vec(stem)
}

/// Returns the path of the kept room of a target, for messages.
pub fn path_for(target: &Target) -> PathBuf {
    target.beside(&with_suffix(&target.name(), SUFFIX))
}

/// Returns what to tell someone who reads the file at this path, if its old room seems to be kept.
pub fn warning(path: &Path) -> Option<String> {
    let file = fs::canonicalize(path).ok()?;
    let kept = file.with_file_name(with_suffix(file.file_name()?, SUFFIX));
    fs::symlink_metadata(&kept).ok()?;
    Some(format!(
        "there is {kept}, so an edit of {file} may be unfinished, and {file} half edited; \
         `asdf-layout restore {name}` brings the old tree back, \
         and `asdf-layout restore --set-aside {name}` keeps {file} as it is",
        kept = shown(&kept),
        file = shown(path),
        name = quoted(path)
    ))
}

/// Returns the sentence that reports an edit that was not finished.
pub fn unfinished(path: &Path) -> String {
    format!(
        "an edit of {} was not finished, so the file may be half edited; \
         run `asdf-layout restore {}` to bring the old tree back",
        shown(path),
        quoted(path)
    )
}

/// Returns the advice for a kept room that cannot be used.
pub fn way_out(target: &Target) -> String {
    format!(
        "if {} is good as it is, `asdf-layout restore --set-aside {}` moves this out of the way",
        target.shown(),
        quoted(&target.given)
    )
}

/// Finds out what has the name of the kept room. Follows no link and waits for no pipe.
pub fn look_beside(target: &Target) -> Result<Beside, Failure> {
    let name = with_suffix(&target.name(), SUFFIX);
    let failed = |error| Failure::at("cannot look at", &path_for(target), error);
    let Some(found) = target.folder.look_at(&name).map_err(failed)? else {
        return Ok(Beside::Nothing);
    };
    if let Some(reason) = why_not_believed(&found, target) {
        return Ok(Beside::Strange(reason));
    }
    let opened = target.folder.open_to_read(&name);
    let opened = opened.and_then(|file| Ok((file.metadata()?, file)));
    // What was opened may be another file than the one that was looked at.
    let judged = opened.and_then(
        |(metadata, file)| match why_not_believed(&metadata, target) {
            Some(reason) => Ok(Beside::Strange(reason)),
            None => read(file, target),
        },
    );
    Ok(judged.unwrap_or_else(|error| {
        Beside::Strange(match error.kind() {
            ErrorKind::PermissionDenied if found.uid() == caller() => {
                "cannot be read, although it is yours; `chmod 600` lets you".to_string()
            }
            ErrorKind::PermissionDenied => {
                format!("belongs to {}, who can restore the old tree", owner(&found))
            }
            _ => format!("cannot be read: {error}"),
        })
    }))
}

/// Returns why what was found cannot be believed, if it cannot. The reason names the owner.
fn why_not_believed(found: &Metadata, target: &Target) -> Option<String> {
    let kind = found.file_type();
    let reason = match () {
        () if kind.is_symlink() => "is a symbolic link, which no edit makes",
        () if kind.is_dir() => "is a folder, which no edit makes",
        () if kind.is_fifo() => "is a pipe, which no edit makes",
        () if !kind.is_file() => "is not a regular file",
        () if !is_trusted(found, target) => {
            let (owner, file) = (owner(found), target.shown());
            return Some(format!(
                "belongs to {owner}, and only what you, the owner of {file} or root wrote is believed; \
                 if {owner} edited {file}, {owner} can restore it"
            ));
        }
        () if is_writable_by_others(found) => {
            "is not believed, because others than its owner could have written it"
        }
        () if found.nlink() != 1 => "has several names, which no edit gives it",
        () => return None,
    };
    Some(format!("belongs to {} and {reason}", owner(found)))
}

/// Whether the owner of a file is one that is believed.
fn is_trusted(found: &Metadata, target: &Target) -> bool {
    [caller(), target.metadata().uid(), ROOT].contains(&found.uid())
}

fn is_writable_by_others(found: &Metadata) -> bool {
    found.mode() & WRITABLE_BY_OTHERS != 0
}

/// Returns the owner of a file, by name if the system knows it.
fn owner(file: &Metadata) -> String {
    let user = file.uid();
    match name_of(user) {
        Some(name) => format!("the user {}", shown(Path::new(&name))),
        None => format!("the user {user}"),
    }
}

/// Reads a kept room as a whole, once, and judges what was read. Its lines are judged first: a file that is about another one, or has
/// another length than its lines state, is not read further, because it may be so long that there is no memory for it.
fn read(file: File, target: &Target) -> io::Result<Beside> {
    let damaged =
        || Beside::Strange("is damaged, or another version of this tool wrote it".to_string());
    let length = file.metadata()?.len();
    let mut start = Vec::new();
    (&file).take(MOST_LINES).read_to_end(&mut start)?;
    let Some(stated) = Stated::read(&start) else {
        return Ok(damaged());
    };
    if let Some(reason) = why_other_file(&stated, target) {
        return Ok(Beside::Strange(reason));
    }
    let rooms = (stated.room.len() as u64).saturating_mul(2);
    let is_possible = stated.room.end as u64 <= target.metadata().len()
        && length == rooms.saturating_add(stated.lines.len() as u64);
    if !is_possible {
        return Ok(damaged());
    }
    let rest = start.split_off(stated.lines.len());
    let (old, new) = read_rooms(rest, &file, stated.room.len())?;
    let change = Change::stored(&stated, old, new);
    Ok(change.map_or_else(damaged, |change| Beside::Kept(Box::new(change), file)))
}

/// Reads two rooms of this length. Some bytes of them were read before.
fn read_rooms(before: Vec<u8>, file: &File, length: usize) -> io::Result<(Vec<u8>, Vec<u8>)> {
    let mut old = before;
    let mut new = old.split_off(length.min(old.len()));
    for room in [&mut old, &mut new] {
        let missing = length.saturating_sub(room.len());
        room.reserve_exact(missing);
        file.take(missing as u64).read_to_end(room)?;
    }
    Ok((old, new))
}

/// Says why a kept room is not about the file as it is, if that is so.
fn why_other_file(stated: &Stated, target: &Target) -> Option<String> {
    let [inode, device, length] = stated.numbers;
    let (file, now) = (target.shown(), target.metadata());
    let device = match device == now.dev() {
        true => "",
        false => ", perhaps on another device",
    };
    if inode != now.ino() {
        return Some(format!(
            "was kept for another file{device}, with the inode {inode}; {file} has the inode {}",
            now.ino()
        ));
    }
    if length != now.len() {
        return Some(format!(
            "was kept for a file of {length} bytes, and {file} has {} now",
            now.len()
        ));
    }
    None
}

/// Keeps the old room of a file, and returns the file that holds it. When this returns without a failure, it is on the disk under
/// its name.
pub fn keep(target: &Target, change: &Change, steps: &mut Steps) -> Result<File, Failure> {
    let kept = with_suffix(&target.name(), SUFFIX);
    remove_parts(target);
    let failed = |error| not_kept(target, error);
    let (part, written) = write_part(target, change, steps).map_err(failed)?;
    let named = steps.run(|| target.folder.rename_to_new(&part, &kept));
    named.map_err(|error| {
        // It is of no use, because the file has not changed.
        let _ = target.folder.remove(&part);
        failed(error)
    })?;
    let safe = steps.run(|| target.folder.sync(&target.file));
    safe.map_err(|error| {
        let _ = target.folder.remove(&kept);
        failed(error)
    })?;
    match has_name(target, &kept, &written).map_err(failed)? {
        true => Ok(written),
        false => Err(failed(io::Error::new(
            ErrorKind::AlreadyExists,
            "another program removed or replaced it at once",
        ))),
    }
}

/// Reports that the old room cannot be kept, so that the edit was not made.
fn not_kept(target: &Target, error: io::Error) -> Failure {
    let advice = match error.kind() {
        ErrorKind::PermissionDenied | ErrorKind::ReadOnlyFilesystem => Some(
            "an edit needs a folder in which you may make files; \
             copy the file to one, and edit the copy",
        ),
        ErrorKind::Unsupported => Some("copy the file to another file system, and edit the copy"),
        ErrorKind::ResourceBusy => {
            Some("remove them, or copy the file to another folder and edit the copy")
        }
        ErrorKind::AlreadyExists => Some("edit again"),
        _ => None,
    };
    let failure = Failure::at("cannot keep the old tree in", &path_for(target), error);
    failure.with_advice(UNCHANGED).with_advice_if(advice)
}

/// Removes what stopped edits left while they were writing the kept room. It is of no use: those edits did not change the file,
/// or the kept room has its name already. Returns whether there was anything.
pub fn remove_parts(target: &Target) -> bool {
    let remove = |suffix| {
        let part = with_suffix(&target.name(), suffix);
        is_part(target, &part) && target.folder.remove(&part).is_ok()
    };
    PART_SUFFIXES.map(remove).contains(&true)
}

/// Whether an edit wrote what has this name. Whatever somebody else put there is left alone.
fn is_part(target: &Target, part: &OsStr) -> bool {
    let Ok(Some(found)) = target.folder.look_at(part) else {
        return false;
    };
    let is_private = found.mode() & 0o777 == MODE;
    let is_possible = found.is_file() && is_trusted(&found, target) && is_private;
    let begins_right = |file: File| {
        let mut start = Vec::new();
        let title = change::TITLE.as_bytes();
        let read = file.take(title.len() as u64).read_to_end(&mut start);
        read.is_ok() && (start.is_empty() || start == title)
    };
    is_possible && target.folder.open_to_read(part).is_ok_and(begins_right)
}

/// Writes the kept room under its first name, and brings it to the disk. Returns that name and the file.
fn write_part(target: &Target, change: &Change, steps: &mut Steps) -> io::Result<(OsString, File)> {
    let (part, file) = create_part(target, steps)?;
    let written = fill_part(target, change, &file, steps);
    written.map(|()| (part.clone(), file)).inspect_err(|_| {
        let _ = target.folder.remove(&part);
    })
}

/// Makes a new file for the kept room, under the first name that is free.
fn create_part(target: &Target, steps: &mut Steps) -> io::Result<(OsString, File)> {
    for suffix in PART_SUFFIXES {
        let part = with_suffix(&target.name(), suffix);
        match steps.run(|| target.folder.create(&part, MODE)) {
            Err(error) if error.kind() == ErrorKind::AlreadyExists => (),
            created => return created.map(|file| (part, file)),
        }
    }
    let part = with_suffix(&target.name(), PART_SUFFIXES[0]);
    let found = target.folder.look_at(&part).ok().flatten();
    let owner = found.map_or("somebody".to_string(), |found| owner(&found));
    let part = shown(&target.beside(&part));
    let reason = format!("{part}, which belongs to {owner}, and three others are in the way");
    Err(io::Error::new(ErrorKind::ResourceBusy, reason))
}

/// Writes the kept room into its file.
fn fill_part(target: &Target, change: &Change, file: &File, steps: &mut Steps) -> io::Result<()> {
    // Some file systems show other owners or rights than they were asked for. Then `restore` would not believe it.
    if let Some(reason) = why_not_believed(&file.metadata()?, target) {
        let reason = format!("on this file system it {reason}");
        return Err(io::Error::new(ErrorKind::Unsupported, reason));
    }
    let lines = change.lines();
    let mut offset = 0;
    for bytes in [lines.as_bytes(), &change.old, &change.new] {
        write_at(file, bytes, offset, steps)?;
        offset += bytes.len() as u64;
    }
    steps.run(|| file.sync_all())
}

/// Whether the name is that of this file, and not of one that somebody else put there.
fn has_name(target: &Target, name: &OsStr, file: &File) -> io::Result<bool> {
    let named = target.folder.look_at(name)?;
    let file = file.metadata()?;
    Ok(named.is_some_and(|named| is_same(&named, &file)))
}

/// Removes the kept room of a file that is whole again. `holds` says what the file has now.
pub fn remove(target: &Target, kept: &File, holds: &str, steps: &mut Steps) -> Result<(), Failure> {
    let name = with_suffix(&target.name(), SUFFIX);
    let (path, file) = (path_for(target), target.shown());
    // Another edit may have begun, if the file was replaced meanwhile. Its old room is not ours to remove.
    let is_ours = has_name(target, &name, kept);
    let removed = is_ours.and_then(|is_ours| match is_ours {
        true => steps.run(|| target.folder.remove(&name)),
        false => Err(io::Error::other("another program removed or replaced it")),
    });
    removed.map_err(|error| {
        let failure = Failure::at("cannot remove", &path, error);
        failure.with_advice(format_args!("{file} {holds}; {}", way_out(target)))
    })?;
    let safe = steps.run(|| target.folder.sync(&target.file));
    safe.map_err(|error| {
        let kept = shown(&path);
        let failure = Failure::system(
            format_args!("{kept} was removed, but perhaps not on the disk"),
            error,
        );
        let back = format!(
            "if {kept} is there again after a restart, `asdf-layout restore --set-aside {}` \
             moves it out of the way",
            quoted(&target.given)
        );
        failure.with_advice(format_args!("{file} {holds}; {back}"))
    })
}

/// Moves what has the name of the kept room out of the way, and returns where it is now.
pub fn set_aside(target: &Target) -> Result<PathBuf, Failure> {
    let kept = with_suffix(&target.name(), SUFFIX);
    let failed = |error| {
        let failure = Failure::at("cannot move", &path_for(target), error);
        let found = target.folder.look_at(&kept).ok().flatten();
        failure.with_advice_if(found.map(|found| {
            let (owner, file) = (owner(&found), target.shown());
            format!(
                "it belongs to {owner}, who can remove it; \
                 or copy {file} to another folder and edit the copy"
            )
        }))
    };
    for number in 1..=MOST_ASIDE {
        let aside = with_suffix(&target.name(), &format!("{SUFFIX}.{number}"));
        match target.folder.rename_to_new(&kept, &aside) {
            Err(error) if error.kind() == ErrorKind::AlreadyExists => continue,
            result => result.and_then(|()| target.folder.sync(&target.file)),
        }
        .map_err(failed)?;
        return Ok(target.beside(&aside));
    }
    Err(Failure::not_done(format!(
        "{MOST_ASIDE} old rooms of {} are set aside already; remove some of them",
        target.shown()
    )))
}

/// Reads the room of the file as it is now.
pub fn present_room(change: &Change, target: &Target) -> Result<Vec<u8>, Failure> {
    let mut bytes = vec![0; change.old.len()];
    let read = target.file.read_exact_at(&mut bytes, change.start as u64);
    let failed = |error| Failure::at("cannot read", &target.given, error).with_advice(UNCHANGED);
    read.map_err(failed)?;
    Ok(bytes)
}
