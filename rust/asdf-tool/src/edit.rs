//! Edits a file in place. The old room is kept until the new one is complete, so that an interrupted edit can be undone.

use crate::change::{self, Change};
use crate::failure::{note, Failure};
use crate::kept::{self, Beside};
use crate::names::{quoted, shown};
use crate::source::Source;
use crate::steps::Steps;
use crate::target::Target;
use asdf_layout::{Layout, Refusal};
use std::fs::File;
use std::os::unix::fs::MetadataExt;
use std::path::{Path, PathBuf};

/// Replaces the tree of the file by a text.
pub fn edit(path: &Path, text: &Source) -> Result<(), Failure> {
    let target = Target::open(path)?;
    refuse_several_names(&target)?;
    refuse_unfinished(&target)?;
    let change = changed(&target, text)?;
    let mut steps = Steps::new();
    let kept = kept::keep(&target, &change, &mut steps)?;
    let written = target.write(&change.new, change.start, &mut steps);
    written.map_err(|failure| failure.with_advice(kept::unfinished(path)))?;
    finish(&target, &kept, "has its new tree", &mut steps)
}

/// Brings back the tree that the file had before an edit that was not finished.
pub fn restore(path: &Path) -> Result<(), Failure> {
    let target = Target::open(path)?;
    let was_left = kept::remove_parts(&target);
    let (change, kept) = match kept::look_beside(&target)? {
        Beside::Nothing => return nothing_to_restore(&target, was_left),
        Beside::Strange(reason) => return Err(not_restored(&target, &reason)),
        Beside::Kept(change, kept) => (change, kept),
    };
    if let Some(reason) = why_unfit(&change, &target)? {
        return Err(not_restored(&target, &reason));
    }
    let mut steps = Steps::new();
    let written = target.write(&change.old, change.start, &mut steps);
    written.map_err(|failure| {
        let (file, kept) = (target.shown(), shown(&kept::path_for(&target)));
        failure.with_advice(format_args!(
            "{file} may be half edited, and its old tree is still in {kept}; \
             restore it when {file} can be written"
        ))
    })?;
    finish(&target, &kept, "has its old tree", &mut steps)
}

/// Moves what has the name of the kept room out of the way, unless the file is half edited and can be restored. Returns its path
/// before and after.
pub fn set_aside(path: &Path) -> Result<[PathBuf; 2], Failure> {
    let target = Target::open(path)?;
    let kept = kept::path_for(&target);
    match kept::look_beside(&target)? {
        Beside::Nothing => {
            let kept = shown(&kept);
            return Err(Failure::not_done(format!(
                "nothing to set aside: there is no {kept}"
            )));
        }
        Beside::Kept(change, _) => settle(&change, &target),
        Beside::Strange(_) => target.sync().inspect(|()| {
            note(format_args!(
                "this does not say whether {} is half edited; look at it before you edit it",
                target.shown()
            ));
        }),
    }
    .map_err(|failure| failure.with_advice(format_args!("{} was not moved", shown(&kept))))?;
    Ok([kept, kept::set_aside(&target)?])
}

/// Brings the file to the disk as it is, before its old room is set aside. A file that is half edited and can be restored is not
/// settled, because the kept room is all that is left of the old tree.
fn settle(change: &Change, target: &Target) -> Result<(), Failure> {
    if why_unfit(change, target)?.is_some() {
        return target.sync();
    }
    let room = kept::present_room(change, target)?;
    if room != change.old && room != change.new {
        return Err(Failure::not_done(format!(
            "{file} is half edited and can be restored; run `asdf-layout restore {name}`",
            file = target.shown(),
            name = quoted(&target.given)
        )));
    }
    // What is read may be in memory only, even if the system reported that it could not be brought to the disk.
    target.write(&room, change.start, &mut Steps::new())
}

/// Refuses to edit a file with several names: an edit that is interrupted would be known under one of them only.
fn refuse_several_names(target: &Target) -> Result<(), Failure> {
    let names = target.metadata().nlink();
    if names == 1 {
        return Ok(());
    }
    Err(Failure::not_done(format!(
        "{} has {names} names (hard links), and the edit would change the file under all of them; \
         it was not edited; copy it to a file of its own and edit that",
        target.shown()
    )))
}

/// Refuses to begin an edit while something has the name of the kept room.
fn refuse_unfinished(target: &Target) -> Result<(), Failure> {
    // On some file systems an edit that was stopped leaves a second name of what is kept.
    kept::remove_parts(target);
    let (file, kept) = (target.shown(), shown(&kept::path_for(target)));
    let unused = |reason| {
        format!(
            "{kept} {reason}; {}; then edit again",
            kept::way_out(target)
        )
    };
    let sentence = match kept::look_beside(target)? {
        Beside::Nothing => return Ok(()),
        Beside::Strange(reason) => unused(reason),
        Beside::Kept(change, _) => match why_unfit(&change, target)? {
            Some(reason) => unused(reason),
            None if kept::present_room(&change, target)? == change.new => format!(
                "it has the whole new tree of the last edit, but {kept} was not removed; \
                 `asdf-layout restore --set-aside {name}` keeps the new tree, \
                 and `asdf-layout restore {name}` brings the old one back; \
                 do one of these, then edit again",
                name = quoted(&target.given)
            ),
            None => format!("{}; then edit again", kept::unfinished(&target.given)),
        },
    };
    Err(Failure::not_done(format!(
        "{file} was not edited: {sentence}"
    )))
}

/// Lets the proved edit make the new room, and returns the change. Nothing of the file changes yet, and nothing more is read of
/// it afterwards.
fn changed(target: &Target, text: &Source) -> Result<Change, Failure> {
    let mut bytes = target.bytes()?;
    let file = bytes
        .lend()
        .map_err(|error| Failure::at("cannot make a private copy of", &target.given, error))?;
    let refused = |refusal| Failure::refused(format!("{} was not edited", target.shown()), refusal);
    let layout = Layout::read(file).map_err(refused)?;
    // Without a tree the edit is refused.
    let room = layout.tree.map_or(0..0, |tree| tree.room());
    let old = file[room.clone()].to_vec();
    asdf_layout::edit(file, text)
        .map_err(|refusal| refused(refusal).with_advice_if(about_text(refusal, text, old.len())))?;
    Change::new(target.metadata(), room.start, old, file, &layout).map_err(refused)
}

/// Says more about a text that is refused: its size, that of the room, and what to do.
fn about_text(refusal: Refusal, text: &Source, room: usize) -> Option<String> {
    let (name, length) = (text.name(), text.len());
    let is_unended = text.last().is_some_and(|&byte| byte != b'\n');
    let advice = match refusal.number {
        Refusal::TEXT_NOT_ONE_TREE if is_unended => {
            "its last line has no line end, which a tree needs; add one".to_string()
        }
        Refusal::TEXT_NOT_ONE_TREE => {
            "a tree goes from its line `%YAML 1.1` through its line `...`, \
             with nothing before or after it"
                .to_string()
        }
        Refusal::TEXT_LONGER_THAN_ROOM => format!("shorten it by {} bytes", length - room),
        _ => return None,
    };
    Some(format!(
        "{name} has {length} bytes, and the room has {room}; {advice}"
    ))
}

/// Removes the kept room of a file that is whole. `holds` says what the file has.
fn finish(target: &Target, kept: &File, holds: &str, steps: &mut Steps) -> Result<(), Failure> {
    kept::remove(target, kept, holds, steps)?;
    match target.is_named() {
        true => Ok(()),
        false => Err(Failure::not_done(format!(
            "{name} was replaced or removed by another program in the meantime; \
             the file that had this name {holds}, and what has it now was not changed; \
             look at it before you repeat the command",
            name = target.shown()
        ))),
    }
}

/// Reports that no interrupted edit is known. `was_left` says whether one was stopped before it changed anything.
fn nothing_to_restore(target: &Target, was_left: bool) -> Result<(), Failure> {
    let name = target.shown();
    if was_left {
        note(format_args!(
            "an edit of {name} was stopped before it changed anything; what it left was removed"
        ));
        return Ok(());
    }
    let kept = shown(&kept::path_for(target));
    Err(Failure::not_done(format!(
        "nothing to restore: there is no {kept}"
    )))
}

/// Reports that the kept room cannot be restored.
fn not_restored(target: &Target, reason: &str) -> Failure {
    let kept = shown(&kept::path_for(target));
    Failure::not_done(format!(
        "{kept} {reason}; nothing was restored; {}",
        kept::way_out(target)
    ))
}

/// Says why the old room does not fit the file as it is now, if it does not.
fn why_unfit(change: &Change, target: &Target) -> Result<Option<String>, Failure> {
    let mut bytes = target.bytes()?;
    let file = bytes
        .lend()
        .map_err(|error| Failure::at("cannot make a private copy of", &target.given, error))?;
    Ok(put_old_room(change, file))
}

/// Puts the old room into the bytes of a file that may be half edited. Returns why they cannot be those of such a file, if
/// they cannot.
fn put_old_room(change: &Change, file: &mut [u8]) -> Option<String> {
    // A file that is too long for an edit is held in part only.
    let Some(room) = file.get_mut(change.room()) else {
        return Some("does not fit: its room is outside the file".to_string());
    };
    if let Some(reason) = why_other_room(change, room) {
        return Some(reason);
    }
    room.copy_from_slice(&change.old);
    // The proved reader has to find the old room where it was, and everything around it as it was.
    let layout = Layout::read(file).ok();
    let layout =
        layout.filter(|layout| layout.tree.is_some_and(|tree| tree.room() == change.room()));
    let around = layout.and_then(|layout| change::around(file, change.start, &layout).ok());
    match around {
        None => {
            Some("does not fit: with the old tree, the room would not be where it was".to_string())
        }
        Some(around) if around != change.around => Some(
            "does not fit: what is before the tree, or the header of a block, is not as it was"
                .to_string(),
        ),
        Some(_) => None,
    }
}

/// Says which bytes of the room are neither those of the old tree nor those of the new one, if there are any.
fn why_other_room(change: &Change, room: &[u8]) -> Option<String> {
    let rooms = change.old.iter().zip(&change.new);
    let bytes = room.iter().zip(rooms).enumerate();
    let mut others = bytes.filter(|(_, (byte, (old, new)))| byte != old && byte != new);
    let (first, _) = others.next()?;
    let offset = change.start + first;
    Some(match others.count() {
        0 => format!(
            "does not fit: the byte at offset {offset} is neither that of the old tree nor that of the new one"
        ),
        more => format!(
            "does not fit: {} bytes of the room, the first at offset {offset}, \
             are neither those of the old tree nor those of the new one",
            more + 1
        ),
    })
}
