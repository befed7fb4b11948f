//! Tests what `restore` believes. In a shared folder anybody can leave a file beside another, and after an interrupted edit
//! another file may get its name.

mod common;

use common::case::*;
use common::*;
use std::fs::{self, File, Permissions};
use std::io::{self, Write};
use std::os::unix::fs::{chown, symlink, FileExt, MetadataExt, PermissionsExt};
use std::os::unix::process::CommandExt;
use std::path::Path;
use std::process::Command;
use std::sync::OnceLock;
use std::time::{Duration, Instant};

/// A user that is not root and not the caller.
const OTHER_USER: u32 = 65_534;

/// Runs the tool as another user.
fn run_as_other(hook: &str, words: &[&str]) -> Ran {
    let mut command = command(words);
    command.env("ASDF_LAYOUT_HOOK", hook);
    command.uid(OTHER_USER).gid(OTHER_USER);
    command.output().unwrap().into()
}

/// Whether the tests may act as a second user. If not, this says that a test is skipped.
fn may_act_as_other(test: &str) -> bool {
    static MAY: OnceLock<bool> = OnceLock::new();
    let may = *MAY.get_or_init(can_act_as_other);
    if !may {
        // What a test prints is hidden if it passes, but not what it writes like this.
        let report = format!("skipped: {test}, which needs a second user\n");
        io::stderr().write_all(report.as_bytes()).unwrap();
    }
    may
}

/// Tries whether a second user can run the tool and reach the files of the tests.
fn can_act_as_other() -> bool {
    let folder = folder("strangers-reachable");
    fs::set_permissions(&folder, Permissions::from_mode(0o777)).unwrap();
    let succeeds = |command: &mut Command| {
        let ran = command.uid(OTHER_USER).gid(OTHER_USER).output();
        ran.is_ok_and(|ran| ran.status.success())
    };
    fs::metadata(&folder).unwrap().uid() != OTHER_USER
        && succeeds(&mut command(&["--help"]))
        && succeeds(Command::new("touch").arg(folder.join("file")))
}

impl Case {
    /// Replaces the file by another one, which has another inode.
    fn replace(&self, bytes: &[u8]) {
        let other = self.beside(".other");
        fs::write(&other, bytes).unwrap();
        fs::rename(other, &self.file).unwrap();
    }

    /// Changes bytes of the file in place.
    fn overwrite(&self, offset: usize, bytes: &[u8]) {
        let file = File::options().write(true).open(&self.file).unwrap();
        file.write_all_at(bytes, offset as u64).unwrap();
    }
}

#[test]
fn another_night_under_the_same_name_does_not_get_the_old_tree() {
    let case = Case::new("strangers-night");
    case.stop_in(State::KeptHalf);
    // The same length, the same room, and all but the tree is the same.
    let mut night = case.old.clone();
    night[12 + TREE.len()] = b'#';
    case.replace(&night);
    case.assert_only_set_aside("was kept for another file, with the inode ");
    assert!(case.bytes() == night);
    assert_eq!(case.edit(), SILENT);
}

#[test]
fn old_room_can_be_put_back_by_hand_as_the_documents_say() {
    let case = Case::new("strangers-by-hand");
    case.stop_in(State::KeptHalf);
    // Both are copied, so the copy of the file has another inode.
    case.replace(&case.bytes());
    case.restore().assert_says("was kept for another file");
    let using = fs::read_to_string(format!("{DATA}/../../docs/USING.md")).unwrap();
    let lines = using.split("```").find(|part| part.contains("tail -n +8"));
    let lines = lines
        .unwrap()
        .trim_start_matches("sh")
        .replace("FILE", "file.asdf");
    let folder = case.file.parent().unwrap();
    let ran = Command::new("bash")
        .args(["-euc", &lines])
        .current_dir(folder)
        .output()
        .unwrap();
    assert!(ran.status.success(), "{ran:?}");
    assert_eq!(case.state(), State::KeptOld);
}

#[test]
fn another_night_in_the_same_inode_does_not_get_the_old_tree() {
    let case = Case::new("strangers-inode");
    case.stop_in(State::KeptHalf);
    // One byte of the room is neither the old one nor the new one.
    let mut night = case.old.clone();
    night[20_000] = b'#';
    case.overwrite(0, &night);
    case.assert_only_set_aside("the byte at offset 20000 is neither that of the old tree nor ");
    assert!(case.bytes() == night);
    assert_eq!(case.edit(), SILENT);
}

#[test]
fn all_bytes_that_are_neither_old_nor_new_are_counted() {
    let case = Case::new("strangers-bytes");
    case.stop_in(State::KeptHalf);
    case.overwrite(30_000, b"####");
    case.assert_only_set_aside("4 bytes of the room, the first at offset 30000, are neither");
}

#[test]
fn file_whose_surroundings_changed_does_not_get_the_old_tree() {
    let case = Case::new("strangers-around");
    let block = case.old.len() - 57;
    for (offset, byte) in [
        // The version, the checksum of the block, and its used size.
        (6 + 2, b'1'),
        (block + 38, 1),
        (block + 29, 2),
    ] {
        let _ = fs::remove_file(case.beside(".old-room.1"));
        case.stop_in(State::KeptHalf);
        case.overwrite(offset, &[byte]);
        case.assert_only_set_aside("does not fit: ");
    }
}

#[test]
fn file_that_grew_or_shrank_does_not_get_the_old_tree() {
    let case = Case::new("strangers-length");
    for length in [case.old.len() + 1, case.old.len() - 1, 12, 0] {
        let _ = fs::remove_file(case.beside(".old-room.1"));
        case.stop_in(State::KeptNew);
        let file = File::options().write(true).open(&case.file).unwrap();
        file.set_len(length as u64).unwrap();
        case.assert_only_set_aside(&format!(" has {length} now"));
    }
}

#[test]
fn half_edited_file_that_can_be_restored_is_not_set_aside() {
    let case = Case::new("strangers-half");
    case.stop_in(State::KeptHalf);
    let ran = case.set_aside();
    assert_eq!((ran.status, case.state()), (Some(2), State::KeptHalf));
    ran.assert_says("is half edited and can be restored; run ");
    case.stop_in(State::KeptNew);
    assert_eq!(
        (case.set_aside().status, case.state()),
        (Some(0), State::New)
    );
    // A second one does not replace the first.
    case.stop_in(State::KeptNew);
    assert!(case.set_aside().output.ends_with(".old-room.2\n"));
    let ran = case.set_aside();
    assert_eq!(ran.status, Some(2));
    ran.assert_says("nothing to set aside");
}

#[test]
fn old_room_is_set_aside_only_when_the_file_is_on_the_disk() {
    let case = Case::new("strangers-disk");
    case.stop_in(State::KeptNew);
    let words = ["restore", "--set-aside", word(&case.file)];
    let mut failed = 0;
    for step in 1..MOST_STEPS {
        let ran = run_with_hook(&format!("fail {step}"), &words);
        if ran.status == Some(0) {
            break;
        }
        assert_eq!((ran.status, case.state()), (Some(2), State::KeptNew));
        failed += 1;
    }
    // The room is written in pieces, and then brought to the disk.
    assert_eq!((failed, case.state()), (5, State::New));
}

#[test]
fn what_no_edit_wrote_is_not_restored() {
    let case = Case::new("strangers-damaged");
    case.stop_in(State::KeptOld);
    let mut kept = fs::read(case.kept()).unwrap();
    *kept.last_mut().unwrap() ^= 1;
    for bytes in [
        &b""[..],
        b"asdf-layout-room 12 3\nabc",
        b"asdf-layout-room 12 4 200087\nabc",
        &kept,
    ] {
        let _ = fs::remove_file(case.beside(".old-room.1"));
        fs::write(case.kept(), bytes).unwrap();
        fs::set_permissions(case.kept(), Permissions::from_mode(0o600)).unwrap();
        case.assert_only_set_aside("is damaged, or another version of this tool wrote it");
    }
}

#[test]
fn long_file_in_the_name_of_a_kept_room_takes_no_memory() {
    let case = Case::new("strangers-huge");
    let huge = File::create(case.kept()).unwrap();
    huge.set_len(1 << 42).unwrap();
    fs::set_permissions(case.kept(), Permissions::from_mode(0o600)).unwrap();
    case.assert_only_set_aside("is damaged, or another version of this tool wrote it");
}

#[test]
fn links_pipes_and_folders_are_not_believed_and_not_waited_for() {
    let case = Case::new("strangers-kinds");
    case.stop_in(State::KeptHalf);
    let real = case.beside(".real");
    fs::rename(case.kept(), &real).unwrap();
    type Make = fn(&Case, &Path);
    let kinds: [(&str, Make); 5] = [
        ("and is a symbolic link", |case, real| {
            symlink(real, case.kept()).unwrap()
        }),
        ("and is a symbolic link", |case, _| {
            symlink("/nothing", case.kept()).unwrap()
        }),
        ("and is a folder", |case, _| {
            fs::create_dir(case.kept()).unwrap()
        }),
        ("and is a pipe", |case, _| {
            let made = Command::new("mkfifo").arg(case.kept()).status().unwrap();
            assert!(made.success());
        }),
        ("and has several names", |case, real| {
            fs::hard_link(real, case.kept()).unwrap()
        }),
    ];
    for (reason, make) in kinds {
        let aside = case.beside(".old-room.1");
        let _ = fs::remove_file(&aside).or_else(|_| fs::remove_dir(&aside));
        make(&case, &real);
        let begun = Instant::now();
        case.assert_only_set_aside(reason);
        assert!(begun.elapsed() < Duration::from_secs(10));
    }
    fs::remove_file(case.beside(".old-room.1")).unwrap();

    // The same file under its own name is restored.
    fs::rename(&real, case.kept()).unwrap();
    for mode in [0o620, 0o602] {
        fs::set_permissions(case.kept(), Permissions::from_mode(mode)).unwrap();
        let ran = case.restore();
        assert_eq!((ran.status, case.state()), (Some(2), State::KeptHalf));
        ran.assert_says("others than its owner could have written it");
    }
    fs::set_permissions(case.kept(), Permissions::from_mode(0o600)).unwrap();
    assert_eq!((case.restore(), case.state()), (SILENT, State::Old));
}

#[test]
fn strangers_file_is_not_believed_and_its_owner_is_named() {
    if !may_act_as_other("a stranger's file is not believed") {
        return;
    }
    let case = Case::new("strangers-owner");
    case.stop_in(State::KeptHalf);
    chown(case.kept(), Some(OTHER_USER), None).unwrap();
    let half = case.bytes();
    let ran = case.restore();
    assert_eq!(ran.status, Some(2));
    ran.assert_says("or root wrote is believed; if ");
    ran.assert_says(" can restore it; ");
    assert!(case.bytes() == half);
    // The owner of the file itself is believed.
    chown(&case.file, Some(OTHER_USER), None).unwrap();
    assert_eq!((case.restore(), case.state()), (SILENT, State::Old));
}

#[test]
fn users_file_that_root_was_editing_is_left_to_root() {
    if !may_act_as_other("a file that root was editing is left to root") {
        return;
    }
    let case = Case::new("strangers-root");
    case.stop_in(State::KeptHalf);
    chown(&case.file, Some(OTHER_USER), None).unwrap();
    let half = case.bytes();
    let ran = run_as_other("", &["restore", word(&case.file)]);
    assert_eq!(ran.status, Some(2));
    ran.assert_says("belongs to the user root, who can restore the old tree");
    assert!(case.bytes() == half);
    // Nobody may move it from this folder but root, and the message says so.
    let ran = run_as_other("", &["restore", "--set-aside", word(&case.file)]);
    assert_eq!(ran.status, Some(2));
    ran.assert_says("it belongs to the user root, who can remove it; or copy ");
    assert_eq!((case.restore(), case.state()), (SILENT, State::Old));
}

#[test]
fn own_kept_room_that_cannot_be_read_is_told_as_such() {
    if !may_act_as_other("a kept room without any rights") {
        return;
    }
    let case = Case::new("strangers-rights");
    case.stop_in(State::KeptHalf);
    for path in [case.file.parent().unwrap(), &case.file, &case.kept()] {
        chown(path, Some(OTHER_USER), None).unwrap();
    }
    fs::set_permissions(case.kept(), Permissions::from_mode(0o000)).unwrap();
    let ran = run_as_other("", &["restore", word(&case.file)]);
    assert_eq!((ran.status, case.state()), (Some(2), State::KeptHalf));
    ran.assert_says("cannot be read, although it is yours; `chmod 600` lets you; ");
    fs::set_permissions(case.kept(), Permissions::from_mode(0o600)).unwrap();
    let ran = run_as_other("", &["restore", word(&case.file)]);
    assert_eq!((ran, case.state()), (SILENT, State::Old));
}

#[test]
fn file_that_may_not_be_written_is_told_as_such() {
    if !may_act_as_other("a file that may not be written") {
        return;
    }
    let case = Case::new("strangers-read-only");
    let ran = run_as_other("", &case.edit_words());
    assert_eq!((ran.status, case.state()), (Some(2), State::Old));
    ran.assert_says("only somebody who may write to the file can do this");
}

#[test]
fn folder_that_may_be_written_but_not_read_is_no_obstacle() {
    if !may_act_as_other("a folder that may be written but not read") {
        return;
    }
    let case = Case::new("strangers-unreadable");
    let folder = case.file.parent().unwrap();
    for path in [folder, &case.file, &case.text] {
        chown(path, Some(OTHER_USER), None).unwrap();
    }
    fs::set_permissions(folder, Permissions::from_mode(0o300)).unwrap();
    let edit = |hook: &str| run_as_other(hook, &case.edit_words());
    assert_eq!((edit(""), case.state()), (SILENT, State::New));
    let half = (1..MOST_STEPS).any(|step| {
        case.reset();
        chown(&case.file, Some(OTHER_USER), None).unwrap();
        edit(&format!("stop {step}"));
        case.state() == State::KeptHalf
    });
    assert!(half);
    let ran = run_as_other("", &["restore", word(&case.file)]);
    assert_eq!((ran, case.state()), (SILENT, State::Old));
    fs::set_permissions(folder, Permissions::from_mode(0o700)).unwrap();
    case.assert_nothing_beside();
}

#[test]
fn longest_names_are_edited_and_restored() {
    // 241 bytes leave room for the longest suffix, and 242 do not. The last has characters of several bytes.
    let names = [
        "a".repeat(241),
        "b".repeat(242),
        "c".repeat(255),
        "ü".repeat(127),
    ];
    for name in names {
        let case = Case::named("strangers-long", &name);
        assert_eq!((case.edit(), case.state()), (SILENT, State::New));
        case.assert_nothing_beside();
        let folder = case.file.parent().unwrap();
        let kept = || {
            let found = common::case::names(folder);
            found.into_iter().find(|name| name.ends_with(".old-room"))
        };
        let half = (1..MOST_STEPS).any(|step| {
            fs::write(&case.file, &case.old).unwrap();
            if let Some(kept) = kept() {
                fs::remove_file(folder.join(kept)).unwrap();
            }
            case.edit_with(&format!("stop {step}"));
            kept().is_some() && case.bytes() != case.old && case.bytes() != case.new
        });
        assert!(half);
        assert!(kept().unwrap().starts_with(&name[..200]));
        let warning = run(&["list", word(&case.file)]).errors;
        assert!(warning.contains("may be unfinished"), "{warning}");
        assert_eq!((case.restore(), case.state()), (SILENT, State::Old));
        case.assert_nothing_beside();
    }
}

#[test]
fn names_with_control_characters_are_escaped_and_quoted_in_advice() {
    let case = Case::named("strangers-names", "it's \x1B[2J.asdf");
    case.stop_in(State::KeptHalf);
    let warning = run(&["list", word(&case.file)]).errors;
    assert!(!warning.contains('\x1B'), "{warning}");
    // What stands between the marks is a command for a shell, and does what it says.
    let advised = warning.split('`').nth(1).unwrap();
    let tool = env!("CARGO_BIN_EXE_asdf-layout");
    let line = advised.replacen("asdf-layout", tool, 1);
    let ran = Command::new("bash").args(["-c", &line]).output().unwrap();
    assert_eq!((Ran::from(ran), case.state()), (SILENT, State::Old));
    assert_eq!(case.file.metadata().unwrap().nlink(), 1);
}
