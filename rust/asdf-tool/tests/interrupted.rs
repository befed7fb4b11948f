//! Tests edits that are stopped after any step, whose steps fail, and during which another program changes names.

mod common;

use common::case::*;
use common::*;
use std::collections::BTreeSet;
use std::fs;
use std::io::{BufRead, BufReader, Read};
use std::os::unix::fs::{symlink, PermissionsExt};
use std::path::Path;
use std::process::{Child, Command, Stdio};

impl Case {
    /// Checks that the next calls after a stopped edit report it, and that `restore` brings the old file back.
    fn assert_restorable(&self) {
        let before = self.bytes();
        let edit = self.edit();
        assert_eq!(edit.status, Some(2));
        edit.assert_says("`asdf-layout restore ");
        let warning = run(&["list", word(&self.file)]).errors;
        assert!(warning.contains("may be unfinished"), "{warning}");
        assert!(self.bytes() == before);
        assert_eq!(self.restore(), SILENT);
        assert_eq!(self.state(), State::Old);
    }

    /// Starts an edit that waits after a step, and returns when it waits.
    fn edit_waiting_after(&self, step: u32) -> Child {
        let mut child = command(&self.edit_words())
            .env("ASDF_LAYOUT_HOOK", format!("wait {step}"))
            .env("ASDF_LAYOUT_GO", self.beside(".go"))
            .stderr(Stdio::piped())
            .spawn()
            .unwrap();
        let mut line = String::new();
        let mut errors = BufReader::new(child.stderr.as_mut().unwrap());
        errors.read_line(&mut line).unwrap();
        assert_eq!(line, "asdf-layout: waiting for a test\n");
        child
    }

    /// Lets a waiting edit go on, and returns its status and what it says.
    fn let_go(&self, mut child: Child) -> (Option<i32>, String) {
        fs::write(self.beside(".go"), "").unwrap();
        let mut errors = String::new();
        let status = child.wait().unwrap().code();
        child.stderr.unwrap().read_to_string(&mut errors).unwrap();
        fs::remove_file(self.beside(".go")).unwrap();
        (status, errors)
    }

    /// Returns the first step of an edit that leaves this state.
    fn first_step_to(&self, state: State) -> u32 {
        let step = (1..MOST_STEPS).find(|step| {
            self.reset();
            self.edit_with(&format!("stop {step}"));
            self.state() == state
        });
        self.reset();
        step.unwrap()
    }
}

#[test]
fn edit_stopped_at_any_step_leaves_the_old_file_the_new_one_or_a_restorable_one() {
    let case = Case::new("interrupted-stopped");
    let mut states = BTreeSet::new();
    for step in 1..MOST_STEPS {
        case.reset();
        let ran = case.edit_with(&format!("stop {step}"));
        if ran.status.is_some() {
            assert_eq!((ran, case.state()), (SILENT, State::New));
            break;
        }
        let state = case.state();
        states.insert(state);
        match state {
            State::Old | State::New => assert_eq!(case.edit(), SILENT, "step {step}"),
            State::KeptOld | State::KeptHalf | State::KeptNew => case.assert_restorable(),
        }
        assert!(matches!(case.state(), State::Old | State::New));
        case.assert_nothing_beside();
    }
    assert_eq!(case.state(), State::New);
    use State::*;
    assert_eq!(
        states,
        BTreeSet::from([Old, New, KeptOld, KeptHalf, KeptNew])
    );
}

#[test]
fn restore_stopped_at_any_step_leaves_the_old_file_or_a_restorable_one() {
    let case = Case::new("interrupted-restore-stopped");
    let mut stopped = 0;
    for step in 1..MOST_STEPS {
        case.stop_in(State::KeptHalf);
        let ran = run_with_hook(&format!("stop {step}"), &["restore", word(&case.file)]);
        if ran.status.is_some() {
            assert_eq!(ran, SILENT);
            break;
        }
        match case.state() {
            State::Old => (),
            State::KeptOld | State::KeptHalf => case.assert_restorable(),
            state => panic!("step {step}: {state:?}"),
        }
        stopped += 1;
    }
    assert!(stopped >= 5);
    assert_eq!(case.state(), State::Old);
}

#[test]
fn step_that_fails_is_told_with_what_holds_and_what_to_do() {
    let case = Case::new("interrupted-failing");
    let mut told = BTreeSet::new();
    for step in 1..MOST_STEPS {
        case.reset();
        let ran = case.edit_with(&format!("fail {step}"));
        if ran == SILENT {
            break;
        }
        assert_eq!(ran.status, Some(2), "step {step}: {}", ran.errors);
        assert_eq!(ran.errors.lines().count(), 1);
        let says = |words: &str| ran.errors.contains(words);
        let state = case.state();
        let holds = match state {
            State::Old => says("the file was not changed"),
            State::KeptOld | State::KeptHalf => says("; run `asdf-layout restore "),
            State::KeptNew if says("cannot remove") => {
                says("has its new tree; ") && says("`asdf-layout restore --set-aside ")
            }
            State::KeptNew => says("; run `asdf-layout restore "),
            State::New => {
                says("was removed, but perhaps not on the disk") && says("has its new tree; ")
            }
        };
        assert!(holds, "step {step}, {state:?}: {}", ran.errors);
        told.insert((state, says("--set-aside")));

        // What the message advises leads out, and the next edit is made.
        match state {
            State::Old | State::New => (),
            _ if says("--set-aside") => {
                let edit = case.edit();
                edit.assert_says("has the whole new tree of the last edit");
                assert_eq!(case.set_aside().status, Some(0));
                assert_eq!(case.state(), State::New);
                fs::remove_file(case.beside(".old-room.1")).unwrap();
            }
            _ => assert_eq!(case.restore(), SILENT),
        }
        assert_eq!((case.edit(), case.state()), (SILENT, State::New));
        case.assert_nothing_beside();
    }
    use State::*;
    let expected = [
        (Old, false),
        (New, true),
        (KeptOld, false),
        (KeptHalf, false),
        (KeptNew, false),
        (KeptNew, true),
    ];
    assert_eq!(told, BTreeSet::from(expected));
}

#[test]
fn step_of_a_restore_that_fails_is_told_too() {
    let case = Case::new("interrupted-restore-failing");
    let mut failed = 0;
    for step in 1..MOST_STEPS {
        case.stop_in(State::KeptHalf);
        let ran = run_with_hook(&format!("fail {step}"), &["restore", word(&case.file)]);
        if ran == SILENT {
            break;
        }
        failed += 1;
        assert_eq!(ran.status, Some(2), "{}", ran.errors);
        match case.state() {
            State::Old => assert!(ran.errors.contains("has its old tree"), "{}", ran.errors),
            _ => assert_eq!((case.restore(), case.state()), (SILENT, State::Old)),
        }
    }
    assert!(failed >= 5);
}

#[test]
fn what_was_left_before_the_file_changed_is_removed() {
    let case = Case::new("interrupted-part");
    let part = case.beside(".old-room.part");
    let leave = || {
        case.edit_with("stop 2");
        assert!(part.exists());
        assert_eq!(case.state(), State::Old);
    };
    leave();
    assert_eq!(run(&["list", word(&case.file)]).errors, "");
    let ran = case.restore();
    assert_eq!(ran.status, Some(0));
    ran.assert_says("stopped before it changed anything");
    case.assert_nothing_beside();
    assert_eq!(case.restore().status, Some(2));

    leave();
    assert_eq!(case.edit(), SILENT);
    case.assert_nothing_beside();

    // On some file systems the kept room has both names for a moment.
    case.stop_in(State::KeptOld);
    fs::hard_link(case.kept(), &part).unwrap();
    assert_eq!((case.restore(), case.state()), (SILENT, State::Old));
    case.assert_nothing_beside();

    // What somebody else has under that name is left alone, and is no obstacle.
    type Make = fn(&Case, &Path);
    let strange: [Make; 5] = [
        |case, part| symlink(&case.text, part).unwrap(),
        |_, part| fs::create_dir(part).unwrap(),
        |_, part| fs::write(part, "precious").unwrap(),
        // This begins like a kept room, but is not one.
        |_, part| fs::write(part, "asdf").unwrap(),
        |_, part| {
            let made = Command::new("mkfifo").arg(part).status().unwrap();
            assert!(made.success());
        },
    ];
    for make in strange {
        case.reset();
        make(&case, &part);
        let text = fs::read(&case.text).unwrap();
        assert_eq!((case.edit(), case.state()), (SILENT, State::New));
        case.stop_in(State::KeptHalf);
        assert_eq!((case.restore(), case.state()), (SILENT, State::Old));
        assert_eq!(fs::read(&case.text).unwrap(), text);
        assert!(part.symlink_metadata().is_ok());
        fs::remove_file(&part)
            .or_else(|_| fs::remove_dir(&part))
            .unwrap();
        case.assert_nothing_beside();
    }
}

#[test]
fn names_that_are_all_taken_are_told() {
    let case = Case::new("interrupted-taken");
    let suffixes = [".part", ".pt-2", ".pt-3", ".pt-4"].map(|end| format!(".old-room{end}"));
    for suffix in &suffixes {
        assert_eq!(case.edit(), SILENT);
        case.reset();
        fs::write(case.beside(suffix), "precious").unwrap();
    }
    let ran = case.edit();
    assert_eq!((ran.status, case.state()), (Some(2), State::Old));
    ran.assert_says("file.asdf.old-room.part, which belongs to the user ");
    ran.assert_says("and three others are in the way; the file was not changed; remove them, or ");
    for suffix in &suffixes {
        assert_eq!(fs::read(case.beside(suffix)).unwrap(), b"precious");
    }
}

#[test]
fn kept_room_of_another_edit_is_not_removed() {
    let case = Case::new("interrupted-another");
    let half = case.first_step_to(State::KeptHalf);
    let child = case.edit_waiting_after(half);
    fs::rename(case.kept(), case.beside(".aside")).unwrap();
    fs::write(case.kept(), "of another edit").unwrap();
    let (status, errors) = case.let_go(child);
    assert_eq!((status, case.state()), (Some(2), State::KeptNew));
    assert!(
        errors.contains("another program removed or replaced it"),
        "{errors}"
    );
    assert!(errors.contains("has its new tree; "), "{errors}");
    assert_eq!(fs::read(case.kept()).unwrap(), b"of another edit");
}

#[test]
fn what_is_kept_is_private() {
    let case = Case::new("interrupted-private");
    case.stop_in(State::KeptOld);
    let mode = case.kept().metadata().unwrap().permissions().mode();
    assert_eq!(mode & 0o777, 0o600);
}

#[test]
fn interrupted_edit_through_a_link_is_restored_through_it() {
    let case = Case::new("interrupted-link");
    let link = case.file.with_file_name("link");
    symlink("file.asdf", &link).unwrap();
    let words = ["edit", word(&link), word(&case.text)];
    let half = case.first_step_to(State::KeptHalf);
    run_with_hook(&format!("stop {half}"), &words);
    assert_eq!(case.state(), State::KeptHalf);
    for path in [&link, &case.file] {
        let errors = run(&["list", word(path)]).errors;
        assert!(errors.contains("may be unfinished"), "{errors}");
    }
    assert_eq!(run(&["restore", word(&link)]), SILENT);
    assert_eq!(case.state(), State::Old);
}

#[test]
fn kept_room_that_is_replaced_at_once_stops_the_edit() {
    let case = Case::new("interrupted-replaced-room");
    let named = case.first_step_to(State::KeptOld);
    let child = case.edit_waiting_after(named);
    fs::remove_file(case.kept()).unwrap();
    fs::write(case.kept(), "a stranger's").unwrap();
    let (status, errors) = case.let_go(child);
    assert_eq!((status, case.state()), (Some(2), State::KeptOld));
    assert!(
        errors.contains("another program removed or replaced it at once; the file was not changed")
    );
    // It was not ours, so it is still there.
    assert_eq!(fs::read(case.kept()).unwrap(), b"a stranger's");

    fs::remove_file(case.kept()).unwrap();
    let child = case.edit_waiting_after(named);
    fs::remove_file(case.kept()).unwrap();
    let (status, errors) = case.let_go(child);
    assert_eq!((status, case.state()), (Some(2), State::Old));
    assert!(errors.contains("the file was not changed"), "{errors}");
}

#[test]
fn kept_room_never_replaces_another() {
    let case = Case::new("interrupted-no-replace");
    let named = case.first_step_to(State::KeptOld);
    // The step before is the last one in which the name is free.
    let child = case.edit_waiting_after(named - 1);
    fs::write(case.kept(), "a stranger's").unwrap();
    let (status, errors) = case.let_go(child);
    assert_eq!((status, case.state()), (Some(2), State::KeptOld));
    assert!(errors.contains("File exists"), "{errors}");
    assert_eq!(fs::read(case.kept()).unwrap(), b"a stranger's");
    assert!(!case.beside(".old-room.part").exists());
}

#[test]
fn file_that_is_replaced_or_removed_during_the_edit_is_noticed() {
    let case = Case::new("interrupted-replaced");
    let half = case.first_step_to(State::KeptHalf);
    let other = file_with_room(100);

    let child = case.edit_waiting_after(half);
    let moved = case.beside(".moved");
    fs::rename(&case.file, &moved).unwrap();
    fs::write(&case.file, &other).unwrap();
    let (status, errors) = case.let_go(child);
    assert_eq!(status, Some(2));
    assert!(
        errors.contains("was replaced or removed by another program"),
        "{errors}"
    );
    assert!(
        errors.contains("has its new tree, and what has it now was not changed"),
        "{errors}"
    );
    assert!(fs::read(&case.file).unwrap() == other);
    assert!(fs::read(&moved).unwrap() == case.new);
    assert!(!case.kept().exists());

    fs::remove_file(&case.file).unwrap();
    case.reset();
    let child = case.edit_waiting_after(half);
    fs::remove_file(&case.file).unwrap();
    let (status, errors) = case.let_go(child);
    assert_eq!(status, Some(2));
    assert!(
        errors.contains("was replaced or removed by another program"),
        "{errors}"
    );
}
