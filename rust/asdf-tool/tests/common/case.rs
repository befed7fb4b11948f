//! A file to edit, with the text for it and its bytes before and after.

use super::*;
use std::collections::BTreeSet;

/// So large that the room of the files here is written in more than one piece.
pub const SPACES: usize = 200_000;
/// No edit here takes this many steps.
pub const MOST_STEPS: u32 = 100;

/// A success that prints nothing.
pub const SILENT: Ran = Ran {
    status: Some(0),
    output: String::new(),
    errors: String::new(),
};

/// A file to edit, the text for it, and the file's bytes before and after.
pub struct Case {
    pub file: PathBuf,
    pub text: PathBuf,
    pub old: Vec<u8>,
    pub new: Vec<u8>,
}

/// What a stopped edit can leave.
#[derive(Debug, Clone, Copy, PartialEq, Eq, PartialOrd, Ord)]
pub enum State {
    Old,
    New,
    KeptOld,
    KeptHalf,
    KeptNew,
}

impl Case {
    /// Makes a case in its own folder.
    pub fn new(test: &str) -> Case {
        Case::named(test, "file.asdf")
    }

    /// Makes a case whose file has this name.
    pub fn named(test: &str, name: &str) -> Case {
        let folder = folder(test);
        let content = "a: 1\n".repeat(30_000);
        let text = format!("%YAML 1.1\n---\n{content}...\n");
        let spaces = " ".repeat(SPACES + TREE.len() - text.len());
        let case = Case {
            file: folder.join(name),
            text: folder.join("text"),
            old: file_with_room(SPACES),
            new: [
                HEADER,
                text.as_bytes(),
                spaces.as_bytes(),
                &block_header(3),
                b"abc",
            ]
            .concat(),
        };
        fs::write(&case.text, text).unwrap();
        case.reset();
        case
    }

    /// Puts the old file back, with nothing kept beside it.
    pub fn reset(&self) {
        let _ = fs::remove_file(self.kept());
        fs::write(&self.file, &self.old).unwrap();
    }

    /// Returns another name beside the file.
    pub fn beside(&self, suffix: &str) -> PathBuf {
        let mut path = self.file.clone().into_os_string();
        path.push(suffix);
        path.into()
    }

    /// Returns where the old room is kept.
    pub fn kept(&self) -> PathBuf {
        self.beside(".old-room")
    }

    /// Returns the bytes of the file.
    pub fn bytes(&self) -> Vec<u8> {
        fs::read(&self.file).unwrap()
    }

    /// The words of the command that edits the file.
    pub fn edit_words(&self) -> [&str; 3] {
        ["edit", word(&self.file), word(&self.text)]
    }

    pub fn edit(&self) -> Ran {
        run(&self.edit_words())
    }

    pub fn restore(&self) -> Ran {
        run(&["restore", word(&self.file)])
    }

    pub fn set_aside(&self) -> Ran {
        run(&["restore", "--set-aside", word(&self.file)])
    }

    /// Edits the file, with something that happens at a step.
    pub fn edit_with(&self, hook: &str) -> Ran {
        run_with_hook(hook, &self.edit_words())
    }

    /// Leaves an edit that was stopped in this state.
    pub fn stop_in(&self, state: State) {
        let reached = (1..MOST_STEPS).any(|step| {
            self.reset();
            self.edit_with(&format!("stop {step}"));
            self.state() == state
        });
        assert!(reached, "{state:?}");
    }

    /// Returns the state in which a stopped edit left the file.
    pub fn state(&self) -> State {
        let bytes = self.bytes();
        match self.kept().symlink_metadata().is_ok() {
            true if bytes == self.old => State::KeptOld,
            true if bytes == self.new => State::KeptNew,
            true => State::KeptHalf,
            false if bytes == self.old => State::Old,
            false if bytes == self.new => State::New,
            false => panic!("half edited, and nothing is kept"),
        }
    }

    /// Checks that nothing of an edit is left beside the file.
    pub fn assert_nothing_beside(&self) {
        let name = |path: &Path| path.file_name().unwrap().to_str().unwrap().to_string();
        let expected = BTreeSet::from([name(&self.file), name(&self.text)]);
        assert_eq!(names(self.file.parent().unwrap()), expected);
    }

    /// Checks that restoring is refused for this reason and changes nothing, that the message names the way out, and that
    /// this way leads to a file that can be edited.
    pub fn assert_only_set_aside(&self, reason: &str) {
        let before = self.bytes();
        let ran = self.restore();
        assert_eq!(ran.status, Some(2), "{}", ran.errors);
        ran.assert_says(reason);
        ran.assert_says("nothing was restored");
        ran.assert_says("`asdf-layout restore --set-aside ");
        assert!(self.bytes() == before);
        let edit = self.edit();
        assert_eq!(edit.status, Some(2), "{}", edit.errors);
        edit.assert_says("--set-aside");
        assert!(self.bytes() == before);

        let ran = self.set_aside();
        let aside = self.beside(".old-room.1");
        let expected = format!("{} is now {}\n", word(&self.kept()), word(&aside));
        assert_eq!((ran.status, ran.output), (Some(0), expected));
        assert!(aside.symlink_metadata().is_ok());
        assert!(self.bytes() == before);
        assert!(!self.kept().exists());
        let errors = run(&["list", word(&self.file)]).errors;
        assert!(!errors.contains("old-room"), "{errors}");
    }
}

/// Runs the tool, with something that happens at a step.
pub fn run_with_hook(hook: &str, words: &[&str]) -> Ran {
    command(words)
        .env("ASDF_LAYOUT_HOOK", hook)
        .output()
        .unwrap()
        .into()
}

/// Returns the names in a folder.
pub fn names(folder: &Path) -> BTreeSet<String> {
    let entries = fs::read_dir(folder).unwrap();
    entries
        .map(|entry| entry.unwrap().file_name().into_string().unwrap())
        .collect()
}
