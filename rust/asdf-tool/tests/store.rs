//! Tests that a result is stored whole or not at all, and that no file is overwritten by accident.

mod common;

use common::*;
use std::fs::{self, File, Permissions};
use std::os::unix::fs::{symlink, FileTypeExt, MetadataExt, PermissionsExt};
use std::path::{Path, PathBuf};
use std::process::Command;

/// The outline of the file that is stored here.
const OUTLINE: [u8; 16] = [0, 0, 0, 0x30, 0, 0, 0, 12, 0, 0, 0, 0, 0, 0, 0, 0];
const INDEX: &[u8] = b"#ASDF BLOCK INDEX\n%YAML 1.1\n--- [12]\n...\n";
/// What is in OUT before.
const OLD: &[u8] = b"something else";
/// Runs the tool so that no file can get longer than 4,096 bytes.
const SHORT_FILES: &str = r#"ulimit -f 8; exec "$0" "$@""#;

/// A folder with a file of one block.
struct Case {
    folder: PathBuf,
}

impl Case {
    fn new(test: &str) -> Case {
        let case = Case {
            folder: folder(test),
        };
        case.make("file", &[HEADER, &block_header(0)].concat());
        case
    }

    fn path(&self, name: &str) -> PathBuf {
        self.folder.join(name)
    }

    fn make(&self, name: &str, bytes: &[u8]) {
        fs::write(self.path(name), bytes).unwrap();
    }

    fn bytes(&self, name: &str) -> Vec<u8> {
        fs::read(self.path(name)).unwrap()
    }

    /// Runs the tool in the folder.
    fn run(&self, line: &str) -> Ran {
        let words: Vec<&str> = line.split(' ').collect();
        let mut call = command(&words);
        call.current_dir(&self.folder).output().unwrap().into()
    }

    /// Runs the tool in the folder, which has to succeed.
    fn done(&self, line: &str) -> String {
        let ran = self.run(line);
        assert_eq!(ran.status, Some(0), "{}", ran.errors);
        ran.output
    }

    /// Runs the tool in the folder, which has to fail without printing anything else.
    fn sentence(&self, line: &str) -> String {
        let ran = self.run(line);
        assert_eq!((ran.status, ran.output.as_str()), (Some(2), ""), "{line}");
        ran.errors
    }

    /// Returns how many names there are in the folder.
    fn names(&self) -> usize {
        fs::read_dir(&self.folder).unwrap().count()
    }
}

/// Returns the sentence that is printed if OUT exists.
fn exists(out: &str) -> String {
    let advice = "choose another name for OUT, or overwrite it with `--force`";
    format!("asdf-layout: {out} exists and was not changed; {advice}\n")
}

#[test]
fn result_is_stored_in_a_new_file() {
    let case = Case::new("store-new");
    assert_eq!(case.done("outline file -o outline"), "");
    assert_eq!(case.bytes("outline"), OUTLINE);
    assert_eq!(case.done("index file --write -o index"), "");
    assert_eq!(case.bytes("index"), INDEX);
    assert_eq!(case.done("outline file -o forced --force"), "");
    assert_eq!(case.bytes("forced"), OUTLINE);
    assert_eq!(case.done("index file --write -o -").as_bytes(), INDEX);
    assert_eq!(case.names(), 4);
}

#[test]
fn existing_file_is_not_overwritten() {
    let case = Case::new("store-exists");
    case.make("out", OLD);
    symlink("nothing", case.path("link")).unwrap();
    for call in ["outline file -o", "index file --write -o"] {
        for out in ["out", "/dev/null"] {
            assert_eq!(case.sentence(&format!("{call} {out}")), exists(out));
        }
        for (out, advice) in [
            (
                "link",
                "link is a link that leads nowhere and was not changed; choose another",
            ),
            (
                "/tmp",
                "/tmp is a folder and was not changed; give the name of a file in it",
            ),
        ] {
            let sentence = case.sentence(&format!("{call} {out}"));
            assert!(sentence.contains(advice), "{sentence}");
        }
    }
    assert_eq!(case.bytes("out"), OLD);
    assert_eq!(case.names(), 3);
}

#[test]
fn forced_file_is_replaced_as_a_whole() {
    let case = Case::new("store-forced");
    case.make("out", OLD);
    fs::set_permissions(case.path("out"), Permissions::from_mode(0o640)).unwrap();
    // This name still leads to the old file if that was not written to.
    fs::hard_link(case.path("out"), case.path("old")).unwrap();
    case.done("outline file -o out --force");
    assert_eq!(
        (case.bytes("out"), case.bytes("old")),
        (OUTLINE.to_vec(), OLD.to_vec())
    );
    let [new, old] = ["out", "old"].map(|name| fs::metadata(case.path(name)).unwrap());
    assert_eq!(new.permissions(), old.permissions());
    assert_eq!((new.uid(), new.gid()), (old.uid(), old.gid()));

    symlink("out", case.path("link")).unwrap();
    case.done("index file --write -o link --force");
    assert!(case.path("link").is_symlink());
    assert_eq!(case.bytes("out"), INDEX);
    assert_eq!(case.names(), 4);
}

#[test]
fn forced_link_that_leads_nowhere_is_not_followed() {
    let case = Case::new("store-nowhere");
    symlink("nothing", case.path("link")).unwrap();
    let what = "link is a link that leads nowhere and was not changed";
    let advice = "choose another name for OUT, or remove the link";
    let sentence = format!("asdf-layout: {what}; {advice}\n");
    assert_eq!(case.sentence("outline file -o link --force"), sentence);
    assert_eq!(case.names(), 2);
}

#[test]
fn forced_device_or_pipe_takes_the_bytes_and_stays_what_it_is() {
    let case = Case::new("store-device");
    case.done("outline file -o /dev/null --force");
    let device = fs::metadata("/dev/null").unwrap();
    assert!(device.file_type().is_char_device());
    let printed = case.done("index file --write -o /dev/stdout --force");
    assert_eq!(printed.as_bytes(), INDEX);
    let full = case.sentence("outline file -o /dev/full --force");
    assert!(full.starts_with("asdf-layout: cannot overwrite /dev/full: No space left"));
}

#[test]
fn file_itself_is_never_overwritten() {
    let case = Case::new("store-same");
    let before = case.bytes("file");
    symlink("file", case.path("link")).unwrap();
    fs::hard_link(case.path("file"), case.path("twin")).unwrap();
    for call in [
        "outline file -o",
        "outline link -o",
        "index file --write -o",
    ] {
        for out in [
            "file",
            "link",
            "twin",
            "./file",
            "twin --force",
            "link --force",
        ] {
            let (name, _) = out.split_once(' ').unwrap_or((out, ""));
            let what = format!("FILE and OUT are the same file, {name}, which was not changed");
            let sentence = format!("asdf-layout: {what}; choose another name for OUT\n");
            assert_eq!(case.sentence(&format!("{call} {out}")), sentence);
        }
    }
    let mut from_input = command(&["outline", "-", "-o", "file", "--force"]);
    let input = File::open(case.path("file")).unwrap();
    let ran = from_input.current_dir(&case.folder).stdin(input).output();
    assert_eq!(ran.unwrap().status.code(), Some(2));
    assert_eq!(case.bytes("file"), before);
    assert_eq!(case.names(), 3);
}

/// Stores an outline that is longer than files can get, and returns the sentence.
fn store_too_long(folder: &Path, options: &[&str]) -> String {
    let tool = command(&["outline", "many", "-o", "out"]);
    let ran = Command::new("sh")
        .args(["-c", SHORT_FILES])
        .arg(tool.get_program())
        .args(tool.get_args())
        .args(options)
        .current_dir(folder)
        .output();
    let ran = Ran::from(ran.unwrap());
    assert_eq!((ran.status, ran.output.as_str()), (Some(2), ""));
    ran.errors
}

#[test]
fn write_that_fails_part_way_leaves_nothing_behind() {
    let case = Case::new("store-part");
    case.make("many", &nested(2));
    let failed = "out: File too large (os error 27); the";
    assert_eq!(
        store_too_long(&case.folder, &[]),
        format!("asdf-layout: cannot write {failed} incomplete file was removed\n")
    );
    assert_eq!(case.names(), 2);
    case.make("out", OLD);
    assert_eq!(
        store_too_long(&case.folder, &["--force"]),
        format!("asdf-layout: cannot overwrite {failed} old file was not changed\n")
    );
    assert_eq!(case.bytes("out"), OLD);
    assert_eq!(case.names(), 3);
}
