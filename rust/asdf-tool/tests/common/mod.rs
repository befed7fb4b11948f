//! Runs the tool, and makes files for it.

// Each test program uses only a part of this file.
#![allow(dead_code)]

pub mod case;

use std::fs::{self, File};
use std::io::Write;
use std::os::unix::fs::FileExt;
use std::path::{Path, PathBuf};
use std::process::{Command, Output, Stdio};

/// The folder of the real files.
pub const DATA: &str = concat!(env!("CARGO_MANIFEST_DIR"), "/../../tests/data");
/// A header line.
pub const HEADER: &[u8] = b"#ASDF 1.0.0\n";
/// A header line that ends with 0D 0A.
pub const DOS_HEADER: &[u8] = b"#ASDF 1.0.0\r\n";
/// The smallest tree.
pub const TREE: &[u8] = b"%YAML 1.1\n---\n...\n";

/// How a run of the tool ended, and what it printed.
#[derive(Debug, PartialEq)]
pub struct Ran {
    /// None if the run was stopped.
    pub status: Option<i32>,
    pub output: String,
    pub errors: String,
}

impl From<Output> for Ran {
    fn from(output: Output) -> Ran {
        let text = |bytes| String::from_utf8(bytes).unwrap();
        Ran {
            status: output.status.code(),
            output: text(output.stdout),
            errors: text(output.stderr),
        }
    }
}

impl Ran {
    /// Checks that these words are among what was printed on standard error.
    pub fn assert_says(&self, words: impl AsRef<str>) {
        let words = words.as_ref();
        assert!(
            self.errors.contains(words),
            "`{words}` is not in: {}",
            self.errors
        );
    }
}

/// Returns a call of the tool with these words.
pub fn command(words: &[&str]) -> Command {
    let mut command = Command::new(env!("CARGO_BIN_EXE_asdf-layout"));
    command.args(words);
    command
}

/// Runs the tool.
pub fn run(words: &[&str]) -> Ran {
    command(words).output().unwrap().into()
}

/// Runs the tool with `input` as standard input.
pub fn run_with_input(words: &[&str], input: &[u8]) -> Ran {
    output_with_input(words, input).into()
}

/// Runs the tool with `input` as standard input. What it prints may be any bytes.
pub fn output_with_input(words: &[&str], input: &[u8]) -> Output {
    let mut command = command(words);
    let piped = command
        .stdin(Stdio::piped())
        .stdout(Stdio::piped())
        .stderr(Stdio::piped());
    let mut child = piped.spawn().unwrap();
    // A tool that ends before it has read everything is not to blame.
    let _ = child.stdin.take().unwrap().write_all(input);
    child.wait_with_output().unwrap()
}

/// Runs the tool and returns what it prints. It has to succeed, and to print nothing on standard
/// error.
pub fn printed(words: &[&str]) -> String {
    let ran = run(words);
    assert_eq!(
        (ran.status, ran.errors.as_str()),
        (Some(0), ""),
        "{words:?}"
    );
    ran.output
}

/// Makes an empty folder for a test.
pub fn folder(test: &str) -> PathBuf {
    let folder = Path::new(env!("CARGO_TARGET_TMPDIR")).join(test);
    let _ = fs::remove_dir_all(&folder);
    fs::create_dir_all(&folder).unwrap();
    folder
}

/// Returns a path as a word for the tool.
pub fn word(path: &Path) -> &str {
    path.to_str().unwrap()
}

/// Returns the header of a block with one number for all three sizes.
pub fn block_header(size: u64) -> Vec<u8> {
    let mut header = b"\xD3BLK\0\x30\0\0\0\0\0\0\0\0".to_vec();
    header.extend([size; 3].map(u64::to_be_bytes).concat());
    header.extend([0; 16]);
    header
}

/// Returns a block with this content.
pub fn block(content: &[u8]) -> Vec<u8> {
    [&block_header(content.len() as u64), content].concat()
}

/// Returns a file of 64 blocks. Each holds such a file again, on as many levels, and the innermost
/// blocks are empty.
pub fn nested(levels: u32) -> Vec<u8> {
    (0..levels).fold(Vec::new(), |inner, _| {
        [HEADER, &block(&inner).repeat(64)].concat()
    })
}

/// Returns how many rows such a file has.
pub fn nested_rows(levels: u32) -> usize {
    (0..levels).fold(0, |inner, _| 64 * (1 + inner))
}

/// Returns a file with a tree, `spaces` spaces after it, and a block with some content.
pub fn file_with_room(spaces: usize) -> Vec<u8> {
    let spaces = vec![b' '; spaces];
    [HEADER, TREE, &spaces, &block_header(3), b"abc"].concat()
}

/// Makes a file of zeros with other bytes at some offsets. The zeros take no space on the disk.
pub fn sparse_file(path: &Path, length: u64, parts: &[(u64, &[u8])]) -> File {
    let file = File::options()
        .read(true)
        .write(true)
        .create_new(true)
        .open(path)
        .unwrap();
    file.set_len(length).unwrap();
    for (offset, bytes) in parts {
        file.write_all_at(bytes, *offset).unwrap();
    }
    file
}
