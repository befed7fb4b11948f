//! Tests every command on files that another program changes, shortens and lengthens all the time. The proved functions rest on
//! bytes that stand still, so a run may refuse the file or report that it became shorter, but never ends with a signal.

mod common;

use common::*;
use std::fs::{self, File};
use std::os::unix::fs::FileExt;
use std::path::Path;
use std::sync::atomic::{AtomicBool, AtomicUsize, Ordering};
use std::thread;

/// How many times each command is run.
const RUNS: usize = 1_000;
/// The files are so long that several parts are read, and a change can come between two of them.
const SPACES: usize = 100_000;

/// Numbers that look random. They are the same in every run, but the programs race, so no two runs are alike.
struct Numbers(u64);

impl Numbers {
    fn below(&mut self, limit: usize) -> usize {
        self.0 ^= self.0 << 13;
        self.0 ^= self.0 >> 7;
        self.0 ^= self.0 << 17;
        (self.0 % limit as u64) as usize
    }
}

/// A file with a tree, inner files and an index.
fn nested_file() -> Vec<u8> {
    let mut file = file_with_room(50);
    for spaces in [SPACES, 10] {
        let block = [block_header(file.len() as u64), file].concat();
        let spaces = vec![b' '; spaces];
        file = [HEADER, TREE, &spaces, &block.repeat(2)].concat();
    }
    let index = run_with_input(&["index", "--write", "-"], &file).output;
    [&file, index.as_bytes()].concat()
}

/// Changes a file until it is told to stop.
fn change(path: &Path, whole: &[u8], stop: &AtomicBool, seed: u64) {
    let file = File::options().write(true).open(path).unwrap();
    let mut numbers = Numbers(seed);
    while !stop.load(Ordering::Relaxed) {
        let offset = numbers.below(whole.len());
        match numbers.below(6) {
            0 => file.set_len(offset as u64).unwrap(),
            1 => file.set_len((whole.len() + offset) as u64).unwrap(),
            2 | 3 => {
                let length = (whole.len() - offset).min(1 + numbers.below(200));
                let bytes: Vec<u8> = (0..length).map(|_| numbers.below(256) as u8).collect();
                file.write_all_at(&bytes, offset as u64).unwrap();
            }
            _ => {
                // Most of the time the file is right, so that it is read to its end.
                file.write_all_at(whole, 0).unwrap();
                file.set_len(whole.len() as u64).unwrap();
            }
        }
    }
}

/// Runs a command many times while its file changes, and counts how the runs end. A command that reads standard input gets a
/// tree.
fn run_while_changing(test: &str, whole: &[u8], commands: &[&[&str]]) -> [usize; 3] {
    let folder = folder(test);
    let (path, right) = (folder.join("file"), folder.join("right"));
    fs::write(&path, whole).unwrap();
    fs::write(&right, file_with_room(SPACES)).unwrap();
    let ended = [const { AtomicUsize::new(0) }; 3];
    let stop = AtomicBool::new(false);
    thread::scope(|scope| {
        scope.spawn(|| change(&path, whole, &stop, 0x9E37_79B9_7F4A_7C15));
        let workers = (0..2).map(|_| {
            scope.spawn(|| {
                for words in commands {
                    let words: Vec<&str> = words
                        .iter()
                        .map(|&word| match word {
                            "FILE" => common::word(&path),
                            "RIGHT" => common::word(&right),
                            _ => word,
                        })
                        .collect();
                    for _ in 0..RUNS / 2 {
                        let ran = output_with_input(&words, TREE);
                        let status = ran.status.code().unwrap_or(-1);
                        let errors = String::from_utf8_lossy(&ran.stderr).into_owned();
                        assert!(
                            (0..3).contains(&status),
                            "{words:?}: {:?}, {errors}",
                            ran.status
                        );
                        assert!(!errors.contains("panicked"), "{words:?}: {errors}");
                        ended[status as usize].fetch_add(1, Ordering::Relaxed);
                    }
                }
            })
        });
        let workers: Vec<_> = workers.collect();
        let results: Vec<_> = workers.into_iter().map(|worker| worker.join()).collect();
        stop.store(true, Ordering::Relaxed);
        for result in results {
            result.unwrap();
        }
    });
    ended.map(|count| count.into_inner())
}

#[test]
fn no_command_that_reads_ends_with_a_signal() {
    let ended = run_while_changing(
        "changing-read",
        &nested_file(),
        &[
            &["list", "FILE"],
            &["list", "--plain", "FILE"],
            &["list", "--json", "FILE"],
            &["tree", "FILE"],
            &["index", "FILE"],
            &["index", "--write", "FILE"],
            &["outline", "FILE", "-o", "-"],
        ],
    );
    // Every way to end has to occur: listed, refused, and shortened while it was read.
    assert!(ended.iter().all(|&count| count > 0), "{ended:?}");
}

#[test]
fn no_command_that_changes_the_file_ends_with_a_signal() {
    let ended = run_while_changing(
        "changing-edit",
        &nested_file(),
        &[
            &["edit", "FILE", "-"],
            &["restore", "FILE"],
            &["restore", "--set-aside", "FILE"],
            // The text for another file changes.
            &["edit", "RIGHT", "FILE"],
        ],
    );
    assert!(ended[1] > 0 && ended[2] > 0, "{ended:?}");
}

#[test]
fn stored_outline_that_changes_is_read_without_a_signal() {
    let row = [0, 0, 0, 0x30, 0, 0, 0, 0x0C, 0, 0, 0, 9, 0, 0, 0, 7];
    let ended = run_while_changing(
        "changing-outline",
        &row.repeat(20_000),
        &[&["outline", "--read", "FILE"]],
    );
    assert!(ended.iter().sum::<usize>() == RUNS, "{ended:?}");
}
