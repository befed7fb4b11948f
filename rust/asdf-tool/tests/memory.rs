//! Tests that a listing takes no memory for its rows, beside what the proved functions write.

mod common;

use common::*;
use std::fs::{self, File};
use std::io::{Read, Write};
use std::path::Path;
use std::process::{Child, Command, Stdio};
use std::time::Duration;

/// How often the file holds a file of three levels.
const TIMES: usize = 4;
/// A record has 120 bytes. The outline and its rows have 96 together.
const BYTES_PER_ROW: usize = 130;
/// What the tool takes for everything else.
const REST: usize = 64 << 20;

/// What the system counts of a process that has ended: 18 numbers.
type Usage = [i64; 18];
/// Which of these numbers is the peak of its memory, in KiB. Before it come two times, each in seconds and microseconds.
const PEAK: usize = 4;

extern "C" {
    fn wait4(process: i32, status: *mut i32, options: i32, usage: *mut Usage) -> i32;
}

/// Makes a file with about a million rows, and returns how many there are.
fn many_rows(path: &Path) -> usize {
    let block = block(&nested(3));
    let mut file = File::create(path).unwrap();
    file.write_all(HEADER).unwrap();
    for _ in 0..TIMES {
        file.write_all(&block).unwrap();
    }
    TIMES * (1 + nested_rows(3))
}

/// Reads to the end, and returns how many times `mark` was there.
fn count(mut output: impl Read, mark: u8) -> usize {
    let mut piece = vec![0; 1 << 16];
    let mut found = 0;
    loop {
        match output.read(&mut piece).unwrap() {
            0 => return found,
            length => found += piece[..length].iter().filter(|&&byte| byte == mark).count(),
        }
    }
}

/// Waits until a call has ended well, and returns how many bytes of memory it took at its peak, and its time on a processor.
fn ended(child: Child) -> (usize, Duration) {
    let (mut status, mut usage) = (-1, Usage::default());
    let process = child.id() as i32;
    // SAFETY: both live through the call, and the second has the 18 numbers of 8 bytes that x86-64 Linux writes there.
    let ended = unsafe { wait4(process, &mut status, 0, &mut usage) };
    assert_eq!((ended, status), (process, 0));
    let seconds = Duration::from_secs((usage[0] + usage[2]) as u64);
    let microseconds = Duration::from_micros((usage[1] + usage[3]) as u64);
    (usage[PEAK] as usize * 1024, seconds + microseconds)
}

#[test]
fn million_rows_take_no_memory_but_that_of_their_records() {
    let folder = folder("memory");
    let (path, stored) = (folder.join("file"), folder.join("stored"));
    let rows = many_rows(&path);
    assert!(rows > 1_000_000);
    let length = fs::metadata(&path).unwrap().len() as usize;
    let most = REST + BYTES_PER_ROW * rows + length;
    let (path, stored) = (word(&path), word(&stored));
    for (words, mark, marks) in [
        // Eight lines come before and after the rows of a table, and two in the listing for programs.
        (&["list", path][..], b'\n', rows + 8),
        (&["list", path, "--plain"], b'\n', rows + 2),
        // There are two other objects in the whole, and the whole.
        (&["list", path, "--json"], b'}', rows + 2),
        (&["outline", path, "-o", stored], b'\n', 0),
        (&["outline", "--read", stored], b'\n', rows),
    ] {
        let mut child = command(words).stdout(Stdio::piped()).spawn().unwrap();
        let output = child.stdout.take().unwrap();
        assert_eq!(count(output, mark), marks, "{words:?}");
        let (peak, _) = ended(child);
        assert!(peak < most, "{words:?} takes {peak} bytes of {most}");
    }
    fs::remove_dir_all(folder).unwrap();
}

#[test]
fn lack_of_memory_is_one_sentence() {
    let folder = folder("memory-lack");
    let path = folder.join("file");
    fs::write(&path, [HEADER, &block(&nested(2)).repeat(60)].concat()).unwrap();
    // The file has 13 MB, and its records have 30. So the first limit does not suffice to read the file, and the second not
    // for its records.
    for (limit, sentence) in [
        (14_000, "Cannot allocate memory (os error 12)\n"),
        (
            36_000,
            "asdf-layout: there is not enough memory, so the command was not completed\n",
        ),
    ] {
        let line = format!("ulimit -v {limit}; exec \"$0\" list \"$1\"");
        let ran = Command::new("sh")
            .args(["-c", &line, env!("CARGO_BIN_EXE_asdf-layout"), word(&path)])
            .output()
            .unwrap();
        let ran = Ran::from(ran);
        assert_eq!(
            (ran.status, ran.output.as_str()),
            (Some(2), ""),
            "{limit}: {}",
            ran.errors
        );
        assert!(ran.errors.ends_with(sentence), "{limit}: {}", ran.errors);
        assert_eq!(ran.errors.lines().count(), 1);
    }
    fs::remove_dir_all(folder).unwrap();
}

/// A multiple of a page.
const CHUNK: u64 = 1 << 15;
/// How far apart the blocks of the long file are.
const APART: u64 = 256 * CHUNK;
/// Where a page ends inside the header of each block of the long file, so that two pages have to be read for it.
const IN_HEADER: u64 = 20;

/// Makes a file of almost 4 GiB with 500 blocks, each with a page that ends in its header, and with 1 MiB outside of them.
fn long_file(path: &Path) {
    let length = (1 << 32) - 1;
    let mut parts = Vec::new();
    // The first inner file begins here, with its first block directly after its header line.
    let mut inner = 33 * CHUNK - IN_HEADER - HEADER.len() as u64;
    let front = [HEADER, TREE].concat();
    let spaces = vec![b' '; inner as usize - 54 - front.len()];
    parts.push((0, [front, spaces].concat()));
    for (number, blocks) in [64, 64, 64, 64, 64, 64, 64, 44].into_iter().enumerate() {
        let used = HEADER.len() as u64 + blocks * APART;
        // The next inner file begins at the same offset in its page.
        let allocated = match number {
            7 => length - inner,
            _ => used.next_multiple_of(CHUNK) + CHUNK - 54,
        };
        let mut header = block_header(used);
        header[14..22].copy_from_slice(&allocated.to_be_bytes());
        parts.push((inner - 54, header));
        parts.push((inner, HEADER.to_vec()));
        let first = inner + HEADER.len() as u64;
        parts.extend((0..blocks).map(|k| (first + k * APART, block_header(APART - 54))));
        inner += allocated + 54;
    }
    let parts: Vec<(u64, &[u8])> = parts.iter().map(|(at, bytes)| (*at, &bytes[..])).collect();
    sparse_file(path, length, &parts);
}

#[test]
fn long_file_is_listed_without_reading_what_is_not_needed() {
    let folder = folder("memory-long");
    let path = folder.join("file");
    long_file(&path);
    // Other programs may run at the same time, so the time on a processor counts, and the best of some runs.
    let mut best = Duration::MAX;
    for _ in 0..5 {
        let mut child = command(&["list", "--plain", word(&path)])
            .stdout(Stdio::piped())
            .spawn()
            .unwrap();
        assert_eq!(count(child.stdout.take().unwrap(), b'\n'), 502);
        let (peak, time) = ended(child);
        best = best.min(time);
        assert!(peak < 64_000_000, "{peak} bytes");
    }
    assert!(best < Duration::from_millis(50), "{best:?}");
    fs::remove_dir_all(folder).unwrap();
}
