//! Tests when the progress of a listing is shown on a terminal.

mod common;

use common::*;
use std::ffi::{c_char, c_int, CStr};
use std::fs::{self, File};
use std::io::{self, Read};
use std::os::fd::{AsRawFd, FromRawFd};
use std::os::unix::fs::OpenOptionsExt;
use std::path::PathBuf;
use std::process::Stdio;
use std::str;
use std::thread;
use std::time::Duration;

/// Longer than the time in which nothing is shown.
const PAUSE: Duration = Duration::from_millis(1_200);
/// So many levels that the listing does not fit into the buffers and the pipe.
const LEVELS: u32 = 3;
/// The terminal does not become that of this process.
const O_NOCTTY: c_int = 0o400;
const O_RDWR: c_int = 2;

extern "C" {
    fn posix_openpt(flags: c_int) -> c_int;
    fn grantpt(terminal: c_int) -> c_int;
    fn unlockpt(terminal: c_int) -> c_int;
    fn ptsname_r(terminal: c_int, name: *mut c_char, length: usize) -> c_int;
}

/// Makes a terminal. What is written to the second file can be read from the first.
fn terminal() -> (File, File) {
    let mut name = [0; 100];
    // SAFETY: the number of the terminal is that of an open file, which only `File` closes later, and
    // the name has the length that is given.
    let reader = unsafe {
        let number = posix_openpt(O_RDWR | O_NOCTTY);
        assert!(number >= 0, "{}", io::Error::last_os_error());
        File::from_raw_fd(number)
    };
    let number = reader.as_raw_fd();
    // SAFETY: as above.
    let made = unsafe {
        [
            grantpt(number),
            unlockpt(number),
            ptsname_r(number, name.as_mut_ptr(), name.len()),
        ]
    };
    assert_eq!(made, [0; 3]);
    let name = name.map(|byte| byte as u8);
    let name = CStr::from_bytes_until_nul(&name).unwrap().to_str().unwrap();
    let mut options = File::options();
    let options = options.read(true).write(true).custom_flags(O_NOCTTY);
    (reader, options.open(name).unwrap())
}

/// Reads to the end. A terminal ends with an error when everybody else has closed it.
fn read_all(mut input: impl Read) -> String {
    let mut bytes = Vec::new();
    let _ = input.read_to_end(&mut bytes);
    String::from_utf8(bytes).unwrap()
}

/// Returns the lines that a terminal shows at the end. A line that is begun again is overwritten.
fn lines_shown(written: &str) -> Vec<String> {
    let lines = written.split('\n').map(|line| {
        let mut cells = Vec::new();
        for part in line.split('\r') {
            let covered = part.len().min(cells.len());
            cells.splice(..covered, part.bytes());
        }
        str::from_utf8(&cells).unwrap().trim_end().to_string()
    });
    lines.filter(|line| !line.is_empty()).collect()
}

/// A file with many rows, and its stored outline.
struct Files {
    file: PathBuf,
    stored: PathBuf,
}

impl Files {
    fn new(test: &str) -> Files {
        let folder = folder(test);
        let files = Files {
            file: folder.join("file"),
            stored: folder.join("stored"),
        };
        fs::write(&files.file, nested(LEVELS)).unwrap();
        printed(&["outline", word(&files.file), "-o", word(&files.stored)]);
        files
    }
}

/// Reads to the end, with a pause after the first byte.
fn read_slowly(mut input: impl Read) -> String {
    let mut first = [0];
    input.read_exact(&mut first).unwrap();
    thread::sleep(PAUSE);
    String::from(char::from(first[0])) + &read_all(input)
}

/// Runs the tool with this standard error, and a pipe as standard output that is read slowly. Returns
/// what was printed.
fn run_slowly(words: &[&str], errors: impl Into<Stdio>) -> String {
    let mut call = command(words);
    let mut child = call.stdout(Stdio::piped()).stderr(errors).spawn().unwrap();
    let printed = read_slowly(child.stdout.take().unwrap());
    child.wait().unwrap();
    printed
}

#[test]
fn slow_listing_shows_its_progress_and_removes_it() {
    let files = Files::new("progress-slow");
    let (file, stored) = (word(&files.file), word(&files.stored));
    let calls = [
        &["list", file][..],
        &["list", file, "--plain"],
        &["list", file, "--json"],
        &["outline", "--read", stored],
    ];
    thread::scope(|scope| {
        for words in calls {
            scope.spawn(move || {
                let (reader, errors) = terminal();
                let printed = run_slowly(words, errors);
                assert!(printed.len() > 1 << 20);
                let written = read_all(reader);
                let line = written.split('\r').nth(1).unwrap_or_default();
                let passed = line.strip_prefix("asdf-layout: ").unwrap();
                let passed = passed.strip_suffix(" of 266,304 rows").unwrap();
                let number: usize = passed.replace(',', "").parse().unwrap();
                assert!((1_000..=266_304).contains(&number), "{number}");
                assert_eq!(lines_shown(&written), [""; 0], "{written:?}");
            });
        }
    });
}

#[test]
fn progress_is_removed_before_a_message() {
    let files = Files::new("progress-message");
    let (reader, errors) = terminal();
    let words = ["list", "--plain", word(&files.file), "/no/such/file"];
    run_slowly(&words, errors);
    let written = read_all(reader);
    assert!(written.contains(" of 266,304 rows"), "{written:?}");
    let sentence = "asdf-layout: cannot read /no/such/file: No such file or directory (os error 2)";
    assert_eq!(lines_shown(&written), [sentence]);
}

#[test]
fn progress_is_not_written_to_a_file() {
    let files = Files::new("progress-file");
    let errors = files.file.with_file_name("errors");
    let into_file = File::create(&errors).unwrap();
    let printed = run_slowly(&["list", word(&files.file)], into_file);
    assert!(printed.len() > 1 << 20);
    assert_eq!(fs::read_to_string(errors).unwrap(), "");
}

#[test]
fn progress_does_not_disturb_a_listing_on_the_terminal() {
    let files = Files::new("progress-both");
    let (reader, both) = terminal();
    let words = ["list", "--plain", word(&files.file)];
    let mut call = command(&words);
    let output = both.try_clone().unwrap();
    let mut child = call.stdout(output).stderr(both).spawn().unwrap();
    // Otherwise the terminal would stay open here.
    drop(call);
    let written = read_slowly(reader);
    child.wait().unwrap();
    assert_eq!(written.replace("\r\n", "\n"), printed(&words));
}

#[test]
fn fast_listing_shows_no_progress() {
    let (reader, errors) = terminal();
    let path = folder("progress-fast").join("file");
    fs::write(&path, nested(2)).unwrap();
    let mut call = command(&["list", word(&path)]);
    let ran = call.stdout(Stdio::null()).stderr(errors).status();
    drop(call);
    assert_eq!(ran.unwrap().code(), Some(0));
    assert_eq!(read_all(reader), "");
}
