use super::*;
use std::env;
use std::fs;
use std::os::unix::fs::FileExt;
use std::path::PathBuf;
use std::process::{id, Command, Output};
use std::thread;

/// The most that is filled at once.
const CHUNK: usize = MOST_AHEAD * PAGE;
/// Longer than that, and not a multiple of it.
const LENGTH: usize = 3 * CHUNK + 100;

fn sentences() -> Sentences {
    Sentences {
        shortened: "shortened\n".to_string(),
        unreadable: "unreadable\n".to_string(),
        no_memory: "no memory\n".to_string(),
    }
}

/// Makes a file for a test. Its bytes differ from page to page.
fn file(test: &str, length: usize) -> (PathBuf, File) {
    let path = env::temp_dir().join(format!("asdf-filled-{}-{test}", id()));
    let bytes: Vec<u8> = (0..length).map(|offset| (offset / 1_000) as u8).collect();
    fs::write(&path, bytes).unwrap();
    let file = File::options().read(true).write(true).open(&path).unwrap();
    (path, file)
}

/// Runs one of the ignored tests below in a process of its own, because it ends the process.
fn run_alone(test: &str) -> Output {
    let name = format!("filled::tests::{test}");
    Command::new(env::current_exe().unwrap())
        .args(["--exact", &name, "--ignored", "--nocapture"])
        .output()
        .unwrap()
}

#[test]
fn bytes_are_those_of_the_file() {
    let (path, file) = file("same", LENGTH);
    let bytes = Filled::new(&file, LENGTH, sentences()).unwrap();
    assert!(bytes[..] == fs::read(&path).unwrap());
    assert_eq!(bytes[LENGTH - 1], ((LENGTH - 1) / 1_000) as u8);
    fs::remove_file(path).unwrap();
}

#[test]
fn bytes_stand_still_once_they_were_touched() {
    let (path, file) = file("still", LENGTH);
    let bytes = Filled::new(&file, LENGTH, sentences()).unwrap();
    assert_eq!((bytes[0], bytes[PAGE - 1]), (0, 4));
    file.write_all_at(&[255; LENGTH], 0).unwrap();
    assert_eq!((bytes[0], bytes[PAGE - 1]), (0, 4));
    // The next page was not touched before the change.
    assert_eq!(bytes[PAGE], 255);
    file.set_len(0).unwrap();
    assert_eq!((bytes[0], bytes[PAGE]), (0, 255));
    fs::remove_file(path).unwrap();
}

#[test]
fn changes_do_not_reach_the_file() {
    let (path, file) = file("changed", LENGTH);
    let mut bytes = Filled::new(&file, LENGTH, sentences()).unwrap();
    assert_eq!(bytes[1], 0);
    let lent = bytes.lend().unwrap();
    // One page was filled before, and the other is filled by the change.
    (lent[1], lent[16 * PAGE]) = (7, 8);
    assert_eq!((bytes[0], bytes[1], bytes[16 * PAGE]), (0, 7, 8));
    assert_eq!(bytes[16 * PAGE + 1], 65);
    let unchanged = fs::read(&path).unwrap();
    assert_eq!((unchanged[1], unchanged[16 * PAGE]), (0, 65));
    fs::remove_file(path).unwrap();
}

#[test]
fn no_bytes_are_held_too() {
    let (path, file) = file("empty", 0);
    let mut bytes = Filled::new(&file, 0, sentences()).unwrap();
    assert_eq!(bytes[..], b""[..]);
    assert_eq!(bytes.lend().unwrap(), b"");
    fs::remove_file(path).unwrap();
}

#[test]
fn threads_that_touch_the_same_bytes_see_them_complete() {
    let (path, file) = file("threads", 4 * CHUNK);
    let expected = fs::read(&path).unwrap();
    for _ in 0..20 {
        let bytes = Filled::new(&file, 4 * CHUNK, sentences()).unwrap();
        let bytes = &bytes[..];
        thread::scope(|scope| {
            for _ in 0..4 {
                scope.spawn(|| assert!(bytes == expected));
            }
        });
    }
    fs::remove_file(path).unwrap();
}

/// How many maps the process has.
fn maps() -> usize {
    fs::read_to_string("/proc/self/maps")
        .unwrap()
        .lines()
        .count()
}

#[test]
fn touching_a_long_file_everywhere_takes_few_maps() {
    let (path, file) = file("maps", 0);
    let length = (1 << 32) - 1;
    file.set_len(length as u64).unwrap();
    let bytes = Filled::new(&file, length, sentences()).unwrap();
    let mut most = 0;
    // Every second page of the first part, so that no two maps can be one; then one byte in each of some groups.
    let pages = (0..SMALL_FILLS).map(|page| 2 * page * PAGE);
    let groups = (0..200).map(|group| (group * 19 % 3_000 + 600) * LEAST_GROUP + 5 * PAGE);
    for (count, offset) in pages.chain(groups).enumerate() {
        assert_eq!(bytes[offset], 0);
        if count % 1_000 == 0 {
            most = most.max(maps());
        }
    }
    assert!((15_000..30_000).contains(&most), "{most}");
    assert!(maps() < 30_000);
    fs::remove_file(path).unwrap();
}

#[test]
fn file_that_becomes_shorter_ends_the_process_with_a_sentence() {
    let ran = run_alone("alone_shortened");
    assert_eq!(
        (ran.status.code(), &ran.stderr[..]),
        (Some(2), &b"shortened\n"[..])
    );
}

#[test]
#[ignore = "ends the process; run by another test"]
fn alone_shortened() {
    let (path, file) = file("shortened", LENGTH);
    fs::remove_file(path).unwrap();
    let bytes = Filled::new(&file, LENGTH, sentences()).unwrap();
    assert_eq!(bytes[0], 0);
    file.set_len(LENGTH as u64 - 1).unwrap();
    assert_eq!(bytes[8 * PAGE], 32);
    println!("{}", bytes[3 * CHUNK]);
}

#[test]
fn file_that_cannot_be_read_ends_the_process_with_a_sentence() {
    let ran = run_alone("alone_unreadable");
    assert_eq!(
        (ran.status.code(), &ran.stderr[..]),
        (Some(2), &b"unreadable\n"[..])
    );
}

#[test]
#[ignore = "ends the process; run by another test"]
fn alone_unreadable() {
    // A folder can be opened, but not read.
    let folder = File::open("/").unwrap();
    let bytes = Filled::new(&folder, 10, sentences()).unwrap();
    println!("{}", bytes[0]);
}

#[test]
fn write_to_bytes_that_are_not_lent_ends_the_process_with_the_signal() {
    use std::os::unix::process::ExitStatusExt;
    for test in ["alone_written", "alone_outside"] {
        assert_eq!(run_alone(test).status.signal(), Some(SIGSEGV), "{test}");
    }
}

#[test]
#[ignore = "ends the process; run by another test"]
fn alone_written() {
    let (path, file) = file("written", LENGTH);
    fs::remove_file(path).unwrap();
    let bytes = Filled::new(&file, LENGTH, sentences()).unwrap();
    // SAFETY: none; the system has to notice it.
    unsafe { bytes.as_ptr().cast_mut().write_volatile(1) };
}

#[test]
#[ignore = "ends the process; run by another test"]
fn alone_outside() {
    let (path, file) = file("outside", LENGTH);
    fs::remove_file(path).unwrap();
    let _bytes = Filled::new(&file, LENGTH, sentences()).unwrap();
    // SAFETY: none; the system has to notice it.
    unsafe { (16 as *const u8).read_volatile() };
}

#[test]
fn signal_that_was_blocked_before_is_no_obstacle() {
    let ran = run_alone("alone_blocked");
    assert!(ran.status.success(), "{ran:?}");
}

#[test]
#[ignore = "blocks a signal; run by another test"]
fn alone_blocked() {
    let (path, file) = file("blocked", LENGTH);
    fs::remove_file(path).unwrap();
    let mut signals = [0; 16];
    signals[0] = 1 << (SIGSEGV - 1);
    // SAFETY: the set is valid, and 0 adds it to what is blocked.
    unsafe { pthread_sigmask(0, &signals, null_mut()) };
    let bytes = Filled::new(&file, LENGTH, sentences()).unwrap();
    assert_eq!(bytes[PAGE], 4);
}

#[test]
fn signal_that_is_sent_ends_the_process() {
    use std::os::unix::process::ExitStatusExt;
    assert_eq!(run_alone("alone_sent").status.signal(), Some(SIGSEGV));
}

#[test]
#[ignore = "ends the process; run by another test"]
fn alone_sent() {
    let (path, file) = file("sent", LENGTH);
    fs::remove_file(path).unwrap();
    let bytes = Filled::new(&file, LENGTH, sentences()).unwrap();
    assert_eq!(bytes[PAGE], 4);
    // SAFETY: the call takes any number.
    unsafe { raise(SIGSEGV) };
}
