//! Shows on the terminal how far a long listing has got.

use crate::words;
use std::io::{self, IsTerminal, Write};
use std::time::{Duration, Instant};

/// The time until the line is shown for the first time. Most listings are done by then.
const FIRST: Duration = Duration::from_secs(1);
/// The time until the line is written again.
const NEXT: Duration = Duration::from_millis(100);
/// How many rows pass between two looks at the clock.
const ROWS_BETWEEN: usize = 1 << 10;

/// Rows, and how many of them have passed. They are shown in one line on standard error, which is
/// removed when this value is dropped, so that every other message comes after that.
pub struct Progress<I> {
    rows: I,
    total: usize,
    passed: usize,
    /// When the line is written next, or None if it would be of no use.
    next: Option<Instant>,
    /// How many characters of the line are on the terminal.
    shown: usize,
}

/// Returns these rows, and shows how many have passed while they are taken.
pub fn shown<I: ExactSizeIterator>(rows: I) -> Progress<I> {
    Progress {
        total: rows.len(),
        rows,
        passed: 0,
        next: is_of_use().then(|| Instant::now() + FIRST),
        shown: 0,
    }
}

/// Whether somebody sees the line, and no rows that it would disturb.
fn is_of_use() -> bool {
    io::stderr().is_terminal() && !io::stdout().is_terminal()
}

impl<I> Progress<I> {
    /// Writes the line if it is time for it.
    fn show(&mut self) {
        let now = Instant::now();
        if self.next.is_some_and(|next| next <= now) {
            let [passed, total] = [self.passed, self.total].map(words::Grouped);
            let line = format!("asdf-layout: {passed} of {total} rows");
            self.write(&line);
            self.next = Some(now + NEXT);
        }
    }

    /// Writes a line over the one that is shown. Numbers do not get shorter, so it covers that.
    fn write(&mut self, line: &str) {
        // If the terminal is gone, the listing goes on.
        let _ = io::stderr().write_all(format!("\r{line}").as_bytes());
        self.shown = line.len();
    }
}

impl<I: Iterator> Iterator for Progress<I> {
    type Item = I::Item;

    fn next(&mut self) -> Option<I::Item> {
        if self.next.is_some() && self.passed.is_multiple_of(ROWS_BETWEEN) {
            self.show();
        }
        self.passed += 1;
        self.rows.next()
    }
}

impl<I> Drop for Progress<I> {
    fn drop(&mut self) {
        if self.shown != 0 {
            self.write(&" ".repeat(self.shown));
            self.write("");
        }
    }
}
