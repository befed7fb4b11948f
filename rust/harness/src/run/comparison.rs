//! A run: generates files, stored outlines and edits, compares what is reported about each, and
//! prints what they reached.

use crate::answers::edit::EditAnswers;
use crate::answers::file::Answers;
use crate::answers::stored::StoredAnswers;
use crate::calls::exports;
use crate::calls::kinds::Calls;
use crate::compare::read_back::read_back;
use crate::compare::searches::{compare_in_file, compare_strings};
use crate::compare::{edit, file, second, stored};
use crate::files::edits::{LongEdit, LONG_EDITS};
use crate::files::long::{long_files, LongFile};
use crate::files::nests;
use crate::generate::corpus::{
    numbered_edit, numbered_file, numbered_nest, numbered_outline, Edit,
};
use crate::goals;
use crate::goals::coverage::Coverage;
use crate::goals::searches::Search;
use crate::same::same;
use asdf_second::{Inner, Record};
use std::fs;
use std::io;
use std::panic::{catch_unwind, AssertUnwindSafe};

/// The seed of a run if none is given.
pub const DEFAULT_SEED: u64 = 1;
/// How many files of each kind a run has if no number is given.
pub const DEFAULT_COUNT: u64 = 100_000;

/// The folder to which failing files are written.
const FAILING: &str = "build/failing";
/// How many failing files are written and reported at most.
const MOST_TOLD: u64 = 20;
/// How many characters of a reason are printed.
const LONGEST_REASON: usize = 600;

/// What a run generates.
enum Generated {
    File(Vec<u8>),
    Nest(Vec<u8>),
    Outline(Vec<u8>),
    Edit(Edit),
}

impl Generated {
    /// One of each kind, with this number.
    fn numbered(seed: u64, number: u64) -> [Generated; 4] {
        [
            Generated::File(numbered_file(seed, number)),
            Generated::Nest(numbered_nest(seed, number)),
            Generated::Outline(numbered_outline(seed, number)),
            Generated::Edit(numbered_edit(seed, number)),
        ]
    }

    /// The parts that are written if it fails, each with the end of its file name.
    fn parts(&self) -> Vec<(&'static str, &[u8])> {
        match self {
            Generated::File(bytes) => vec![(".asdf", bytes)],
            Generated::Nest(bytes) => vec![("-nest.asdf", bytes)],
            Generated::Outline(bytes) => vec![(".outline", bytes)],
            Generated::Edit(edit) => {
                vec![("-edit.asdf", &edit.file), ("-edit.text", &edit.text)]
            }
        }
    }
}

/// What a run has counted so far.
struct Outcome {
    coverage: Coverage,
    stored_coverage: Coverage<StoredAnswers>,
    edit_coverage: Coverage<EditAnswers>,
    search_coverage: Coverage<Search>,
    searches: u64,
    calls: Calls,
    bytes: u64,
    longest: usize,
    /// Files with at least one file inside.
    nests: u64,
    failures: u64,
}

/// Generates and checks files, prints the outcome, and returns whether all is well.
pub fn run(seed: u64, count: u64) -> io::Result<bool> {
    println!("seed {seed}; files, files with files inside, stored outlines, edits: {count} each");
    let outcome = check_files(seed, count)?;
    let missing = outcome.missing(count);
    print!("{}{}", outcome.coverage, outcome.stored_coverage);
    print!("{}{}", outcome.edit_coverage, outcome.search_coverage);
    print!("{}", outcome.calls);
    println!("{} bytes, longest file {}", outcome.bytes, outcome.longest);
    println!("{} files with files inside", outcome.nests);
    println!("{} searches for a mark", outcome.searches);
    for name in &missing {
        println!("never reached: {name}");
    }
    println!(
        "{} failed, {} never reached",
        outcome.failures,
        missing.len()
    );
    Ok(outcome.failures == 0 && missing.is_empty())
}

/// Checks the searches and the files and edits that are made by hand. Then generates others and
/// checks them.
fn check_files(seed: u64, count: u64) -> io::Result<Outcome> {
    let mut outcome = Outcome::new();
    let checked = outcome.check_searches(seed);
    outcome.tell("searches for a mark", checked);
    for long in long_files()? {
        let checked = outcome.check_long_file(&long);
        outcome.tell(long.name, checked);
    }
    let many = [nests::many_rows(), nests::many_gaps()];
    for nest in nests::deepest().into_iter().chain(many) {
        let compared = outcome.compare_file(&nest);
        outcome.tell("file made for its many rows", compared.map(|_| ()));
    }
    for long in LONG_EDITS {
        let checked = outcome.check_long_edit(&long)?;
        outcome.tell(long.name, checked);
    }
    for number in 0..count {
        for generated in Generated::numbered(seed, number) {
            outcome.check_generated(&generated, &format!("{seed}-{number}"))?;
        }
    }
    Ok(outcome)
}

impl Outcome {
    /// The outcome before anything is checked.
    fn new() -> Outcome {
        Outcome {
            coverage: Coverage::new(goals::of_files()),
            stored_coverage: Coverage::new(goals::stored::goals()),
            edit_coverage: Coverage::new(goals::edits::goals()),
            search_coverage: Coverage::new(goals::searches::goals()),
            searches: 0,
            calls: Calls::new(),
            bytes: 0,
            longest: 0,
            nests: 0,
            failures: 0,
        }
    }

    /// What was never reached. This includes the files with files inside, if there were fewer than
    /// `least_nests`.
    fn missing(&self, least_nests: u64) -> Vec<String> {
        let mut missing = self.coverage.missing();
        missing.extend(self.stored_coverage.missing());
        missing.extend(self.edit_coverage.missing());
        missing.extend(self.search_coverage.missing());
        missing.extend(self.calls.missing());
        if self.nests < least_nests {
            missing.push(format!("{least_nests} files with files inside"));
        }
        missing
    }

    /// Counts and reports a failure of something that is not generated.
    fn tell(&mut self, name: &str, checked: Result<(), String>) {
        if let Err(reason) = checked {
            self.failures += 1;
            println!("{name}: {reason:.LONGEST_REASON$}");
        }
    }

    /// Checks something that is generated. If it fails, it is written under its name and reported.
    fn check_generated(&mut self, generated: &Generated, name: &str) -> io::Result<()> {
        let checked = match generated {
            Generated::File(bytes) | Generated::Nest(bytes) => self.check_file(bytes),
            Generated::Outline(bytes) => self.check_outline(bytes),
            Generated::Edit(edit) => self.check_edit(edit),
        };
        let Err(reason) = checked else {
            return Ok(());
        };
        self.failures += 1;
        if self.failures > MOST_TOLD {
            return Ok(());
        }
        report(name, &generated.parts(), &reason)
    }

    /// Compares the searches for a mark in short strings.
    fn check_searches(&mut self, seed: u64) -> Result<(), String> {
        self.searches += compare_strings(seed, &mut self.search_coverage)?;
        Ok(())
    }

    /// Runs all checks on a generated file.
    fn check_file(&mut self, file: &[u8]) -> Result<(), String> {
        self.bytes += file.len() as u64;
        self.longest = self.longest.max(file.len());
        let lent = file.to_vec();
        let answers = self.compare_file(&lent)?;
        self.nests += u64::from(answers.records().iter().any(holds_a_file));
        without_panic(|| read_back(&lent, &answers, &mut self.calls))??;
        self.searches += compare_in_file(&lent)?;
        same("the file after all calls", &lent[..], file)?;
        without_panic(|| second::check(file, &answers))?
    }

    /// Compares a long file, and then what is reported about it with what is stated by hand.
    fn check_long_file(&mut self, long: &LongFile) -> Result<(), String> {
        let answers = self.compare_file(&long.file)?;
        long.check(&answers)
    }

    /// Counts what a file reaches, and compares what is reported about it.
    fn compare_file(&mut self, file: &[u8]) -> Result<Answers, String> {
        let answers = without_panic(|| Answers::to(file))?;
        self.coverage.count(file, &answers);
        without_panic(|| file::compare(file, &answers, &mut self.calls))??;
        Ok(answers)
    }

    /// Counts what a stored outline reaches, and compares what is reported about it.
    fn check_outline(&mut self, stored: &[u8]) -> Result<(), String> {
        let lent = stored.to_vec();
        let answers = without_panic(|| StoredAnswers::to(stored))?;
        self.stored_coverage.count(stored, &answers);
        without_panic(|| stored::compare(&lent, &answers, &mut self.calls))??;
        same("the outline after all calls", &lent[..], stored)
    }

    /// Counts what an edit reaches, and compares its outcome.
    fn check_edit(&mut self, edit: &Edit) -> Result<(), String> {
        let expected = without_panic(|| edit::edited_by_second(edit))??;
        let outcome = expected.as_ref().map(|_| ()).map_err(|&refusal| refusal);
        let answers = without_panic(|| EditAnswers::to(&edit.file, &edit.text, outcome))?;
        self.edit_coverage.count(&edit.file, &answers);
        self.searches += compare_in_file(&edit.file)?;
        without_panic(|| edit::compare(edit, &expected, exports::edit, &mut self.calls))?
    }

    /// Counts what a long edit reaches, and compares its outcome.
    fn check_long_edit(&mut self, long: &LongEdit) -> io::Result<Result<(), String>> {
        let file = long.file()?;
        self.edit_coverage.count(&file, &long.answers(&file));
        edit::compare_long(long, &file)
    }
}

/// Whether a block has content that begins like a file.
fn holds_a_file(record: &Record) -> bool {
    record.inner != Inner::Plain
}

/// Does the work and returns what it gives. A panic fails only the file at hand and not the run.
fn without_panic<T>(work: impl FnOnce() -> T) -> Result<T, String> {
    catch_unwind(AssertUnwindSafe(work)).map_err(|_| "a panic occurred".to_string())
}

/// Writes the parts of something that failed, and reports it.
fn report(name: &str, parts: &[(&'static str, &[u8])], reason: &str) -> io::Result<()> {
    fs::create_dir_all(FAILING)?;
    for (end, bytes) in parts {
        fs::write(format!("{FAILING}/{name}{end}"), bytes)?;
    }
    let ends: Vec<&str> = parts.iter().map(|(end, _)| *end).collect();
    println!(
        "{FAILING}/{name}{}: {reason:.LONGEST_REASON$}",
        ends.join(", ")
    );
    Ok(())
}

#[cfg(test)]
mod tests {
    use super::*;

    #[test]
    fn default_run_reaches_everything_and_nothing_fails() -> io::Result<()> {
        let count = DEFAULT_COUNT / 4;
        let outcome = check_files(DEFAULT_SEED, count)?;
        assert_eq!(outcome.missing(count), [""; 0]);
        assert_eq!(outcome.failures, 0);
        Ok(())
    }
}
