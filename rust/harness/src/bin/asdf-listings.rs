//! Runs the proved listing program on files. Compares what it prints with the stored listings and
//! with the listings of the second program.

#![deny(unsafe_code)]

use asdf_harness::files::nests;
use asdf_harness::format::block::block_header;
use asdf_harness::format::text::HEADER_LINE;
use asdf_harness::generate::corpus::{numbered_file, numbered_nest};
use asdf_second::{listing, PROGRAM_LIMIT};
use std::env::args;
use std::fs;
use std::io::{self, Write};
use std::path::{Path, PathBuf};
use std::process::{Command, ExitCode, Stdio};
use std::thread::sleep;
use std::time::Duration;

const USAGE: &str = "usage: asdf-listings PROGRAM [SEED] [COUNT]

Runs PROGRAM on the cases, on the real files, on files at the limit of its input, on COUNT
generated files (5,000 by default) and on COUNT generated files with files inside. The status is
1 if something differs, if a case or a real file is missing, or if a kind of listing never
occurred. The first 20 failing files are written as build/failing/listing-NUMBER.asdf.
";
const DEFAULT_SEED: u64 = 1;
const DEFAULT_COUNT: u64 = 5_000;

const ROOT: &str = concat!(env!("CARGO_MANIFEST_DIR"), "/../..");
const FAILING: &str = "build/failing";
/// How many failing files are written and reported at most.
const MOST_TOLD: u64 = 20;
/// The minimum numbers of cases and of real files. More may be added, but none may be lost.
const LEAST_CASES: usize = 67;
const LEAST_REAL_FILES: usize = 18;
const STREAMED: u32 = 1;
/// Of this many generated files, one comes in two parts with a pause between them. Three others get
/// the length of the limit, one byte less and one byte more.
const ONE_IN: u64 = 50;

/// The program, and what it has printed so far.
struct Run {
    program: PathBuf,
    listed: u64,
    refused: u64,
    too_long: u64,
    different: u64,
}

fn main() -> ExitCode {
    let words: Vec<String> = args().skip(1).collect();
    let number = |place: usize, default| {
        words
            .get(place)
            .map_or(Some(default), |word| word.parse().ok())
    };
    let (Some(program), Some(seed), Some(count), true) = (
        words.first(),
        number(1, DEFAULT_SEED),
        number(2, DEFAULT_COUNT),
        words.len() <= 3,
    ) else {
        eprint!("{USAGE}");
        return ExitCode::from(2);
    };
    let mut run = Run {
        program: PathBuf::from(program),
        listed: 0,
        refused: 0,
        too_long: 0,
        different: 0,
    };
    match run.all(seed, count) {
        Ok(true) => ExitCode::SUCCESS,
        Ok(false) => ExitCode::FAILURE,
        Err(error) => {
            eprintln!("asdf-listings: {error}");
            ExitCode::FAILURE
        }
    }
}

impl Run {
    /// Runs the program on everything, prints the numbers, and returns whether all is well.
    fn all(&mut self, seed: u64, count: u64) -> io::Result<bool> {
        let cases = self.cases()?;
        let real = self.real_files()?;
        for file in limits() {
            self.compare(&file, &listing(&file), 0)?;
        }
        for number in 0..count {
            self.generated(numbered_file(seed, number), number)?;
            self.generated(numbered_nest(seed, number), number)?;
        }
        let Run {
            listed,
            refused,
            too_long,
            different,
            ..
        } = *self;
        println!(
            "{cases} cases, {real} real files and {} generated files: {listed} listed, {refused} refused, \
             {too_long} too long, {different} different",
            2 * count
        );
        let complete = cases >= LEAST_CASES && real >= LEAST_REAL_FILES;
        Ok(complete && listed > 0 && refused > 0 && too_long > 0 && different == 0)
    }

    /// Runs the program on the cases. One file stores all their listings, each after the name of
    /// its file.
    fn cases(&mut self) -> io::Result<usize> {
        let folder = Path::new(ROOT).join("crates/cases");
        let stored = fs::read(folder.join("stdout"))?;
        let names = fs::read_to_string(folder.join("args"))?;
        let mut together = Vec::new();
        for name in names.lines() {
            let file = fs::read(folder.join("data").join(name))?;
            let printed = self.compare(&file, &listing(&file), 0)?;
            together.extend([name.as_bytes(), b":\n", &printed].concat());
        }
        if together != stored {
            self.different += 1;
            eprintln!("asdf-listings: the listings of the cases differ from crates/cases/stdout");
        }
        let files = fs::read_dir(folder.join("data"))?.count();
        Ok(names.lines().count().min(files))
    }

    /// Runs the program on the real files. The listing of each is stored next to it.
    fn real_files(&mut self) -> io::Result<usize> {
        let mut found = 0;
        for entry in fs::read_dir(Path::new(ROOT).join("tests/data"))? {
            let path = entry?.path();
            if path
                .extension()
                .is_some_and(|extension| extension == "asdf")
            {
                let stored = fs::read(path.with_extension("listing"))?;
                self.compare(&fs::read(&path)?, &stored, 0)?;
                found += 1;
            }
        }
        Ok(found)
    }

    /// Runs the program on a generated file. Most files stay as they are. Some come in two parts.
    /// Some are cut or filled with zeros to the length of the limit, or to one byte less or more.
    fn generated(&mut self, mut file: Vec<u8>, number: u64) -> io::Result<()> {
        let turn = number % ONE_IN;
        if turn < 3 {
            file.resize(PROGRAM_LIMIT - 1 + turn as usize, 0);
        }
        let first = if turn == 3 { file.len() / 2 } else { 0 };
        self.compare(&file, &listing(&file), first)?;
        Ok(())
    }

    /// Runs the program on a file, with a pause after its first `first` bytes, and compares.
    /// Returns what the program printed.
    fn compare(&mut self, file: &[u8], expected: &[u8], first: usize) -> io::Result<Vec<u8>> {
        match expected {
            [b't', b'o', ..] => self.too_long += 1,
            [b'r', ..] => self.refused += 1,
            _ => self.listed += 1,
        }
        let printed = self.print(file, first)?;
        if printed.as_deref() != Some(expected) {
            self.keep(file)?;
        }
        Ok(printed.unwrap_or_default())
    }

    /// Counts a failing file, writes it and reports it.
    fn keep(&mut self, file: &[u8]) -> io::Result<()> {
        if self.different < MOST_TOLD {
            let path = Path::new(FAILING).join(format!("listing-{}.asdf", self.different));
            fs::create_dir_all(FAILING)?;
            fs::write(&path, file)?;
            eprintln!("asdf-listings: {} is listed differently", path.display());
        }
        self.different += 1;
        Ok(())
    }

    /// What the program prints for a file. There is no answer if its status is not 0 or it writes
    /// to standard error.
    fn print(&self, file: &[u8], first: usize) -> io::Result<Option<Vec<u8>>> {
        let mut child = Command::new(&self.program)
            .stdin(Stdio::piped())
            .stdout(Stdio::piped())
            .stderr(Stdio::piped())
            .spawn()?;
        if let Some(mut input) = child.stdin.take() {
            input.write_all(&file[..first])?;
            if first > 0 {
                sleep(Duration::from_millis(2));
            }
            // This write may fail: a program that has seen that its input is too long reads no
            // further.
            let _ = input.write_all(&file[first..]);
        }
        let output = child.wait_with_output()?;
        let well = output.status.success() && output.stderr.is_empty();
        Ok(well.then_some(output.stdout))
    }
}

/// Files at the limit: an empty file, far more bytes than the program takes, and a regular nest of
/// files with many rows. Then a file with one block and bytes that are no file, each at the limit,
/// one byte below it and one byte above it.
fn limits() -> Vec<Vec<u8>> {
    let mut files = vec![
        Vec::new(),
        vec![b' '; 4 * PROGRAM_LIMIT],
        nests::tree(2, 33, b""),
    ];
    for length in PROGRAM_LIMIT - 1..=PROGRAM_LIMIT + 1 {
        let mut file = [HEADER_LINE, &block_header(STREAMED, 0)].concat();
        file.resize(length, b'x');
        files.push(file);
        files.push(vec![0; length]);
    }
    files
}
