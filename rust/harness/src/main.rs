//! The command: generates test files, and compares what the proved functions and the second program
//! report about them.

#![deny(unsafe_code)]

use asdf_harness::run::{dump, run, stack, DEFAULT_COUNT, DEFAULT_SEED};
use std::env::args;
use std::io;
use std::path::Path;
use std::process::ExitCode;

const USAGE: &str = "\
usage: asdf-harness [SEED] [COUNT]
       asdf-harness --dump SEED COUNT DIR
       asdf-harness --stack BYTES

The first form generates COUNT files (100,000 by default). It also generates COUNT files with
files inside, COUNT stored outlines and COUNT edits; an edit is a file and a text for its tree.
It compares what the proved functions and the second program report and write for each of them,
and prints what was reached. A few sparse files at the limit of 4 GiB and a few files with many
rows are compared too. The status is 1 if something differs or was never reached. The first 20
failures are written as build/failing/SEED-NUMBER.asdf, SEED-NUMBER-nest.asdf,
SEED-NUMBER.outline, or SEED-NUMBER-edit.asdf with SEED-NUMBER-edit.text.

The second form writes the files to DIR/in, each after its length in 8 bytes. What the second
program reports about each file is a line of DIR/out. Files longer than 65,536 bytes are left out.

The third form runs the proved functions on the files that make them go deepest, in a thread
with a stack of BYTES bytes. A stack that is too small ends the program with a signal.
";

/// What the caller asks for.
enum Command {
    Run {
        seed: u64,
        count: u64,
    },
    Dump {
        seed: u64,
        count: u64,
        directory: String,
    },
    Stack {
        bytes: usize,
    },
}

fn main() -> ExitCode {
    let words: Vec<String> = args().skip(1).collect();
    let Some(command) = command(&words) else {
        eprint!("{USAGE}");
        return ExitCode::from(2);
    };
    match perform(command) {
        Ok(true) => ExitCode::SUCCESS,
        Ok(false) => ExitCode::FAILURE,
        Err(error) => {
            eprintln!("asdf-harness: {error}");
            ExitCode::FAILURE
        }
    }
}

/// Reads the command from the arguments.
fn command(words: &[String]) -> Option<Command> {
    let words: Vec<&str> = words.iter().map(String::as_str).collect();
    if let ["--dump", seed, count, directory] = words[..] {
        return Some(Command::Dump {
            seed: seed.parse().ok()?,
            count: count.parse().ok()?,
            directory: directory.to_string(),
        });
    }
    if let ["--stack", bytes] = words[..] {
        return Some(Command::Stack {
            bytes: bytes.parse().ok()?,
        });
    }
    let (seed, count) = match words[..] {
        [] => (DEFAULT_SEED, DEFAULT_COUNT),
        [seed] => (seed.parse().ok()?, DEFAULT_COUNT),
        [seed, count] => (seed.parse().ok()?, count.parse().ok()?),
        _ => return None,
    };
    Some(Command::Run { seed, count })
}

/// Carries out the command, and returns whether all is well.
fn perform(command: Command) -> io::Result<bool> {
    match command {
        Command::Run { seed, count } => run(seed, count),
        Command::Dump {
            seed,
            count,
            directory,
        } => dump::dump(seed, count, Path::new(&directory)).map(|()| true),
        Command::Stack { bytes } => {
            let walked = stack::walk_with_stack(bytes)?;
            walked.map(|()| true).map_err(io::Error::other)
        }
    }
}
