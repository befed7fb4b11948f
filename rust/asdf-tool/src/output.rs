//! Standard output, and what it means if it takes nothing more.

use crate::failure::Failure;
use asdf_system::output_was_closed;
use std::fmt;
use std::fs::File;
use std::io::{self, BufWriter, ErrorKind, Write};
use std::os::fd::AsFd;

/// How many bytes are written at once: as many as a pipe holds.
const BUFFER: usize = 1 << 16;

/// Why a command ends before it is done.
#[derive(Debug)]
pub enum Stop {
    /// Whoever read standard output has closed it and wants no more. That is no failure.
    Closed,
    /// Standard output cannot be written, so nothing more can be printed.
    Unwritten(Failure),
    /// Something else failed.
    Failed(Failure),
    /// Something failed, and the user was told. This is the exit status.
    Reported(u8),
}

impl Stop {
    /// Tells the user why the command ends, if that was not done yet, and returns the exit status.
    pub fn report(&self) -> u8 {
        match self {
            Stop::Closed => 0,
            Stop::Unwritten(failure) | Stop::Failed(failure) => failure.report(),
            Stop::Reported(status) => *status,
        }
    }

    /// Adds what holds now or what to do next, if something failed.
    pub fn with_advice(self, advice: &str) -> Stop {
        match self {
            Stop::Unwritten(failure) => Stop::Unwritten(failure.with_advice(advice)),
            Stop::Failed(failure) => Stop::Failed(failure.with_advice(advice)),
            stop => stop,
        }
    }
}

impl From<Failure> for Stop {
    fn from(failure: Failure) -> Stop {
        Stop::Failed(failure)
    }
}

/// Standard output. Everything that a command prints goes through here, and `finish` has to follow.
pub struct Output {
    writer: BufWriter<File>,
}

impl Output {
    /// Opens standard output. Nothing else in the tool does so.
    ///
    /// It is written as a file, because `io::Stdout` writes each line by itself, and takes it for a
    /// success if standard output is not open for writing.
    pub fn standard() -> Result<Output, Stop> {
        if output_was_closed() {
            return Err(stop(io::Error::other("it is closed")));
        }
        let standard = io::stdout().as_fd().try_clone_to_owned();
        let file = File::from(standard.map_err(stop)?);
        let writer = BufWriter::with_capacity(BUFFER, file);
        Ok(Output { writer })
    }

    /// Prints bytes and nothing else.
    pub fn print(bytes: &[u8]) -> Result<(), Stop> {
        let mut output = Output::standard()?;
        output.write_all(bytes)?;
        output.finish()
    }

    pub fn write_all(&mut self, bytes: &[u8]) -> Result<(), Stop> {
        self.writer.write_all(bytes).map_err(stop)
    }

    /// The macro `write!` calls this.
    pub fn write_fmt(&mut self, text: fmt::Arguments) -> Result<(), Stop> {
        self.writer.write_fmt(text).map_err(stop)
    }

    /// Writes what is buffered, so that a message on standard error comes after it.
    pub fn flush(&mut self) -> Result<(), Stop> {
        self.writer.flush().map_err(stop)
    }

    /// Writes what is buffered. Only then is it known that everything was written.
    pub fn finish(mut self) -> Result<(), Stop> {
        self.flush()
    }
}

/// Tells a closed pipe from a failure.
fn stop(error: io::Error) -> Stop {
    match error.kind() {
        ErrorKind::BrokenPipe => Stop::Closed,
        _ => Stop::Unwritten(Failure::system("cannot write to standard output", error)),
    }
}
