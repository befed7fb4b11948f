//! Why a command did not do what was asked: one sentence and the exit status.

use crate::names::shown;
use asdf_layout::Refusal;
use std::fmt::{self, Display};
use std::io::{self, Write};
use std::path::Path;

/// The status when a proved function refuses something.
const REFUSED: u8 = 1;
/// The status of a wrong call, and of an operation that the system does not carry out.
const NOT_DONE: u8 = 2;

/// Tells the user something on standard error. If nobody can be told, the command goes on.
pub fn note(sentence: impl Display) {
    // It is written at once, so that it is not mixed with what other programs write there.
    let line = format!("asdf-layout: {sentence}\n");
    let _ = io::stderr().write_all(line.as_bytes());
}

/// What a failed command prints, and its exit status.
#[derive(Debug)]
pub struct Failure {
    status: u8,
    sentence: String,
}

impl Failure {
    /// Reports that a proved function refused something.
    pub fn refused(name: impl Display, refusal: Refusal) -> Failure {
        Failure {
            status: REFUSED,
            sentence: format!("{name}: {refusal}"),
        }
    }

    /// Reports that the command was not carried out.
    pub fn not_done(sentence: impl Into<String>) -> Failure {
        Failure {
            status: NOT_DONE,
            sentence: sentence.into(),
        }
    }

    /// Reports that the system did not carry out an operation.
    pub fn system(what: impl Display, error: io::Error) -> Failure {
        Failure::not_done(format!("{what}: {error}"))
    }

    /// Reports that the system did not carry out an operation on a file.
    pub fn at(what: &str, path: &Path, error: io::Error) -> Failure {
        Failure::system(format_args!("{what} {}", shown(path)), error)
    }

    /// Adds what holds now or what to do next.
    pub fn with_advice(mut self, advice: impl Display) -> Failure {
        self.sentence = format!("{}; {advice}", self.sentence);
        self
    }

    /// Adds the advice, if there is any.
    pub fn with_advice_if(self, advice: Option<impl Display>) -> Failure {
        match advice {
            Some(advice) => self.with_advice(advice),
            None => self,
        }
    }

    /// Tells the user, and returns the exit status.
    pub fn report(&self) -> u8 {
        note(self);
        self.status
    }
}

impl Display for Failure {
    fn fmt(&self, f: &mut fmt::Formatter<'_>) -> fmt::Result {
        f.write_str(&self.sentence)
    }
}
