//! Lists files, one after the other.

use crate::command::Form;
use crate::failure::Failure;
use crate::output::{Output, Stop};
use crate::source::Source;
use crate::{json, names, plain, table};
use asdf_layout::{Layout, Outline, Records, Refusal};
use std::mem;
use std::path::{Path, PathBuf};

/// Lists files in order. If one of them cannot be opened or is refused, the others are still listed,
/// and the worst status counts.
pub fn list(files: &[PathBuf], form: Form) -> Result<(), Stop> {
    let mut worst = 0;
    match list_each(files, form, &mut worst) {
        // A reader that has left does not undo what was reported before.
        Ok(()) | Err(Stop::Closed) if worst != 0 => Err(Stop::Reported(worst)),
        ended => ended,
    }
}

/// Lists files in order, reports each failure, and keeps the worst status.
fn list_each(files: &[PathBuf], form: Form, worst: &mut u8) -> Result<(), Stop> {
    let mut listings = Listings {
        out: Output::standard()?,
        form,
        several: files.len() > 1,
        begun: false,
    };
    for path in files {
        match listings.add(path) {
            Err(Stop::Failed(failure)) => *worst = failure.report().max(*worst),
            listed => listed?,
        }
    }
    listings.out.finish()
}

/// What the proved functions report about an accepted file.
enum Report {
    Table(Layout, Records),
    Plain(Layout, Outline<'static>),
    Json(Layout, Records),
}

impl Report {
    /// Reads as much of a file as its listing shows.
    fn read(file: &[u8], form: Form) -> Result<Report, Refusal> {
        let layout = Layout::read(file)?;
        Ok(match form {
            Form::Table => Report::Table(layout, Records::read(file)?),
            Form::Plain => Report::Plain(layout, Outline::of_file(file)?),
            Form::Json => Report::Json(layout, Records::read(file)?),
        })
    }
}

/// The listings of one call.
struct Listings {
    out: Output,
    form: Form,
    /// Whether there may be more than one.
    several: bool,
    /// Whether there is one already.
    begun: bool,
}

impl Listings {
    /// Lists one more file.
    fn add(&mut self, path: &Path) -> Result<(), Stop> {
        let source = Source::file(path)?;
        let (name, length) = (source.name(), source.len());
        let report = Report::read(&source, self.form);
        // While the listing is printed, the file can be edited, and its bytes take no memory.
        drop(source);
        if self.form == Form::Plain && self.several {
            writeln!(self.out, "file {}", names::shown(path))?;
        }
        match report {
            Ok(report) => {
                self.print(path, &name, length, &report)?;
                // A message about the next file comes after this listing.
                self.out.flush()
            }
            Err(refusal) => {
                self.print_refusal(path, &refusal)?;
                Err(Failure::refused(name, refusal).into())
            }
        }
    }

    /// Prints the listing of an accepted file.
    fn print(
        &mut self,
        path: &Path,
        name: &str,
        length: usize,
        report: &Report,
    ) -> Result<(), Stop> {
        let out = &mut self.out;
        let is_first = !mem::replace(&mut self.begun, true);
        match report {
            Report::Table(layout, records) => {
                if !is_first {
                    writeln!(out)?;
                }
                table::print(name, length, layout, records, out)
            }
            Report::Plain(layout, outline) => plain::print(layout, outline, out),
            Report::Json(layout, records) => json::print(path, length, layout, records, out),
        }
    }

    /// Prints a refusal in the forms for programs. A sentence on standard error follows, even if
    /// nobody reads this.
    fn print_refusal(&mut self, path: &Path, refusal: &Refusal) -> Result<(), Stop> {
        let printed = match self.form {
            Form::Table => Ok(()),
            Form::Plain => plain::print_refusal(refusal, &mut self.out),
            Form::Json => json::print_refusal(path, refusal, &mut self.out),
        };
        match printed.and_then(|()| self.out.flush()) {
            Err(Stop::Closed) => Ok(()),
            printed => printed,
        }
    }
}
