//! The tool `asdf-layout`: shows what the proved functions report about a file, for people and for
//! other programs.

#![forbid(unsafe_code)]

mod change;
mod command;
mod digest;
mod edit;
mod failure;
mod help;
#[cfg(feature = "hooks")]
mod hooks;
mod index;
mod json;
mod kept;
mod list;
mod memory;
mod names;
mod output;
mod plain;
mod progress;
mod source;
mod steps;
mod store;
mod table;
mod target;
mod words;

use asdf_layout::{Layout, Outline};
use command::Command;
use output::{Output, Stop};
use source::Source;
use std::env;
use std::path::Path;
use std::process::ExitCode;
use store::Out;

/// What `--version` prints.
const VERSION: &str = concat!("asdf-layout ", env!("CARGO_PKG_VERSION"), "\n");

fn main() -> ExitCode {
    asdf_system::survive_size_limit();
    let words = env::args_os().skip(1).collect();
    let ended = command::parse(words).map_err(Stop::from).and_then(run);
    ended.map_or_else(|stop| stop.report(), |()| 0).into()
}

/// Carries out a command.
fn run(command: Command) -> Result<(), Stop> {
    match command {
        Command::Help(text) => Output::print(text.as_bytes())?,
        Command::Version => Output::print(VERSION.as_bytes())?,
        Command::List { files, form } => list::list(&files, form)?,
        Command::Tree { file } => print_tree(&file)?,
        Command::Verdict { file } => index::print_verdict(&file)?,
        Command::Index { file, out } => index::write(&file, &out)?,
        Command::Outline { file, out } => write_outline(&file, &out)?,
        Command::ReadOutline { stored } => print_outline(&stored)?,
        Command::Edit { file, tree } => edit::edit(&file, &Source::whole(&tree)?)?,
        Command::Restore { file } => edit::restore(&file)?,
        Command::SetAside { file } => set_aside(&file)?,
    }
    Ok(())
}

/// Prints the text of the tree, or nothing if there is no tree.
fn print_tree(file: &Path) -> Result<(), Stop> {
    let source = Source::file(file)?;
    let layout = source.accepted(Layout::read(&source))?;
    let text = layout.tree.map_or(0..0, |tree| tree.text());
    let text = source[text].to_vec();
    // The file can be edited while somebody reads its tree.
    drop(source);
    Output::print(&text)
}

/// Stores the outline of a file.
fn write_outline(file: &Path, out: &Out) -> Result<(), Stop> {
    let source = Source::file(file)?;
    let outline = source.accepted(Outline::of_file(&source))?;
    out.check_is_not(file, &source)?;
    // The file can be edited while somebody reads the outline.
    drop(source);
    out.store(outline.as_bytes())
}

/// Moves what has the name of the kept room out of the way, and says where it is.
fn set_aside(file: &Path) -> Result<(), Stop> {
    let (kept, aside) = edit::set_aside(file)?
        .map(|path| names::shown(&path))
        .into();
    let sentence = format!("{kept} is now {aside}");
    let printed = Output::print(format!("{sentence}\n").as_bytes());
    printed.map_err(|stop| stop.with_advice(&sentence))
}

/// Prints the rows of a stored outline.
fn print_outline(stored: &Path) -> Result<(), Stop> {
    let stored = Source::whole(stored)?;
    let outline = stored.accepted(Outline::read(&stored))?;
    let mut out = Output::standard()?;
    plain::rows(&outline, &mut out)?;
    out.finish()
}
