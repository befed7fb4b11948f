//! The program. Without arguments it does what the rules say. With a command it runs one of the
//! other functions.

#![forbid(unsafe_code)]

use asdf_second::{
    edit, listing, most_rows, outline, read, read_outline, records, write_index, Block, Inner,
    Layout, LineEnd, Record, Refusal, LONGEST_INDEX, PROGRAM_LIMIT, ROW_LENGTH,
};
use std::ffi::OsString;
use std::io::{self, Read, Write};
use std::process::ExitCode;

const USAGE: &str = "\
usage: asdf-second [COMMAND] < FILE
       asdf-second --help

Without a command: print the listing of the rules, for at most 65,536 bytes.
Longer input gives the one line `too long for this program`.

Commands, each for standard input of any length:
  layout         print the file's own layout:
                   version MAJOR MINOR PATCH
                   header END
                   line-end lf, or line-end crlf: that of the header
                   comments START END
                   tree START END ROOM_END, or tree none
                   block ORDINAL OFFSET H FLAGS COMPRESSION ALLOCATED USED DATA_SIZE CHECKSUM
                   index VERDICT
  records        print one line for each block, including the blocks of inner files:
                   DEPTH ORDINAL OFFSET H FLAGS COMPRESSION ALLOCATED USED DATA_SIZE CHECKSUM
                   and then plain, opened, refused NUMBER PLACE, or too-deep
  outline        write the file's outline, raw bytes
  read-outline   read a stored outline, print one line for each row as in the listing
  index          write the file's index with the header's line end, raw bytes
  edit TEXTFILE  put the text in the place of the tree, write the whole file, raw bytes

H is the block's header size. It counts from offset 6 of the block, so the content
begins at OFFSET + 6 + H. FLAGS, COMPRESSION and CHECKSUM are hexadecimal. All
other numbers are decimal.

If the request is refused, the only output is the line `refused NUMBER PLACE`:
  no command, layout, records, read-outline: on standard output, with status 0
  outline, index, edit: on standard error, with status 1

Messages about input or output errors go to standard error, with status 1.
Wrong arguments give this text on standard error, with status 2.
Otherwise the status is 0.
";

fn main() -> ExitCode {
    let arguments: Vec<OsString> = std::env::args_os().skip(1).collect();
    match run(&arguments) {
        Ok(status) => status,
        Err(error) => {
            eprintln!("asdf-second: {error}");
            ExitCode::FAILURE
        }
    }
}

fn run(arguments: &[OsString]) -> io::Result<ExitCode> {
    let words: Vec<Option<&str>> = arguments.iter().map(|word| word.to_str()).collect();
    match words[..] {
        [] => write_out(&listing(&program_input()?)),
        [Some("--help")] => write_out(USAGE.as_bytes()),
        [Some("layout")] => print_result(read(&whole_input()?).map(layout_text)),
        [Some("records")] => print_result(records(&whole_input()?).map(records_text)),
        [Some("read-outline")] => {
            print_result(read_outline(&whole_input()?).map(|rows| lines_of(&rows)))
        }
        [Some("outline")] => {
            let file = whole_input()?;
            let buffer = vec![0; most_rows(file.len()) * ROW_LENGTH];
            write_result(buffer, |out| outline(&file, out))
        }
        [Some("index")] => {
            let file = whole_input()?;
            write_result(vec![0; LONGEST_INDEX], |out| write_index(&file, out))
        }
        [Some("edit"), _] => {
            let text = std::fs::read(&arguments[1])?;
            write_result(whole_input()?, |file| {
                edit(file, &text).map(|()| file.len())
            })
        }
        _ => {
            eprint!("{USAGE}");
            Ok(ExitCode::from(2))
        }
    }
}

/// Reads standard input, but only as far as the program needs to see that the input is too long.
fn program_input() -> io::Result<Vec<u8>> {
    let mut input = Vec::new();
    io::stdin()
        .take(PROGRAM_LIMIT as u64 + 1)
        .read_to_end(&mut input)?;
    Ok(input)
}

/// Reads all of standard input.
fn whole_input() -> io::Result<Vec<u8>> {
    let mut input = Vec::new();
    io::stdin().read_to_end(&mut input)?;
    Ok(input)
}

fn write_out(bytes: &[u8]) -> io::Result<ExitCode> {
    io::stdout().write_all(bytes)?;
    Ok(ExitCode::SUCCESS)
}

/// Prints a text, or the refusal in its place.
fn print_result(result: Result<String, Refusal>) -> io::Result<ExitCode> {
    let text = result.unwrap_or_else(|refusal| format!("{refusal}\n"));
    write_out(text.as_bytes())
}

/// Writes what a function left at the beginning of the buffer, or reports the refusal on standard
/// error.
fn write_result(
    mut buffer: Vec<u8>,
    writer: impl FnOnce(&mut [u8]) -> Result<usize, Refusal>,
) -> io::Result<ExitCode> {
    match writer(&mut buffer) {
        Ok(length) => write_out(&buffer[..length]),
        Err(refusal) => {
            eprintln!("{refusal}");
            Ok(ExitCode::FAILURE)
        }
    }
}

fn layout_text(layout: Layout) -> String {
    let version = layout.version;
    let comments = layout.comments;
    let mut text = format!(
        "version {} {} {}\n",
        version.major, version.minor, version.patch
    );
    text += &format!("header {}\n", layout.header_end.0);
    text += &format!("line-end {}\n", line_end_text(layout.line_end));
    text += &format!("comments {} {}\n", comments.start.0, comments.end.0);
    text += &match layout.tree {
        None => "tree none\n".to_string(),
        Some(tree) => format!("tree {} {} {}\n", tree.start.0, tree.end.0, tree.room_end.0),
    };
    for block in &layout.blocks {
        text += &format!("block {}\n", block_fields(block, block.offset.0));
    }
    text + &format!("index {}\n", layout.index)
}

fn line_end_text(line_end: LineEnd) -> &'static str {
    match line_end {
        LineEnd::Lf => "lf",
        LineEnd::Crlf => "crlf",
    }
}

fn records_text(records: Vec<Record>) -> String {
    let line = |record: &Record| {
        let fields = block_fields(&record.block, record.offset.0);
        format!("{} {} {}", record.depth, fields, inner_text(record.inner))
    };
    lines_of(&records.iter().map(line).collect::<Vec<String>>())
}

/// Returns a block's fields from its ordinal on, with the offset that the caller reports.
fn block_fields(block: &Block, offset: u32) -> String {
    format!(
        "{} {} {} {:08x} {} {} {} {} {}",
        block.ordinal,
        offset,
        block.header_size,
        block.flags,
        hexadecimal(&block.compression),
        block.allocated,
        block.used,
        block.data_size,
        hexadecimal(&block.checksum),
    )
}

fn inner_text(inner: Inner) -> String {
    match inner {
        Inner::Plain => "plain".to_string(),
        Inner::Opened => "opened".to_string(),
        Inner::Refused(refusal) => refusal.to_string(),
        Inner::TooDeep => "too-deep".to_string(),
    }
}

fn hexadecimal(bytes: &[u8]) -> String {
    bytes.iter().map(|byte| format!("{byte:02x}")).collect()
}

fn lines_of(items: &[impl ToString]) -> String {
    items.iter().map(|item| item.to_string() + "\n").collect()
}
