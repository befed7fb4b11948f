//! The listing as one JSON object, on a line of its own.

use crate::names::is_harmless;
use crate::output::{Output, Stop};
use crate::progress;
use crate::words;
use asdf_layout::{Inner, Layout, Record, Records, Refusal, Tree};
use std::fmt::{self, Display, Formatter, Write};
use std::path::Path;

/// Many programs read numbers as floating point, which holds every whole number up to this one.
const LARGEST_EXACT: u64 = 1 << 53;

/// Prints the listing of an accepted file with this name and length.
pub fn print(
    name: &Path,
    length: usize,
    layout: &Layout,
    records: &Records,
    out: &mut Output,
) -> Result<(), Stop> {
    let comments = layout.comments();
    let object = Object([
        ("file", &Text(name.to_string_lossy())),
        ("bytes", &length),
        ("version", &Text(layout.version)),
        ("header_end", &layout.header_end),
        ("line_end", &Text(layout.line_end)),
        (
            "comments",
            &Object([("start", &comments.start), ("end", &comments.end)]),
        ),
        ("tree", &OrNull(layout.tree.map(Offsets))),
        ("blocks", &Blocks(records)),
        ("index", &Text(layout.index)),
    ]);
    writeln!(out, "{object}")
}

/// Prints the listing of a refused file.
pub fn print_refusal(name: &Path, refusal: &Refusal, out: &mut Output) -> Result<(), Stop> {
    let name = Text(name.to_string_lossy());
    let object = Object([("file", &name), ("refused", &Reason(*refusal))]);
    writeln!(out, "{object}")
}

/// A refusal, with its reason in words.
struct Reason(Refusal);

impl Display for Reason {
    fn fmt(&self, f: &mut Formatter<'_>) -> fmt::Result {
        let (number, place) = (&self.0.number, &self.0.place);
        let words = Text(self.0.words());
        Object([("number", number), ("place", place), ("reason", &words)]).fmt(f)
    }
}

/// Where the tree is.
struct Offsets(Tree);

impl Display for Offsets {
    fn fmt(&self, f: &mut Formatter<'_>) -> fmt::Result {
        let Tree {
            start,
            end,
            room_end,
        } = &self.0;
        Object([("start", start), ("end", end), ("room_end", room_end)]).fmt(f)
    }
}

/// All blocks. They are written one after the other, so that they take no memory.
struct Blocks<'a>(&'a Records);

impl Display for Blocks<'_> {
    fn fmt(&self, f: &mut Formatter<'_>) -> fmt::Result {
        f.write_char('[')?;
        let mut separator = "";
        for record in progress::shown(self.0.iter()) {
            f.write_str(separator)?;
            write_block(&record, f)?;
            separator = ",";
        }
        f.write_char(']')
    }
}

/// Writes a block of the file or of one of its inner files.
fn write_block(record: &Record, f: &mut Formatter<'_>) -> fmt::Result {
    let block = &record.block;
    let checksum = block.has_checksum().then_some(Checksum(block.checksum));
    Object([
        ("depth", &record.depth),
        ("ordinal", &block.ordinal),
        ("offset", &record.offset),
        ("header_size", &block.header_size),
        ("flags", &block.flags),
        ("streamed", &block.is_streamed()),
        ("compression", &OrNull(words::compression(block).map(Text))),
        ("allocated", &block.allocated),
        ("used", &block.used),
        ("data_size", &DataSize(block.data_size)),
        ("checksum", &OrNull(checksum)),
        ("inner", &State(record.inner)),
    ])
    .fmt(f)
}

/// A data size. If programs might round it, a member with the same number as text comes after it.
struct DataSize(u64);

impl Display for DataSize {
    fn fmt(&self, f: &mut Formatter<'_>) -> fmt::Result {
        self.0.fmt(f)?;
        match self.0 > LARGEST_EXACT {
            true => write!(f, r#","data_size_text":"{}""#, self.0),
            false => Ok(()),
        }
    }
}

/// An inner state: its word, or the refusal if the inner file is refused.
struct State(Inner);

impl Display for State {
    fn fmt(&self, f: &mut Formatter<'_>) -> fmt::Result {
        match self.0 {
            Inner::Plain => Text("plain").fmt(f),
            Inner::Opened => Text("opened").fmt(f),
            Inner::Refused(refusal) => Object([("refused", &Reason(refusal))]).fmt(f),
            Inner::TooDeep => Text("too-deep").fmt(f),
        }
    }
}

/// An object of members, each with its name and its value.
struct Object<'a, const N: usize>([(&'static str, &'a dyn Display); N]);

impl<const N: usize> Display for Object<'_, N> {
    fn fmt(&self, f: &mut Formatter<'_>) -> fmt::Result {
        let mut start = "{\"";
        for (name, value) in self.0 {
            // This is faster than a format string.
            for part in [start, name, "\":"] {
                f.write_str(part)?;
            }
            value.fmt(f)?;
            start = ",\"";
        }
        f.write_char('}')
    }
}

/// A checksum in quotes, with two digits for each byte.
struct Checksum([u8; 16]);

impl Display for Checksum {
    fn fmt(&self, f: &mut Formatter<'_>) -> fmt::Result {
        write!(f, r#""{:032x}""#, u128::from_be_bytes(self.0))
    }
}

/// A value, or `null` if there is none.
struct OrNull<T>(Option<T>);

impl<T: Display> Display for OrNull<T> {
    fn fmt(&self, f: &mut Formatter<'_>) -> fmt::Result {
        match &self.0 {
            None => f.write_str("null"),
            Some(value) => value.fmt(f),
        }
    }
}

/// Any text, in quotes. What JSON does not allow in a string is escaped, and so is what could change
/// what a terminal shows.
struct Text<T>(T);

impl<T: Display> Display for Text<T> {
    fn fmt(&self, f: &mut Formatter<'_>) -> fmt::Result {
        f.write_char('"')?;
        write!(Escaped(f), "{}", self.0)?;
        f.write_char('"')
    }
}

/// Escapes what is written to it.
struct Escaped<'a, 'b>(&'a mut Formatter<'b>);

impl Write for Escaped<'_, '_> {
    fn write_str(&mut self, text: &str) -> fmt::Result {
        let must_be_escaped = |c| matches!(c, '"' | '\\') || !is_harmless(c);
        let mut rest = text;
        while let Some(length) = rest.find(must_be_escaped) {
            let (harmless, from_here) = rest.split_at(length);
            self.0.write_str(harmless)?;
            let mut chars = from_here.chars();
            self.escape(chars.next().unwrap_or_default())?;
            rest = chars.as_str();
        }
        self.0.write_str(rest)
    }
}

impl Escaped<'_, '_> {
    /// Writes one character as an escape.
    fn escape(&mut self, c: char) -> fmt::Result {
        if matches!(c, '"' | '\\') {
            return write!(self.0, "\\{c}");
        }
        let mut units = [0; 2];
        let mut units = c.encode_utf16(&mut units).iter();
        units.try_for_each(|unit| write!(self.0, "\\u{unit:04x}"))
    }
}

#[cfg(test)]
mod tests {
    use super::*;

    #[test]
    fn text_is_in_quotes_and_escaped() {
        for (text, expected) in [
            ("", r#""""#),
            ("größe/日本 🌊", r#""größe/日本 🌊""#),
            ("a\"b\\c", r#""a\"b\\c""#),
            (
                "\0\t\n\x1B[2J\x7F",
                r#""\u0000\u0009\u000a\u001b[2J\u007f""#,
            ),
            ("\u{85}\u{202E}x\u{2028}", r#""\u0085\u202ex\u2028""#),
        ] {
            assert_eq!(Text(text).to_string(), expected);
        }
    }
}
