//! File names in messages. A name may hold any bytes but 0 and `/`, and a stranger may have chosen it.

use std::fmt::Write;
use std::os::unix::ffi::OsStrExt;
use std::path::Path;

/// Returns a name for people to read. If it holds anything that could change what a terminal shows,
/// that is escaped, and so is each backslash.
pub fn shown(path: &Path) -> String {
    match path.to_str() {
        Some(text) if text.chars().all(is_harmless) => text.to_string(),
        _ => escaped(path.as_os_str().as_bytes()),
    }
}

/// Returns a name as one word of a command line. If it holds anything unusual, only bash and shells like it read that word.
pub fn quoted(path: &Path) -> String {
    // A name that begins with a dash would be taken for an option.
    let start = match path.as_os_str().as_bytes() {
        [b'-', ..] => "./",
        _ => "",
    };
    let name = shown(path);
    let is_word = |c: char| c.is_ascii_alphanumeric() || "_./,:@%+=-".contains(c);
    match path.to_str() {
        Some(text) if text == name && !text.is_empty() && text.chars().all(is_word) => {
            format!("{start}{name}")
        }
        Some(text) if text == name => format!("'{start}{}'", name.replace('\'', r"'\''")),
        _ => format!("$'{start}{}'", bytes_escaped(path.as_os_str().as_bytes())),
    }
}

/// Whether a character shows itself and nothing else.
pub fn is_harmless(c: char) -> bool {
    // Marks without a width, marks that change the direction of text, and ends of lines.
    let is_unseen = matches!(c, '\u{AD}' | '\u{61C}' | '\u{180E}' | '\u{200B}'..='\u{200F}'
        | '\u{2028}'..='\u{202E}' | '\u{2060}'..='\u{206F}' | '\u{FEFF}');
    !c.is_control() && !is_unseen
}

/// Escapes what does not show itself, and each backslash. Bytes that are not UTF-8 are escaped too.
fn escaped(name: &[u8]) -> String {
    let mut text = String::new();
    for chunk in name.utf8_chunks() {
        for c in chunk.valid().chars() {
            match c {
                '\\' => text.push_str(r"\\"),
                _ if is_harmless(c) => text.push(c),
                _ if c.is_ascii() => text.extend(c.escape_default()),
                _ => text.extend(c.escape_unicode()),
            }
        }
        text.push_str(&bytes_escaped(chunk.invalid()));
    }
    text
}

/// Escapes every byte but letters, digits and a few signs, as bash reads it between `$'` and `'`.
fn bytes_escaped(name: &[u8]) -> String {
    name.iter().fold(String::new(), |mut text, &byte| {
        match byte.is_ascii_alphanumeric() || b" _./,:@%+=-".contains(&byte) {
            true => text.push(byte.into()),
            // Three octal digits end by themselves: a letter after them is not taken for a part of the number.
            false => write!(text, "\\{byte:03o}").expect("a string takes every text"),
        }
        text
    })
}

#[cfg(test)]
mod tests {
    use super::*;
    use std::ffi::OsStr;
    use std::process::Command;

    /// Names of every kind, and how they are shown.
    const NAMES: [(&[u8], &str); 9] = [
        (b"night-1.asdf", "night-1.asdf"),
        (b"-o", "-o"),
        (b"two words", "two words"),
        (b"it's", "it's"),
        (r"a\b".as_bytes(), r"a\b"),
        ("größe/日本".as_bytes(), "größe/日本"),
        (b"\x1B[2J\\red\n", r"\u{1b}[2J\\red\n"),
        ("abc\u{202E}fdsa".as_bytes(), r"abc\u{202e}fdsa"),
        (b"not \xFF UTF-8", r"not \377 UTF-8"),
    ];

    #[test]
    fn name_is_shown_without_anything_that_changes_a_terminal() {
        for (name, expected) in NAMES {
            assert_eq!(shown(Path::new(OsStr::from_bytes(name))), expected);
        }
    }

    #[test]
    fn quoted_name_is_one_word_for_a_shell() {
        for (name, _) in NAMES {
            let path = Path::new(OsStr::from_bytes(name));
            let line = format!("printf %s {}", quoted(path));
            let ran = Command::new("bash").args(["-c", &line]).output().unwrap();
            let printed = ran.stdout.strip_prefix(b"./").unwrap_or(&ran.stdout);
            assert_eq!(printed, name, "{line}");
        }
        assert_eq!(quoted(Path::new("a.asdf")), "a.asdf");
        assert_eq!(quoted(Path::new("-o")), "./-o");
        assert_eq!(quoted(Path::new("it's")), r"'it'\''s'");
    }
}
