//! Makes the tree of a file, right or wrong.

use super::text::{bytes_of_one_line, line, lines, part_of_mark, texts};
use crate::format::text::{END_LINE, MARK, YAML_LINE};
use crate::rng::Rng;

/// Bytes that are almost the first line of a tree, or almost a block (7).
const NO_TREE: &[&[u8]] = &[
    b"%YAML 1.2\n",
    b"%YAML 1.1 \n",
    b"%YAML 1.1\r\r\n",
    b"%YAML 1.1\t\n",
    b"%YAML 1.10\n",
    b"%YAML 1.1",
    b"%YAML 1.1\r",
    b"%YAML  1.1\n",
    b"%yaml 1.1\n",
    b" %YAML 1.1\n",
    b"\n%YAML 1.1\n",
    b"\r\n%YAML 1.1\n",
    b"%TAG ! x\n%YAML 1.1\n",
    b"%",
    b"---\n...\n",
    b"...\n",
    b"\n",
    b"\r\n",
    b" ",
    b"x",
    b"\0",
    b"\0\0\0\0",
    b"\xD3",
    b"\xD3B",
    b"\xD3BL",
    b"\xD3BLk",
    b"\xD3\xD3BLK",
    b" \xD3BLK",
];

/// Lines that are allowed between the first line and the start line.
const LINES_BEFORE_START: &[&[u8]] = &[
    b"%TAG ! tag:stsci.edu:asdf/",
    b"%YAML 1.1",
    b"%YAML 1.2",
    b"%",
    b"%\r",
    b"#",
    b"# a comment",
    b"#ASDF BLOCK INDEX",
    b"#ASDF 1.0.0",
    b"#...",
    b"%---",
    b"%\xD3BLK",
    b"#\xD3BL",
];

/// Lines that are not allowed before the start line (8).
const WRONG_LINES_BEFORE_START: &[&[u8]] = &[
    b"...", b"", b"\r", b" ", b"-", b"--", b"----", b"---x", b"---\t", b"---\r\r", b"---\0",
    b" ---", b"--\r-", b" %TAG", b" #", b"....", b"a: b", b"$", b"&", b"!", b"\"", b"\xD3BLK",
    b"\xD3",
];

/// Start lines, most of them with something after the dashes.
const START_LINES: &[&[u8]] = &[
    b"---",
    b"--- ",
    b"---  ",
    b"--- \r",
    b"--- ---",
    b"--- ...",
    b"--- [12]",
    b"--- #ASDF BLOCK INDEX",
    b"--- !core/asdf-1.1.0",
    b"--- \xD3BLK",
];

/// Lines of content. Some are almost an end line or a start line.
const CONTENT_LINES: &[&[u8]] = &[
    b"",
    b"\r",
    b"\r\r",
    b"a: b",
    b"abc",
    b"a.b",
    b" - x",
    b"... ",
    b" ...",
    b"....",
    b"..",
    b".",
    b"...\r\r",
    b"\r...",
    b"..\r.",
    b"...x",
    b"...\0",
    b"...\t",
    b"... ---",
    b"-",
    b"--",
    b"----",
    b"---x",
    b"---\t",
    b"---\r\r",
    b"---\r ",
    b"---\0",
    b" ---",
    b"--\r-",
    b"%YAML 1.1",
    b"#ASDF BLOCK INDEX",
    b"#ASDF 1.0.0",
    b"\0",
    b"\xD3",
    b"\xD3BLK",
    b"a\rb",
];

/// The ways in which a tree can be wrong.
#[derive(Clone, Copy, PartialEq)]
enum Fault {
    WrongLineBeforeStart,
    SecondStartLine,
    NoStartLine,
    NoEndLine,
}

/// Makes a tree, right or with one fault.
pub fn tree(rng: &mut Rng, wrong: bool) -> Vec<u8> {
    let fault = wrong.then(|| {
        rng.pick(&[
            Fault::WrongLineBeforeStart,
            Fault::SecondStartLine,
            Fault::NoStartLine,
            Fault::NoEndLine,
        ])
    });
    [
        line(rng, YAML_LINE),
        before_start(rng, fault == Some(Fault::WrongLineBeforeStart)),
        start(rng, fault == Some(Fault::NoStartLine)),
        content(rng, fault == Some(Fault::SecondStartLine)),
        end(rng, fault == Some(Fault::NoEndLine)),
    ]
    .concat()
}

/// Makes bytes that are neither the first line of a tree nor a block (7).
pub fn no_tree(rng: &mut Rng) -> Vec<u8> {
    rng.pick(NO_TREE).to_vec()
}

/// Makes the lines before the start line. If they are wrong, one of them is not allowed there (8).
fn before_start(rng: &mut Rng, wrong: bool) -> Vec<u8> {
    let mut found = texts(rng, 3, |rng| rng.pick(LINES_BEFORE_START).to_vec());
    if wrong {
        let wrong_line = rng.pick(WRONG_LINES_BEFORE_START).to_vec();
        found.insert(rng.between(0, found.len()), wrong_line);
    }
    lines(rng, &found)
}

/// Makes the start line, unless it should be missing (8).
fn start(rng: &mut Rng, missing: bool) -> Vec<u8> {
    if missing {
        return Vec::new();
    }
    let text = start_line(rng);
    line(rng, &text)
}

/// Makes the text of a start line.
fn start_line(rng: &mut Rng) -> Vec<u8> {
    match rng.below(4) {
        0 => rng.pick(START_LINES).to_vec(),
        1 => [b"--- ", &bytes_of_one_line(rng, 30)[..]].concat(),
        _ => b"---".to_vec(),
    }
}

/// Makes the lines between the start line and the end line, with a second start line among them if
/// that is asked for (9).
fn content(rng: &mut Rng, second_start: bool) -> Vec<u8> {
    let most = rng.pick(&[0, 2, 6, 12]);
    let mut found = texts(rng, most, content_line);
    if second_start {
        let second = start_line(rng);
        found.insert(rng.between(0, found.len()), second);
    }
    lines(rng, &found)
}

/// Makes the text of a line that neither starts nor ends a tree.
fn content_line(rng: &mut Rng) -> Vec<u8> {
    match rng.below(8) {
        0 => [b"x", &bytes_of_one_line(rng, 50)[..]].concat(),
        1 => [MARK, &bytes_of_one_line(rng, 20)].concat(),
        2 => part_of_mark(rng),
        _ => rng.pick(CONTENT_LINES).to_vec(),
    }
}

/// Makes the end line, unless it should be missing (10).
fn end(rng: &mut Rng, missing: bool) -> Vec<u8> {
    if missing {
        Vec::new()
    } else {
        line(rng, END_LINE)
    }
}

#[cfg(test)]
mod tests {
    use super::*;
    use asdf_second::{read, Layout, Refusal};

    /// Returns the answers of the second program to 500 files: a header line, and then generated
    /// bytes.
    fn answers(rest: impl Fn(&mut Rng) -> Vec<u8>) -> Vec<Result<Layout, Refusal>> {
        (0..500)
            .map(|number| rest(&mut Rng::for_file(0, number)))
            .map(|rest| read(&[b"#ASDF 1.0.0\n", &rest[..]].concat()))
            .collect()
    }

    #[test]
    fn right_tree_is_the_whole_room() {
        for answer in answers(|rng| tree(rng, false)) {
            let tree = answer.unwrap().tree.unwrap();
            assert_eq!(tree.end, tree.room_end);
        }
    }

    #[test]
    fn wrong_tree_is_refused_with_8_9_or_10() {
        for answer in answers(|rng| tree(rng, true)) {
            assert!((8..=10).contains(&answer.unwrap_err().number));
        }
    }

    #[test]
    fn what_is_no_tree_is_refused_with_7() {
        for answer in answers(no_tree) {
            assert_eq!(answer.unwrap_err().number, 7);
        }
    }
}
