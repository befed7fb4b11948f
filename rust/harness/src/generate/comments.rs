//! Makes the comments after the header.

use super::text::{bytes_of_one_line, lines, texts};
use crate::format::text::INDEX_LINE;
use crate::rng::Rng;

/// The most comments of a file, not counting the index line.
const MOST_COMMENTS: usize = 4;

/// Comments that are not the index line, though some almost are.
const COMMENTS: &[&[u8]] = &[
    b"#",
    b"##",
    b"# a comment",
    b"#ASDF_STANDARD 1.5.0",
    b"#ASDF 1.0.0",
    b"#ASDF BLOCK INDEX ",
    b"#ASDF BLOCK INDEX\r\r",
    b"#ASDF BLOCK INDEX\0",
    b"#ASDF BLOCK INDEXED",
    b"#ASDF BLOCK INDE",
    b"#ASDF BLOCK  INDEX",
    b"# ASDF BLOCK INDEX",
    b"##ASDF BLOCK INDEX",
    b"#asdf block index",
    b"#%YAML 1.1",
    b"#---",
    b"#...",
    b"#\r",
    b"#a\rb",
    b"#\r\r\r",
    b"#\xD3BLK",
    b"#\xD3BL",
];

/// Makes the comments, none for at least half of the files. Wrong comments have the index line
/// among them (6), or an unterminated comment at their end. Such a comment is refused with 5,
/// unless its line continues with the bytes that follow.
pub fn comments(rng: &mut Rng, wrong: bool) -> Vec<u8> {
    if wrong {
        wrong_comments(rng)
    } else if rng.chance(2) {
        let comments = texts(rng, MOST_COMMENTS, comment);
        lines(rng, &comments)
    } else {
        Vec::new()
    }
}

/// Makes comments with the index line among them, or with an unterminated comment at their end.
fn wrong_comments(rng: &mut Rng) -> Vec<u8> {
    let mut comments = texts(rng, MOST_COMMENTS, comment);
    if rng.chance(3) {
        let unended = rng.pick(&[INDEX_LINE, b"# unended", b"#"]);
        return [&lines(rng, &comments), unended].concat();
    }
    comments.insert(rng.between(0, comments.len()), INDEX_LINE.to_vec());
    lines(rng, &comments)
}

/// Makes the text of a comment.
fn comment(rng: &mut Rng) -> Vec<u8> {
    if rng.chance(5) {
        [b"#", &bytes_of_one_line(rng, 60)[..]].concat()
    } else {
        rng.pick(COMMENTS).to_vec()
    }
}
