//! Makes lines, and bytes that almost mean something.

use crate::format::text::MARK;
use crate::rng::Rng;

/// Chooses a line end, mostly 0A alone.
pub fn line_end(rng: &mut Rng) -> &'static [u8] {
    if rng.chance(4) {
        b"\r\n"
    } else {
        b"\n"
    }
}

/// Makes a line with this text and either line end.
pub fn line(rng: &mut Rng, text: &[u8]) -> Vec<u8> {
    [text, line_end(rng)].concat()
}

/// Makes lines with these texts, each with either line end.
pub fn lines(rng: &mut Rng, texts: &[Vec<u8>]) -> Vec<u8> {
    texts.iter().flat_map(|text| line(rng, text)).collect()
}

/// Makes at most `most` texts, each with the function `text`.
pub fn texts(rng: &mut Rng, most: usize, text: fn(&mut Rng) -> Vec<u8>) -> Vec<Vec<u8>> {
    (0..rng.between(0, most)).map(|_| text(rng)).collect()
}

/// Makes at most `most` bytes of any value except 0A.
pub fn bytes_of_one_line(rng: &mut Rng, most: usize) -> Vec<u8> {
    let length = rng.between(0, most);
    let mut bytes = rng.bytes(length);
    bytes.retain(|&byte| byte != b'\n');
    bytes
}

/// Makes the first bytes of a mark, but not all four.
pub fn part_of_mark(rng: &mut Rng) -> Vec<u8> {
    MARK[..rng.between(1, MARK.len() - 1)].to_vec()
}
