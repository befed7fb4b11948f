//! Makes texts that are to replace a tree: right ones whose lengths are at or around a limit, and
//! every kind of wrong one.

use super::cut::cut;
use super::damage::damage;
use super::tree::{no_tree, tree};
use crate::format::text::{after_first_line, LEAST_TREE, MARK};
use crate::rng::Rng;

/// Wrong bytes before the tree of a text.
const BEFORE: &[&[u8]] = &[
    b"\n",
    b"\r\n",
    b" ",
    b"\0",
    b"#\n",
    b"# a comment\r\n",
    b"#ASDF 1.0.0\n",
    b"%TAG ! x\n",
    b"---\n",
    b"...\n",
    b"\xEF\xBB\xBF",
    MARK,
];

/// Wrong bytes after the tree of a text.
const AFTER: &[&[u8]] = &[
    b"\n",
    b"\r\n",
    b" ",
    b"\0",
    b"#",
    b"# a comment\n",
    b"...\n",
    b"---\n",
    b"x",
    LEAST_TREE,
    MARK,
];

/// The bytes of a line that is neither a start line nor an end line.
const PLAIN_BYTES: &[u8] = b"x \r\0\xD3BLK";

/// How many bytes longer than the room a tree may be when a wrong text is made from it.
const BEYOND_ROOM: usize = 40;

/// Makes a text that is to replace `old`, the tree of a file. `room` holds the bytes of its room.
pub fn replacement(rng: &mut Rng, old: &[u8], room: &[u8]) -> Vec<u8> {
    match rng.below(16) {
        0 => old.to_vec(),
        1 => room.to_vec(),
        2..=4 => tree_of_length(rng, room.len()),
        5 | 6 => tree_of_length(rng, room.len() + 1),
        7 | 8 => tree_of_most(rng, room.len()),
        9 => with_0d_0a(&tree_of_most(rng, room.len())),
        10 => tree(rng, false),
        _ => wrong_text(rng, room.len()),
    }
}

/// Makes a tree of at most `most` bytes. The smallest tree must not be longer than that.
fn tree_of_most(rng: &mut Rng, most: usize) -> Vec<u8> {
    let length = rng.between(LEAST_TREE.len(), most);
    tree_of_length(rng, length)
}

/// Makes a tree of `length` bytes. The smallest tree must not be longer than that.
fn tree_of_length(rng: &mut Rng, length: usize) -> Vec<u8> {
    let mut text = tree(rng, false);
    if text.len() > length {
        text = LEAST_TREE.to_vec();
    }
    let missing = length - text.len();
    let mut line = rng.bytes_of(PLAIN_BYTES, missing);
    if let Some(last) = line.last_mut() {
        *last = b'\n';
    }
    let place = end_line_start(&text);
    text.splice(place..place, line);
    text
}

/// Returns where the end line of a tree begins.
fn end_line_start(tree: &[u8]) -> usize {
    let end_line: &[u8] = if tree.ends_with(b"\r\n") {
        b"...\r\n"
    } else {
        b"...\n"
    };
    tree.len() - end_line.len()
}

/// Returns a text with the same lines, each ended by 0D 0A.
fn with_0d_0a(text: &[u8]) -> Vec<u8> {
    let mut ended = Vec::new();
    for line in text.split_inclusive(|&byte| byte == b'\n') {
        match line.strip_suffix(b"\n") {
            Some(front) if !front.ends_with(b"\r") => ended.extend([front, b"\r\n"].concat()),
            _ => ended.extend(line),
        }
    }
    ended
}

/// Makes a text for a room of `room` bytes. Mostly it is not exactly one tree.
fn wrong_text(rng: &mut Rng, room: usize) -> Vec<u8> {
    let mut text = tree_of_most(rng, room + BEYOND_ROOM);
    match rng.below(12) {
        0 => text.truncate(text.len() - 1),
        1 | 2 => cut(rng, &mut text),
        3 => text = [rng.pick(BEFORE), &text].concat(),
        4 => text.extend(rng.pick(AFTER)),
        5..=7 => text = tree(rng, true),
        8 => text = [&no_tree(rng), after_first_line(&text)].concat(),
        9 => damage(rng, &mut text),
        10 => text = rng.bytes(room),
        _ => text.clear(),
    }
    text
}

#[cfg(test)]
mod tests {
    use super::*;
    use crate::answers::edit::is_one_tree;

    #[test]
    fn trees_have_the_length_that_is_asked_for() {
        for number in 0..500 {
            let mut rng = Rng::for_file(0, number);
            let length = rng.between(LEAST_TREE.len(), 200);
            let text = tree_of_length(&mut rng, length);
            assert_eq!(text.len(), length);
            assert!(is_one_tree(&text), "{number}");
        }
    }

    #[test]
    fn other_line_ends_leave_a_tree_and_no_0a_alone() {
        for number in 0..500 {
            let text = with_0d_0a(&tree(&mut Rng::for_file(0, number), false));
            assert!(is_one_tree(&text), "{number}");
            let ends = text.windows(2).filter(|pair| pair[1] == b'\n');
            assert!(ends.into_iter().all(|pair| pair[0] == b'\r'));
        }
    }
}
