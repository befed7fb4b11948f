//! Tests the tree and the free space: refusals 8 to 10.

mod common;

use asdf_second::*;
use common::*;

/// Returns the tree that is found in A and these bytes.
fn tree_in(rest: &[u8]) -> Result<Option<Tree>, Refusal> {
    read(&join(&[A, rest])).map(|layout| layout.tree)
}

fn tree(start: u32, end: u32, room_end: u32) -> Option<Tree> {
    Some(Tree {
        start: InFile(start),
        end: InFile(end),
        room_end: InFile(room_end),
    })
}

#[test]
fn tree_starts_after_the_comments() {
    let layout = read(&join(&[A, b"# one\n", TREE])).unwrap();
    assert_eq!(
        layout.comments,
        Stretch {
            start: InFile(12),
            end: InFile(18)
        }
    );
    assert_eq!(layout.tree, tree(18, 36, 36));
}

#[test]
fn directives_and_comments_may_precede_the_start_line() {
    let text = b"%YAML 1.1\n%TAG ! x\n# c\n#ASDF BLOCK INDEX\n%YAML 1.1\n--- !core/asdf-1.0.0\na: 1\n...\n";
    assert_eq!(
        tree_in(text),
        Ok(tree(12, 12 + text.len() as u32, 12 + text.len() as u32))
    );
}

#[test]
fn start_line_may_have_a_space_and_anything_or_nothing() {
    assert_eq!(tree_in(b"%YAML 1.1\n--- \n...\n"), Ok(tree(12, 31, 31)));
    assert_eq!(tree_in(b"%YAML 1.1\n--- x\n...\n"), Ok(tree(12, 32, 32)));
}

#[test]
fn crlf_everywhere() {
    let file = join(&[
        &with_crlf(A),
        b"# one\r\n",
        &with_crlf(TREE),
        &block().bytes(),
    ]);
    let layout = read(&file).unwrap();
    assert_eq!(
        layout.comments,
        Stretch {
            start: InFile(13),
            end: InFile(20)
        }
    );
    assert_eq!(layout.tree, tree(20, 41, 41));
    assert_eq!(layout.blocks[0].offset, InFile(41));
}

#[test]
fn wrong_line_before_the_start_line_is_refused_with_8_at_its_start() {
    for line in [
        "...\n",
        "\n",
        "x\n",
        "---x\n",
        "---\r\r\n",
        "---\t\n",
        "----\n",
        " ---\n",
        " %\n",
    ] {
        let text = format!("%YAML 1.1\n%TAG ! x\n{line}---\n...\n");
        assert_eq!(tree_in(text.as_bytes()), Err(refusal(8, 31)), "{line:?}");
    }
}

#[test]
fn second_start_line_is_refused_with_9_at_its_start() {
    assert_eq!(
        tree_in(b"%YAML 1.1\n---\na\n---\n...\n"),
        Err(refusal(9, 28))
    );
    assert_eq!(
        tree_in(b"%YAML 1.1\n---\r\na\n--- b\n...\n"),
        Err(refusal(9, 29))
    );
}

#[test]
fn content_lines_that_resemble_markers_are_content() {
    let content = "---x\n.... \n...x\n ...\n... \n --- \n---\r\r\n...\r\r\n%YAML 1.1\nabc\n\n";
    let text = tree_of(content);
    let end = 12 + text.len() as u32;
    assert_eq!(tree_in(&text), Ok(tree(12, end, end)));
}

#[test]
fn tree_ends_at_the_first_end_line() {
    let rest = join(&[TREE, b"---\n...\n"]);
    assert_eq!(tree_in(&rest), Ok(tree(12, 30, 38)));
}

#[test]
fn missing_line_is_refused_with_10_at_the_end() {
    assert_eq!(tree_in(b"%YAML 1.1\n"), Err(refusal(10, 22)));
    assert_eq!(tree_in(b"%YAML 1.1\n---\n"), Err(refusal(10, 26)));
    assert_eq!(tree_in(b"%YAML 1.1\n---\nabc\n"), Err(refusal(10, 30)));
}

#[test]
fn unended_line_is_refused_with_10_before_what_it_says() {
    assert_eq!(tree_in(b"%YAML 1.1\n..."), Err(refusal(10, 22)));
    assert_eq!(tree_in(b"%YAML 1.1\nwrong"), Err(refusal(10, 22)));
    assert_eq!(tree_in(b"%YAML 1.1\n---\n---"), Err(refusal(10, 26)));
    assert_eq!(tree_in(b"%YAML 1.1\n---\n..."), Err(refusal(10, 26)));
    assert_eq!(tree_in(b"%YAML 1.1\n---\n...\r"), Err(refusal(10, 26)));
}

#[test]
fn lines_are_judged_one_by_one() {
    assert_eq!(tree_in(b"%YAML 1.1\nwrong\nunended"), Err(refusal(8, 22)));
    assert_eq!(
        tree_in(b"%YAML 1.1\n---\n---\nunended"),
        Err(refusal(9, 26))
    );
}

#[test]
fn mark_inside_the_tree_means_nothing() {
    let text = join(&[b"%YAML 1.1\n---\n", MARK, b"\n...\n"]);
    let layout = read(&join(&[A, &text, b"  ", &block().bytes()])).unwrap();
    let tree_end = 12 + text.len() as u32;
    assert_eq!(layout.tree, tree(12, tree_end, tree_end + 2));
    assert_eq!(layout.blocks[0].offset, InFile(tree_end + 2));
}

#[test]
fn free_space_may_hold_parts_of_a_mark() {
    let free = join(&[
        &MARK[..1],
        &MARK[..3],
        b"LK",
        &MARK[..2],
        MARK[1..].as_ref(),
        &MARK[..1],
    ]);
    let layout = read(&join(&[A, TREE, &free, &block().bytes()])).unwrap();
    assert_eq!(layout.tree, tree(12, 30, 30 + free.len() as u32));
    assert_eq!(layout.blocks.len(), 1);
    assert_eq!(
        tree_in(&join(&[TREE, &free, &MARK[..3]])),
        Ok(tree(12, 30, 30 + free.len() as u32 + 3))
    );
}

#[test]
fn first_mark_in_the_free_space_is_a_block() {
    let bad_first = join(&[TREE, b"ab", MARK, &[0, 47], &block().bytes()]);
    assert_eq!(tree_in(&bad_first), Err(refusal(12, 32)));
    assert_eq!(tree_in(&join(&[TREE, b"ab", MARK])), Err(refusal(11, 32)));
}

#[test]
fn index_after_a_tree_without_block_is_free_space() {
    let file = join(&[A, TREE, &index_of("12")]);
    let layout = read(&file).unwrap();
    assert_eq!(layout.tree, tree(12, 30, file.len() as u32));
    assert_eq!(layout.index, Verdict::Absent);
    assert_eq!(layout.blocks, []);
}
