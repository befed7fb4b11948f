//! Tests the tree edit: refusals 18 to 20, and what stays the same.

mod common;

use asdf_second::*;
use common::*;

/// Returns the result of the edit, or its refusal after checking that nothing changed.
fn edited(file: &[u8], text: &[u8]) -> Result<Vec<u8>, Refusal> {
    let mut bytes = file.to_vec();
    match edit(&mut bytes, text) {
        Ok(()) => Ok(bytes),
        Err(refusal) => {
            assert_eq!(bytes, file);
            Err(refusal)
        }
    }
}

#[test]
fn shorter_text_is_followed_by_spaces_up_to_the_block() {
    let file = join(&[A, &tree_of("abcdef\n"), b"xyz", &block().bytes()]);
    let expected = join(&[A, TREE, &[b' '; 10], &block().bytes()]);
    assert_eq!(edited(&file, TREE), Ok(expected));
}

#[test]
fn equal_text_turns_the_free_space_to_spaces() {
    let file = join(&[A, TREE, b"anything\0\n", &block().bytes()]);
    assert_eq!(edited(&file, TREE), Ok(t()));
}

#[test]
fn without_block_the_room_reaches_the_end_of_the_file() {
    let file = join(&[A, b"# c\n", TREE, &index_of("12")]);
    let room = file.len() - 16;
    let exact = tree_of(&("y".repeat(room - 19) + "\n"));
    assert_eq!(exact.len(), room);
    assert_eq!(edited(&file, &exact), Ok(join(&[A, b"# c\n", &exact])));
    let above = tree_of(&("y".repeat(room - 18) + "\n"));
    assert_eq!(edited(&file, &above), Err(refusal(20, 0)));
}

#[test]
fn tree_without_free_space_takes_a_text_of_its_own_length() {
    let file = join(&[A, &tree_of("ab\n"), &block().bytes()]);
    assert_eq!(
        edited(&file, &tree_of("cd\n")),
        Ok(join(&[A, &tree_of("cd\n"), &block().bytes()]))
    );
    assert_eq!(edited(&file, &tree_of("cde\n")), Err(refusal(20, 0)));
}

#[test]
fn file_without_tree_is_refused_with_18_before_19() {
    assert_eq!(edited(A, TREE), Err(refusal(18, 0)));
    assert_eq!(edited(&b(), b"no tree"), Err(refusal(18, 0)));
}

#[test]
fn text_that_is_not_exactly_one_tree_is_refused_with_19() {
    let texts: Vec<Vec<u8>> = vec![
        vec![],
        b"%YAML 1.1\n".to_vec(),
        b"%YAML 1.1".to_vec(),
        b"%YAML 1.1\n---\n".to_vec(),
        b"%YAML 1.1\n---\n...".to_vec(),
        b"%YAML 1.1\n...\n".to_vec(),
        b"%YAML 1.2\n---\n...\n".to_vec(),
        b"---\n...\n".to_vec(),
        join(&[b"#\n", TREE]),
        join(&[b"\n", TREE]),
        join(&[TREE, b" "]),
        join(&[TREE, b"\n"]),
        join(&[TREE, TREE]),
        tree_of("---\n"),
        tree_of("...\n"),
        join(&[A, TREE]),
    ];
    for text in texts {
        assert_eq!(
            edited(&t(), &text),
            Err(refusal(19, 0)),
            "{:?}",
            String::from_utf8_lossy(&text)
        );
    }
}

#[test]
fn text_that_is_no_tree_comes_before_one_that_is_too_long() {
    let long = join(&[&tree_of(&"x".repeat(500)), b"x"]);
    assert_eq!(edited(&t(), &long), Err(refusal(19, 0)));
}

#[test]
fn refused_file_comes_before_the_edit() {
    assert_eq!(edited(b"", b""), Err(refusal(2, 0)));
    assert_eq!(edited(&join(&[&t(), b"x"]), b""), Err(refusal(17, 94)));
}

#[test]
fn mark_and_crlf_in_the_text_are_taken() {
    let text = join(&[b"%YAML 1.1\r\n---\r\n", MARK, b"\n...\r\n"]);
    let file = join(&[A, &tree_of("abcdefghijkl\n"), &block().bytes()]);
    let after = edited(&file, &text).unwrap();
    let layout = read(&after).unwrap();
    assert_eq!(layout.tree.unwrap().end, InFile(12 + text.len() as u32));
    assert_eq!(layout.blocks, read(&file).unwrap().blocks);
}

#[test]
fn everything_outside_the_room_reads_the_same() {
    let inner = join(&[A, TREE, b"free", &block_of(b"#ASDF bad").bytes()]);
    let mut file = join(&[A, b"# c\r\n", TREE, &[0xD3; 20]]);
    let first = file.len();
    file.extend(block_of(&inner).bytes());
    let second = file.len();
    file.extend(block_of(b"z").compression(b"bzp2").data_size(77).bytes());
    file.extend(index_of(&format!("{first}, {second}")));

    let after = edited(&file, &tree_of("longer: tree\n")).unwrap();
    let (before_layout, after_layout) = (read(&file).unwrap(), read(&after).unwrap());
    assert_eq!(before_layout.index, Verdict::Good);
    assert_eq!(after_layout.index, Verdict::Good);
    assert_eq!(after_layout.version, before_layout.version);
    assert_eq!(after_layout.line_end, before_layout.line_end);
    assert_eq!(after_layout.header_end, before_layout.header_end);
    assert_eq!(after_layout.comments, before_layout.comments);
    assert_eq!(after_layout.blocks, before_layout.blocks);
    assert_eq!(records(&after), records(&file));
    assert_eq!(
        records(&after).unwrap()[1].inner,
        Inner::Refused(refusal(3, 6))
    );
    assert_eq!(after[first..], file[first..]);
}
