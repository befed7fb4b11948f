//! Tests the header and the comments: refusals 2 to 7.

mod common;

use asdf_second::*;
use common::*;

fn refused(file: &[u8]) -> Refusal {
    read(file).unwrap_err()
}

#[test]
fn whatever_does_not_begin_like_a_file_is_refused_with_2() {
    for file in [
        &b"#ASDF"[..],
        b"#ASDF\n",
        b"#ASDF\t1.0.0\n",
        b"#asdf 1.0.0\n",
        b" #ASDF 1.0.0\n",
    ] {
        assert_eq!(refused(file), refusal(2, 0), "{file:?}");
    }
}

#[test]
fn malformed_version_is_refused_with_3() {
    let versions = [
        "",
        "1",
        "1.0",
        "1.0.",
        "1.0.0.",
        "1.0.0.0",
        "1..0",
        ".0.0",
        "01.0.0",
        "1.00.0",
        "1.0.01",
        "10000.0.0",
        "1.10000.0",
        "1.0.10000",
        " 1.0.0",
        "1.0.0 ",
        "1.0.0-rc1",
        "1.0.0+x",
        "a.0.0",
        "1,0,0",
        "+1.0.0",
        "1.0.0\r\r",
        "1.0.\u{0660}",
    ];
    for version in versions {
        let file = format!("#ASDF {version}\n");
        assert_eq!(refused(file.as_bytes()), refusal(3, 6), "{version:?}");
    }
}

#[test]
fn unended_version_line_is_refused_with_3() {
    for file in [
        &b"#ASDF "[..],
        b"#ASDF 1.0.0",
        b"#ASDF 1.0.0\r",
        b"#ASDF 2.0.0",
    ] {
        assert_eq!(refused(file), refusal(3, 6), "{file:?}");
    }
}

#[test]
fn malformed_comes_before_another_first_number() {
    assert_eq!(refused(b"#ASDF 2.0\n"), refusal(3, 6));
    assert_eq!(refused(b"#ASDF 2.0.x\n"), refusal(3, 6));
}

#[test]
fn first_number_other_than_1_is_refused_with_4() {
    for version in ["0.1.0", "2.0.0", "9999.0.0", "10.0.0"] {
        let file = format!("#ASDF {version}\n");
        assert_eq!(refused(file.as_bytes()), refusal(4, 6), "{version}");
    }
}

#[test]
fn version_numbers_have_up_to_four_digits() {
    let layout = read(b"#ASDF 1.9999.1234\n").unwrap();
    assert_eq!(
        layout.version,
        Version {
            major: 1,
            minor: 9999,
            patch: 1234
        }
    );
    assert_eq!(layout.header_end, InFile(18));
}

#[test]
fn header_may_end_with_crlf() {
    let layout = read(b"#ASDF 1.0.0\r\n").unwrap();
    assert_eq!(
        layout.version,
        Version {
            major: 1,
            minor: 0,
            patch: 0
        }
    );
    assert_eq!(layout.line_end, LineEnd::Crlf);
    assert_eq!(layout.header_end, InFile(13));
}

#[test]
fn comments_are_one_stretch() {
    let layout = read(&join(&[A, b"#\n# two\r\n#ASDF BLOCK INDEX \n"])).unwrap();
    assert_eq!(
        layout.comments,
        Stretch {
            start: InFile(12),
            end: InFile(12 + 2 + 7 + 19)
        }
    );
    assert_eq!(layout.tree, None);
}

#[test]
fn block_may_begin_directly_after_comments() {
    let layout = read(&join(&[A, b"# one\n", &block().bytes()])).unwrap();
    assert_eq!(
        layout.comments,
        Stretch {
            start: InFile(12),
            end: InFile(18)
        }
    );
    assert_eq!(layout.blocks[0].offset, InFile(18));
}

#[test]
fn unended_comment_is_refused_with_5_at_its_start() {
    assert_eq!(refused(&join(&[A, b"#"])), refusal(5, 12));
    assert_eq!(refused(&join(&[A, b"# one\n# two\r"])), refusal(5, 18));
}

#[test]
fn index_line_among_comments_is_refused_with_6_at_its_start() {
    assert_eq!(
        refused(&join(&[A, b"# one\n#ASDF BLOCK INDEX\n"])),
        refusal(6, 18)
    );
    assert_eq!(
        refused(&join(&[A, b"#ASDF BLOCK INDEX\r\n"])),
        refusal(6, 12)
    );
    assert_eq!(refused(&join(&[A, &index_of("12")])), refusal(6, 12));
}

#[test]
fn unended_index_line_is_5_before_6() {
    assert_eq!(refused(&join(&[A, b"#ASDF BLOCK INDEX"])), refusal(5, 12));
    assert_eq!(refused(&join(&[A, b"#ASDF BLOCK INDEX\r"])), refusal(5, 12));
}

#[test]
fn lines_that_only_begin_as_an_index_line_are_comments() {
    for line in [
        "#ASDF BLOCK INDEX \n",
        "#ASDF BLOCK INDEXES\n",
        "#ASDF BLOCK INDEX\r\r\n",
    ] {
        let layout = read(&join(&[A, line.as_bytes()])).unwrap();
        assert_eq!(
            layout.comments.end,
            InFile(12 + line.len() as u32),
            "{line:?}"
        );
    }
}

#[test]
fn neither_tree_nor_block_nor_end_is_refused_with_7_there() {
    let rest: [&[u8]; 9] = [
        b"\n",
        b"x",
        b"\0",
        b" %YAML 1.1\n",
        b"%YAML 1.2\n---\n...\n",
        b"%YAML 1.1 \n---\n...\n",
        b"---\n...\n",
        &MARK[..3],
        b"%TAG ! x\n%YAML 1.1\n---\n...\n",
    ];
    for rest in rest {
        assert_eq!(refused(&join(&[A, rest])), refusal(7, 12), "{rest:?}");
    }
    assert_eq!(
        refused(&join(&[A, b"# one\n", b" ", &block().bytes()])),
        refusal(7, 18)
    );
}

#[test]
fn unended_first_tree_line_is_no_tree_so_7() {
    assert_eq!(refused(&join(&[A, b"%YAML 1.1"])), refusal(7, 12));
    assert_eq!(refused(&join(&[A, b"%YAML 1.1\r"])), refusal(7, 12));
    assert_eq!(
        refused(&join(&[A, b"%YAML 1.1\r\r\n---\n...\n"])),
        refusal(7, 12)
    );
}
