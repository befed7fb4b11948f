//! Tests that DOS files stay DOS (W-205): the header's line end, the index that is written with it,
//! and what stays as it was.

mod common;

use asdf_second::*;
use common::*;
use std::fs;
use std::path::Path;

/// Both kinds of header line, each with the line end that is reported for it.
const HEADERS: [(&[u8], LineEnd); 2] = [(A, LineEnd::Lf), (DOS_A, LineEnd::Crlf)];

/// Returns the line end that is reported for a file's header.
fn line_end(file: &[u8]) -> LineEnd {
    read(file).unwrap().line_end
}

/// Returns the verdict on a file's index.
fn verdict(file: &[u8]) -> Verdict {
    read(file).unwrap().index
}

/// Takes a text whose lines end with 0A and gives its lines this line end.
fn with_end(line_end: LineEnd, text: &[u8]) -> Vec<u8> {
    match line_end {
        LineEnd::Lf => text.to_vec(),
        LineEnd::Crlf => with_crlf(text),
    }
}

/// Returns the index that must be written for these offsets.
fn index_for(line_end: LineEnd, offsets: &[usize]) -> Vec<u8> {
    let numbers: Vec<String> = offsets.iter().map(usize::to_string).collect();
    with_end(line_end, &index_of(&numbers.join(", ")))
}

/// Returns the index that is written, after checking that the buffer after it did not change.
fn written(file: &[u8]) -> Vec<u8> {
    let mut out = vec![7; LONGEST_INDEX + 5];
    let length = write_index(file, &mut out).unwrap();
    assert!(out[length..].iter().all(|&byte| byte == 7));
    out.truncate(length);
    out
}

/// Returns these lines, each with a line end. Line `i` ends with 0D 0A if bit `i` of `ends` is set,
/// and otherwise with 0A.
fn lines_ended(lines: &[&str], ends: usize) -> Vec<u8> {
    (0..lines.len())
        .map(|i| lines[i].to_string() + ["\n", "\r\n"][ends >> i & 1])
        .collect::<String>()
        .into_bytes()
}

// The next tests cover the header's line end.

#[test]
fn header_s_line_end_is_reported_whatever_follows() {
    for (header, expected) in HEADERS {
        for rest in [
            &b""[..],
            b"# one\n",
            b"# one\r\n",
            TREE,
            &with_crlf(TREE),
            &block().bytes(),
            &streamed(b"\r\n").bytes(),
            &block_of(A).bytes(),
            &block_of(DOS_A).bytes(),
        ] {
            let layout = read(&join(&[header, rest])).unwrap();
            assert_eq!(layout.line_end, expected, "{rest:?}");
            assert_eq!(layout.header_end, InFile(header.len() as u32));
        }
    }
}

#[test]
fn version_has_no_part_in_the_line_end() {
    for version in ["1.0.0", "1.5.0", "1.9999.9999"] {
        let unix = read(format!("#ASDF {version}\n").as_bytes()).unwrap();
        let dos = read(format!("#ASDF {version}\r\n").as_bytes()).unwrap();
        assert_eq!(
            (unix.line_end, dos.line_end),
            (LineEnd::Lf, LineEnd::Crlf),
            "{version}"
        );
        assert_eq!(unix.version, dos.version);
        assert_eq!(unix.header_end.0 + 1, dos.header_end.0);
    }
}

#[test]
fn no_other_bytes_end_a_header() {
    for header in [
        "#ASDF 1.0.0\r\r\n",
        "#ASDF 1.0.0\r\r\r\n",
        "#ASDF 1.0.0\r \n",
        "#ASDF 1.0.0 \r\n",
        "#ASDF 1.0.0\r",
        "#ASDF 1.0.0\r# one\n",
        "#ASDF 1.0.0\r# one\r\n",
        "#ASDF 1.0.0\0\n",
        "#ASDF 1.0.0\u{85}\n",
    ] {
        assert_eq!(read(header.as_bytes()), Err(refusal(3, 6)), "{header:?}");
    }
    // A 0D after the 0A is the first byte of the next line.
    for rest in ["\r", "\r\n", "\r# one\n"] {
        let file = join(&[A, rest.as_bytes()]);
        assert_eq!(read(&file), Err(refusal(7, 12)), "{rest:?}");
    }
}

#[test]
fn refusals_are_the_same_for_both_kinds() {
    let mut seen = 0;
    for (file, expected) in refused_files() {
        if let Some(rest) = file.strip_prefix(A) {
            let moved = refusal(expected.number, expected.place + 1);
            assert_eq!(read(&join(&[DOS_A, rest])), Err(moved));
            seen += 1;
        }
    }
    assert_eq!(seen, 13);
    assert_eq!(read(b"#ASDF 2.0.0\r\n"), Err(refusal(4, 6)));
}

// The next tests cover the index that is written.

#[test]
fn whole_index_of_a_small_file_of_each_kind() {
    let unix = b"#ASDF BLOCK INDEX\n%YAML 1.1\n--- [12]\n...\n";
    assert_eq!(written(&b()), unix);
    assert_eq!(unix.len(), 41);

    let dos = b"#ASDF BLOCK INDEX\r\n%YAML 1.1\r\n--- [13]\r\n...\r\n";
    assert_eq!(written(&join(&[DOS_A, &block().bytes()])), dos);
    assert_eq!(dos.len(), 45);
}

#[test]
fn length_is_that_of_the_four_lines_and_the_numbers() {
    for (header, kind) in HEADERS {
        for count in [1, 2, 19, 64] {
            let file = join(&[header, &block().bytes().repeat(count)]);
            let offsets: Vec<usize> = (0..count).map(|i| header.len() + 54 * i).collect();
            let text = written(&file);
            assert_eq!(text, index_for(kind, &offsets));
            let digits: usize = offsets.iter().map(|offset| offset.to_string().len()).sum();
            let without_numbers = match kind {
                LineEnd::Lf => 39,
                LineEnd::Crlf => 43,
            };
            assert_eq!(text.len(), without_numbers + digits + 2 * (count - 1));
            assert!(text.len() < LONGEST_INDEX);
        }
    }
}

#[test]
fn longest_index_of_a_dos_file_has_four_bytes_more_than_before() {
    assert_eq!(LONGEST_INDEX, 805 + 4);
}

#[test]
fn written_index_is_good_directly_after_the_last_block() {
    for (header, kind) in HEADERS {
        let nested = join(&[DOS_A, &block().bytes()]);
        for rest in [
            block().bytes(),
            block().bytes().repeat(64),
            block_of(&nested).bytes(),
            join(&[b"# one\r\n# two\n", &block_of(b"ab").bytes()]),
            join(&[TREE, b"\r\n  ", &block().bytes()]),
            join(&[&with_crlf(TREE), &block().bytes(), b"gap", &block().bytes()]),
            block_of(b"unused").used(2).data_size(2).bytes(),
        ] {
            let file = join(&[header, &rest]);
            let text = written(&file);
            assert!(text.ends_with(&with_end(kind, b"]\n...\n")));
            assert_eq!(verdict(&file), Verdict::Absent);
            let with_index = join(&[&file, &text]);
            assert_eq!(verdict(&with_index), Verdict::Good);
            assert_eq!(verdict(&join(&[&with_index, &[0; 9]])), Verdict::Good);
            assert_eq!(written(&with_index), text);
        }
    }
}

#[test]
fn buffer_one_byte_short_exact_and_longer() {
    for (header, kind) in HEADERS {
        let file = join(&[header, &block().bytes().repeat(2)]);
        let text = index_for(kind, &[header.len(), header.len() + 54]);
        for length in 0..text.len() {
            let mut short = vec![7; length];
            assert_eq!(write_index(&file, &mut short), Err(refusal(21, 0)));
            assert_eq!(short, vec![7; length]);
        }
        for after in 0..9 {
            let mut out = vec![7; text.len() + after];
            assert_eq!(write_index(&file, &mut out), Ok(text.len()));
            assert_eq!(out, join(&[&text, &vec![7; after]]));
        }
    }
}

#[test]
fn without_a_block_or_after_a_streamed_one_it_is_22_before_21() {
    for (header, _) in HEADERS {
        for rest in [
            &b""[..],
            b"# one\r\n",
            &with_crlf(TREE),
            &streamed(b"").bytes(),
            &join(&[&block().bytes(), &streamed(b"\r\n").bytes()]),
        ] {
            let file = join(&[header, rest]);
            for length in [0, 1, LONGEST_INDEX] {
                let mut out = vec![7; length];
                assert_eq!(write_index(&file, &mut out), Err(refusal(22, 0)));
                assert_eq!(out, vec![7; length]);
            }
        }
    }
}

#[test]
fn refused_dos_file_leaves_the_buffer_alone() {
    let file = join(&[DOS_A, &block().bytes(), b"x"]);
    let mut out = [7; LONGEST_INDEX];
    assert_eq!(write_index(&file, &mut out), Err(refusal(17, 67)));
    assert_eq!(out, [7; LONGEST_INDEX]);
}

// The next tests cover lines of both kinds in one file.

#[test]
fn header_alone_decides_whatever_lines_the_file_has() {
    let before_block = ["# one", "# two", "%YAML 1.1", "--- x", "a: 1", "..."];
    for (header, kind) in HEADERS {
        for ends in 0..64 {
            let first_part = join(&[header, &lines_ended(&before_block, ends)]);
            let list_line = format!("--- [{}]", first_part.len());
            let index = ["#ASDF BLOCK INDEX", "%YAML 1.1", &list_line, "..."];
            let text = index_for(kind, &[first_part.len()]);
            for index_ends in 0..16 {
                let old_index = lines_ended(&index, index_ends);
                let file = join(&[&first_part, &block().bytes(), &old_index]);
                let layout = read(&file).unwrap();
                assert_eq!(layout.line_end, kind, "{ends} {index_ends}");
                assert_eq!(layout.index, Verdict::Good, "{ends} {index_ends}");
                assert_eq!(written(&file), text, "{ends} {index_ends}");
            }
        }
    }
}

#[test]
fn tail_has_no_part_in_the_text() {
    for (header, kind) in HEADERS {
        let file = join(&[header, &block().bytes()]);
        let text = index_for(kind, &[header.len()]);
        let dashes = format!(
            "#ASDF BLOCK INDEX\n%YAML 1.1\n---\n- {}\n...\n",
            header.len()
        );
        for (tail, expected) in [
            (vec![], Verdict::Absent),
            (vec![0; 9], Verdict::Absent),
            (index_of("1"), Verdict::IgnoredList),
            (with_crlf(&index_of("1")), Verdict::IgnoredList),
            (dashes.as_bytes().to_vec(), Verdict::Good),
            (with_crlf(dashes.as_bytes()), Verdict::Good),
            (b"#ASDF BLOCK INDEX\r".to_vec(), Verdict::IgnoredForm),
            (b"#ASDF BLOCK INDEX\r\r\n".to_vec(), Verdict::IgnoredForm),
        ] {
            let with_tail = join(&[&file, &tail]);
            assert_eq!(verdict(&with_tail), expected, "{tail:?}");
            assert_eq!(written(&with_tail), text, "{tail:?}");
        }
    }
}

#[test]
fn index_of_the_other_kind_is_judged_as_before() {
    for (header, kind) in HEADERS {
        let other = match kind {
            LineEnd::Lf => LineEnd::Crlf,
            LineEnd::Crlf => LineEnd::Lf,
        };
        let file = join(&[header, &block().bytes()]);
        let right = header.len();
        for (offset, expected) in [(right, Verdict::Good), (right + 1, Verdict::IgnoredList)] {
            let text = index_for(other, &[offset]);
            assert_eq!(verdict(&join(&[&file, &text])), expected);
        }
        let malformed = with_end(other, &index_of("012"));
        assert_eq!(verdict(&join(&[&file, &malformed])), Verdict::IgnoredForm);
    }
}

// The next tests cover files inside blocks.

#[test]
fn outer_and_inner_file_have_a_line_end_each() {
    for (outer_header, outer_kind) in HEADERS {
        for (inner_header, inner_kind) in HEADERS {
            let inner = join(&[inner_header, &block().bytes()]);
            let file = join(&[outer_header, &block_of(&inner).bytes()]);
            assert_eq!(row_count(&file), Ok(2));
            assert_eq!(line_end(&file), outer_kind);
            assert_eq!(written(&file), index_for(outer_kind, &[outer_header.len()]));

            let content = &file[outer_header.len() + HEADER_BYTES..];
            assert_eq!(line_end(content), inner_kind);
            assert_eq!(
                written(content),
                index_for(inner_kind, &[inner_header.len()])
            );
        }
    }
}

#[test]
fn dos_files_are_opened_down_to_the_deepest_depth() {
    let in_dos_file = |inner: Vec<u8>| join(&[DOS_A, &block_of(&inner).bytes()]);
    let innermost = join(&[DOS_A, &block().bytes()]);
    let file = (0..8).fold(innermost, |inner, _| in_dos_file(inner));
    let found = records(&file).unwrap();
    assert_eq!(found.len(), 8);
    assert!(found[..7]
        .iter()
        .all(|record| record.inner == Inner::Opened));
    assert_eq!(found[7].inner, Inner::TooDeep);
    assert_eq!(found[7].offset, Outermost(7 * (13 + 54) + 13));
}

#[test]
fn inner_header_with_two_0d_is_refused_with_3() {
    let inner = b"#ASDF 1.0.0\r\r\n";
    let file = join(&[DOS_A, &block_of(inner).bytes()]);
    assert_eq!(
        records(&file).unwrap()[0].inner,
        Inner::Refused(refusal(3, 6))
    );
    assert_eq!(line_end(&file), LineEnd::Crlf);
}

// The next tests cover the edit.

#[test]
fn edit_keeps_the_line_end_and_takes_the_text_as_it_is() {
    for (header, kind) in HEADERS {
        for comments in [&b""[..], b"# one\n", b"# one\r\n"] {
            for old_tree in [tree_of("abcdef\n"), with_crlf(&tree_of("ab\n"))] {
                let start = join(&[header, comments]);
                let first_part = join(&[&start, &old_tree, b"\r\n free \n"]);
                let index = index_for(kind, &[first_part.len()]);
                let before = join(&[&first_part, &block().bytes(), &index]);
                for text in [TREE.to_vec(), with_crlf(TREE), tree_of("a\r\nb\n")] {
                    let mut after = before.clone();
                    assert_eq!(edit(&mut after, &text), Ok(()));
                    assert!(after.starts_with(&join(&[&start, &text, b" "])));
                    let (old, new) = (read(&before).unwrap(), read(&after).unwrap());
                    assert_eq!((old.line_end, new.line_end), (kind, kind));
                    assert_eq!(new.header_end, old.header_end);
                    assert_eq!((old.index, new.index), (Verdict::Good, Verdict::Good));
                    assert_eq!(written(&before), index);
                    assert_eq!(written(&after), index);
                }
            }
        }
    }
}

#[test]
fn dos_text_is_measured_with_its_0d() {
    // The smallest tree has 18 bytes. With 0D in its line ends it has three more.
    for (spaces, expected) in [(2, Err(refusal(20, 0))), (3, Ok(()))] {
        let before = join(&[DOS_A, TREE, &vec![b' '; spaces], &block().bytes()]);
        let mut after = before.clone();
        assert_eq!(edit(&mut after, &with_crlf(TREE)), expected);
        let unchanged = after == before;
        assert_eq!(unchanged, expected.is_err());
    }
}

// The next tests cover what is not printed and what holds no line end.

#[test]
fn listing_of_a_dos_file() {
    let file = join(&[DOS_A, &with_crlf(TREE), b"  ", &block().bytes()]);
    let with_index = join(&[&file, &written(&file)]);
    assert_eq!(
        String::from_utf8(listing(&with_index)).unwrap(),
        "tree 13 34\n0 0 36 48 0 0 0 0 0 0\nindex good\n"
    );
}

#[test]
fn files_that_differ_only_in_the_header_s_line_end_show_it_in_nothing_else() {
    // Both header lines have 13 bytes, so that all offsets are the same.
    let unix_header = b"#ASDF 1.0.10\n";
    assert_eq!(unix_header.len(), DOS_A.len());
    let inner = [unix_header, DOS_A].map(|header| join(&[header, &block().bytes()]));
    let rest = join(&[
        b"# one\r\n",
        TREE,
        b"free",
        &block_of(&inner[0]).bytes(),
        &block_of(&inner[1]).bytes(),
        &block_of(b"abc").checksum([9; 16]).bytes(),
        &index_of("42, 163, 284"),
    ]);
    let unix = join(&[unix_header, &rest]);
    let dos = join(&[DOS_A, &rest]);

    assert_eq!(verdict(&unix), Verdict::Good);
    assert_eq!(row_count(&unix), Ok(5));
    assert_eq!(listing(&unix), listing(&dos));
    assert_eq!(records(&unix), records(&dos));
    let outline_of = |file: &[u8]| {
        let mut out = vec![7; 90];
        assert_eq!(outline(file, &mut out), Ok(80));
        out
    };
    assert_eq!(outline_of(&unix), outline_of(&dos));
    let as_unix = Layout {
        version: read(&unix).unwrap().version,
        line_end: LineEnd::Lf,
        ..read(&dos).unwrap()
    };
    assert_eq!(read(&unix), Ok(as_unix));
    assert_ne!(read(&unix).unwrap().line_end, line_end(&dos));
}

#[test]
fn row_does_not_show_the_line_end_of_an_inner_file() {
    let around = |header: &[u8]| file_with(block_of(&join(&[header, &block().bytes()])));
    let unix = around(b"#ASDF 1.0.10\n");
    let dos = around(DOS_A);
    assert_eq!(row_count(&unix), Ok(2));
    assert_eq!(records(&unix), records(&dos));
    assert_eq!(listing(&unix), listing(&dos));
    assert_eq!(read(&unix), read(&dos));
}

// The next test reads real files.

#[test]
fn real_file_with_its_header_made_dos_gets_a_dos_index() {
    let folder = Path::new(env!("CARGO_MANIFEST_DIR")).join("../tests/data");
    for name in ["one-block", "three-blocks", "updated-gap", "sixty-blocks"] {
        let unix = fs::read(folder.join(name).with_extension("asdf")).unwrap();
        let dos = join(&[DOS_A, unix.strip_prefix(A).unwrap()]);
        let layout = read(&unix).unwrap();
        assert_eq!(layout.line_end, LineEnd::Lf, "{name}");
        assert_eq!(line_end(&dos), LineEnd::Crlf, "{name}");

        let offset = |block: &Block| block.offset.0 as usize;
        let offsets: Vec<usize> = layout.blocks.iter().map(offset).collect();
        let moved: Vec<usize> = offsets.iter().map(|offset| offset + 1).collect();
        assert_eq!(written(&unix), index_for(LineEnd::Lf, &offsets), "{name}");
        assert_eq!(written(&dos), index_for(LineEnd::Crlf, &moved), "{name}");
    }
}
