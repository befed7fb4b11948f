//! Tests points at which two careful readers could build different programs. Each test shows the
//! reading that was chosen and, if there is one, its other side.

mod common;

use asdf_second::*;
use common::*;
use std::io::{Read, Write};
use std::process::{Child, Command, Stdio};
use std::sync::mpsc;
use std::thread;
use std::time::Duration;

fn refused(file: &[u8]) -> Refusal {
    read(file).unwrap_err()
}

fn stretch(start: usize, end: usize) -> Stretch {
    Stretch {
        start: InFile(start as u32),
        end: InFile(end as u32),
    }
}

fn tree(start: usize, end: usize, room_end: usize) -> Option<Tree> {
    Some(Tree {
        start: InFile(start as u32),
        end: InFile(end as u32),
        room_end: InFile(room_end as u32),
    })
}

/// Returns the tree that is found in A and this text.
fn tree_in(text: &[u8]) -> Result<Option<Tree>, Refusal> {
    read(&join(&[A, text])).map(|layout| layout.tree)
}

/// Returns the tree of A and a text that is one tree from its first byte to its last.
fn tree_of_whole(text: &[u8]) -> Option<Tree> {
    tree(12, 12 + text.len(), 12 + text.len())
}

/// Returns the bytes before the two places where a tree may begin: directly after the header, and
/// after a comment.
fn places_of_a_tree() -> [Vec<u8>; 2] {
    [A.to_vec(), join(&[A, b"# one\n"])]
}

// The next tests cover lines and the header.

#[test]
fn a_0d_that_is_not_directly_before_a_0a_is_an_ordinary_byte() {
    let text = tree_of("a\rb\n...\rx\n---\rx\n\r...\n\r---\n");
    let layout = read(&join(&[A, b"# one\rx\n", &text])).unwrap();
    assert_eq!(layout.comments, stretch(12, 20));
    let end = 20 + text.len();
    assert_eq!(layout.tree, tree(20, end, end));

    assert_eq!(refused(b"#ASDF 1.0.0\rx\n"), refusal(3, 6));
    assert_eq!(tree_in(b"%YAML 1.1\r---\n...\n"), Err(refusal(7, 12)));
}

#[test]
fn version_is_judged_whole_before_its_first_number() {
    for version in ["2.00.0", "2.0.00", "0.1.00", "2.0.10000", "2.0.0."] {
        let file = format!("#ASDF {version}\n");
        assert_eq!(refused(file.as_bytes()), refusal(3, 6), "{version}");
    }
}

#[test]
fn without_comments_both_ends_are_the_header_s_end() {
    for header in [A, b"#ASDF 1.0.0\r\n"] {
        for rest in [&b""[..], TREE, &block().bytes()] {
            let layout = read(&join(&[header, rest])).unwrap();
            assert_eq!(layout.header_end, InFile(header.len() as u32));
            assert_eq!(layout.comments, stretch(header.len(), header.len()));
        }
    }
}

// The next tests cover comments.

#[test]
fn longer_line_is_a_comment_before_the_blocks_and_an_index_after_them() {
    let line = b"#ASDF BLOCK INDEXED\n";
    let before = read(&join(&[A, line, &block().bytes()])).unwrap();
    assert_eq!(before.comments, stretch(12, 32));
    assert_eq!(before.blocks[0].offset, InFile(32));
    let after = read(&join(&[&b(), line])).unwrap();
    assert_eq!(after.comments, stretch(12, 12));
    assert_eq!(after.index, Verdict::IgnoredForm);
}

#[test]
fn unended_comment_is_not_stopped_by_a_block_mark() {
    let block_without_0a = block_of(b"ab").bytes();
    assert!(!block_without_0a.contains(&b'\n'));
    for line in [&b"# one"[..], b"#ASDF BLOCK INDEX"] {
        let file = join(&[A, line, &block_without_0a]);
        assert_eq!(refused(&file), refusal(5, 12), "{line:?}");
    }
}

#[test]
fn unended_comment_runs_to_the_first_0a_inside_a_block() {
    for line in [&b"# one"[..], b"#ASDF BLOCK INDEX"] {
        let to_the_end = join(&[A, line, &block_of(b"ab\n").bytes()]);
        let layout = read(&to_the_end).unwrap();
        assert_eq!(layout.comments, stretch(12, to_the_end.len()));
        assert_eq!((layout.tree, layout.blocks), (None, vec![]));

        let next = join(&[&to_the_end, &block().bytes()]);
        let layout = read(&next).unwrap();
        assert_eq!(layout.comments, stretch(12, to_the_end.len()));
        assert_eq!(layout.blocks.len(), 1);
        assert_eq!(layout.blocks[0].offset, InFile(to_the_end.len() as u32));

        let into_content = join(&[A, line, &block_of(b"ab\ncd").bytes()]);
        let after_0a = to_the_end.len() as u64;
        assert_eq!(refused(&into_content), refusal(7, after_0a));
    }
}

// The next tests cover files with a tree and files without one.

#[test]
fn first_tree_line_is_no_tree_if_it_runs_into_a_block() {
    let block = block_of(b"\n").bytes();
    assert_eq!(tree_in(&join(&[b"%YAML 1.1", &block])), Err(refusal(7, 12)));
    assert_eq!(
        tree_in(&join(&[b"%YAML 1.1\n", &block])),
        Err(refusal(8, 22))
    );
    assert_eq!(
        tree_in(&join(&[b"%YAML 1.1\n", &block[..54]])),
        Err(refusal(10, 22))
    );
}

#[test]
fn missing_tree_line_has_its_place_at_the_length_of_the_file() {
    for text in [
        &b"%YAML 1.1\n"[..],
        b"%YAML 1.1\r\n",
        b"%YAML 1.1\n%TAG ! x\n# c\r\n",
        b"%YAML 1.1\n--- \n",
        b"%YAML 1.1\n---\na\n...\r\r\n",
    ] {
        for before in places_of_a_tree() {
            let file = join(&[&before, text]);
            assert_eq!(refused(&file), refusal(10, file.len() as u64), "{text:?}");
        }
    }
}

#[test]
fn part_of_a_mark_is_refused_with_7_and_a_whole_mark_with_11() {
    for before in places_of_a_tree() {
        let place = before.len() as u64;
        let block = block().bytes();
        for left in 1..4 {
            let file = join(&[&before, &block[..left]]);
            assert_eq!(refused(&file), refusal(7, place), "{left} bytes");
        }
        for left in 4..HEADER_BYTES {
            let file = join(&[&before, &block[..left]]);
            assert_eq!(refused(&file), refusal(11, place), "{left} bytes");
        }
        let layout = read(&join(&[&before, &block])).unwrap();
        assert_eq!(layout.blocks[0].offset, InFile(place as u32));
    }
}

#[test]
fn zeros_in_place_of_a_tree_or_block_are_refused_and_nothing_is_accepted() {
    for before in places_of_a_tree() {
        let layout = read(&before).unwrap();
        assert_eq!((layout.tree, layout.blocks), (None, vec![]));
        assert_eq!(layout.index, Verdict::Absent);

        let place = before.len() as u64;
        for zeros in [1, 4, 100] {
            let file = join(&[&before, &vec![0; zeros]]);
            assert_eq!(refused(&file), refusal(7, place), "{zeros} zeros");
            let padded = join(&[&file, &block().bytes()]);
            assert_eq!(refused(&padded), refusal(7, place), "{zeros} zeros");
        }
    }
}

#[test]
fn dashes_and_a_tab_or_a_letter_are_no_start_line() {
    for line in ["---\t\n", "---\t x\n", "---x\n", "---x\r\n"] {
        let before = format!("%YAML 1.1\n{line}---\n...\n");
        assert_eq!(tree_in(before.as_bytes()), Err(refusal(8, 22)), "{line:?}");
        let content = tree_of(line);
        assert_eq!(tree_in(&content), Ok(tree_of_whole(&content)), "{line:?}");
    }
}

#[test]
fn every_form_of_start_line_starts_a_tree_and_is_refused_with_9_in_content() {
    for line in [
        "---\n",
        "---\r\n",
        "--- \n",
        "--- \r\n",
        "--- \r\r\n",
        "--- x\n",
        "--- ---\n",
        "---  \n",
    ] {
        let text = format!("%YAML 1.1\n{line}...\n").into_bytes();
        assert_eq!(tree_in(&text), Ok(tree_of_whole(&text)), "{line:?}");
        let second = tree_of(&format!("a\n{line}"));
        assert_eq!(tree_in(&second), Err(refusal(9, 28)), "{line:?}");
    }
}

#[test]
fn any_percent_or_hash_line_passes_before_the_start_line() {
    for line in [
        "%\n",
        "#\r\n",
        "%YAML 1.1\n",
        "%YAML 1.2\n",
        "#ASDF BLOCK INDEX\n",
        "#ASDF 1.0.0\n",
        "%---\n",
        "#...\n",
    ] {
        let text = format!("%YAML 1.1\n{line}---\n...\n").into_bytes();
        assert_eq!(tree_in(&text), Ok(tree_of_whole(&text)), "{line:?}");
        let indented = format!("%YAML 1.1\n {line}---\n...\n").into_bytes();
        assert_eq!(tree_in(&indented), Err(refusal(8, 22)), "{line:?}");
    }
}

#[test]
fn lines_mean_nothing_in_free_space() {
    let free_spaces = [
        &index_of("12")[..],
        b"...\n",
        b"...",
        b"---\n",
        b"%YAML 1.1\n---\n",
        b"# unended",
        b"#ASDF 1.0.0\n",
        b"\0\r",
    ];
    for free in free_spaces {
        let end = 30 + free.len();
        let layout = read(&join(&[A, TREE, free])).unwrap();
        assert_eq!(layout.tree, tree(12, 30, end), "{free:?}");
        assert_eq!((layout.blocks, layout.index), (vec![], Verdict::Absent));

        let layout = read(&join(&[A, TREE, free, &block().bytes()])).unwrap();
        assert_eq!(layout.tree, tree(12, 30, end), "{free:?}");
        assert_eq!(layout.blocks.len(), 1);
        assert_eq!(layout.blocks[0].offset, InFile(end as u32));
    }
}

#[test]
fn malformed_block_at_the_first_mark_is_not_passed_over_for_a_later_one() {
    for (malformed, number) in malformed_blocks() {
        let file = join(&[A, TREE, b"free", &malformed, &block().bytes()]);
        assert_eq!(refused(&file), refusal(number, 34));
    }
}

// The next tests cover blocks.

#[test]
fn streamed_is_the_lowest_bit_of_the_last_flag_byte() {
    for byte in 6..10 {
        for bit in 0..8 {
            let mut file = join(&[&file_with(block_of(b"abc")), b"x"]);
            file[12 + byte] = 1 << bit;
            if (byte, bit) == (9, 0) {
                let found = read(&file).unwrap().blocks[0];
                assert_eq!((found.flags, found.used), (1, 4));
            } else {
                assert_eq!(refused(&file), refusal(17, 69), "bit {bit} of byte {byte}");
                let found = read(&file[..69]).unwrap().blocks[0];
                assert_eq!((found.flags >> (8 * (9 - byte) + bit), found.used), (1, 3));
            }
        }
    }
}

#[test]
fn header_of_a_streamed_block_is_judged_as_any_other() {
    let small = file_with(streamed(b"").header_size(47).sizes(u64::MAX));
    for left in 4..6 {
        assert_eq!(refused(&small[..12 + left]), refusal(11, 12));
    }
    for left in 6..=54 {
        assert_eq!(refused(&small[..12 + left]), refusal(12, 12));
    }
    let larger = file_with(streamed(b"").header_size(49).sizes(u64::MAX));
    for left in 4..55 {
        assert_eq!(refused(&larger[..12 + left]), refusal(11, 12));
    }
    let found = read(&larger).unwrap().blocks[0];
    assert_eq!((found.header_size, found.used), (49, 0));
}

#[test]
fn streamed_block_reports_its_content_s_length_as_all_three_sizes() {
    for compression in [[0; 4], *b"zlib"] {
        for stored in [0, 4, 5, 6, u64::MAX] {
            let file = file_with(
                streamed(b"abcde")
                    .compression(&compression)
                    .allocated(stored)
                    .used(stored / 2)
                    .data_size(stored / 3),
            );
            let expected = Block {
                ordinal: 0,
                offset: InFile(12),
                header_size: 48,
                flags: 1,
                compression,
                allocated: 5,
                used: 5,
                data_size: 5,
                checksum: [0; 16],
            };
            assert_eq!(read(&file).unwrap().blocks, [expected]);
            let record = Record {
                depth: 0,
                offset: Outermost(12),
                block: expected,
                inner: Inner::Plain,
            };
            assert_eq!(records(&file), Ok(vec![record]));
        }
    }
}

#[test]
fn record_of_a_nested_block_tells_every_field() {
    let second = block_of(b"123456789")
        .header_size(51)
        .flags(0x8000_0402)
        .compression(b"bzp2")
        .used(7)
        .data_size(1 << 40)
        .checksum(*b"0123456789abcdef");
    let inner_file = join(&[A, &block_of(b"ab").bytes(), &second.bytes()]);
    let file = join(&[A, TREE, b"   ", &block_of(&inner_file).bytes()]);
    let found = records(&file).unwrap();
    assert_eq!(found.len(), 3);
    let inner_start = 12 + 18 + 3 + 54;
    assert_eq!(
        found[2],
        Record {
            depth: 1,
            offset: Outermost(inner_start + 68),
            block: Block {
                ordinal: 1,
                offset: InFile(68),
                header_size: 51,
                flags: 0x8000_0402,
                compression: *b"bzp2",
                allocated: 9,
                used: 7,
                data_size: 1 << 40,
                checksum: *b"0123456789abcdef",
            },
            inner: Inner::Plain,
        }
    );
}

#[test]
fn after_a_streamed_64th_block_there_is_no_tail() {
    for content in [
        MARK,
        &block().bytes(),
        &index_of("12"),
        b"stray",
        b"\0\0stray",
    ] {
        let file = join(&[&file_of_blocks(63), &streamed(content).bytes()]);
        let layout = read(&file).unwrap();
        assert_eq!(layout.blocks.len(), 64);
        assert_eq!(layout.blocks[63].used as usize, content.len());
        assert_eq!(layout.index, Verdict::Absent);
    }
}

#[test]
fn nested_streamed_block_does_not_reach_into_unused_space() {
    let inner_file = file_with(streamed(b"abc").sizes(u64::MAX));
    let holder = block_of(&inner_file)
        .allocated(69 + 6)
        .after_header(&join(&[&inner_file, b"unused"]));
    let file = join(&[A, &holder.bytes(), &block().bytes()]);
    let found = records(&file).unwrap();
    assert_eq!(found.len(), 3);
    let holder = found[0].block;
    assert_eq!((holder.allocated, holder.used), (75, 69));
    assert_eq!(
        found[1],
        Record {
            depth: 1,
            offset: Outermost(66 + 12),
            block: Block {
                ordinal: 0,
                offset: InFile(12),
                header_size: 48,
                flags: 1,
                compression: [0; 4],
                allocated: 3,
                used: 3,
                data_size: 3,
                checksum: [0; 16],
            },
            inner: Inner::Plain,
        }
    );
    assert_eq!((found[2].depth, found[2].offset), (0, Outermost(66 + 75)));
}

// The next tests cover the tail and the index.

#[test]
fn tail_that_begins_as_an_index_is_never_stray_and_never_walked() {
    let good_block = block().bytes();
    for rest in [
        &b""[..],
        b"ED\n",
        b" ",
        b"\0\0x",
        b"\xFF\x00\x01",
        MARK,
        &good_block,
        &join(&[b"\n", &good_block]),
    ] {
        let file = join(&[&b(), b"#ASDF BLOCK INDEX", rest]);
        let layout = read(&file).unwrap();
        assert_eq!(layout.index, Verdict::IgnoredForm, "{rest:?}");
        assert_eq!(layout.blocks, read(&b()).unwrap().blocks, "{rest:?}");
    }
}

/// Returns the verdict on a text put directly after this file.
fn verdict(file: &[u8], text: &[u8]) -> Verdict {
    read(&join(&[file, text])).unwrap().index
}

#[test]
fn form_of_the_whole_list_is_judged_before_its_numbers() {
    let two = file_of_blocks(2);
    for list in ["13, 012", "012, 13", "12, 066", "13, 66,", "12, 66, 0120"] {
        let text = index_of(list);
        assert_eq!(verdict(&b(), &text), Verdict::IgnoredForm, "{list}");
        assert_eq!(verdict(&two, &text), Verdict::IgnoredForm, "{list}");
    }
    assert_eq!(verdict(&two, &index_of("13, 12")), Verdict::IgnoredList);
    assert_eq!(verdict(&two, &index_of("12, 66")), Verdict::Good);
}

#[test]
fn list_may_have_more_than_64_numbers_and_is_then_another() {
    let full = file_of_blocks(64);
    let offsets: Vec<String> = (0..64).map(|i| (12 + 54 * i).to_string()).collect();
    let list = offsets.join(", ");
    assert_eq!(verdict(&full, &index_of(&list)), Verdict::Good);
    let longer = list + ", 3468";
    assert_eq!(verdict(&full, &index_of(&longer)), Verdict::IgnoredList);
    let malformed = longer + ", 03522";
    assert_eq!(verdict(&full, &index_of(&malformed)), Verdict::IgnoredForm);
}

#[test]
fn each_of_the_four_index_lines_may_end_either_way() {
    let lines = ["#ASDF BLOCK INDEX", "%YAML 1.1", "--- [12]", "..."];
    for ends in 0..16 {
        let text: String = (0..4)
            .map(|i| lines[i].to_string() + ["\n", "\r\n"][ends >> i & 1])
            .collect();
        assert_eq!(verdict(&b(), text.as_bytes()), Verdict::Good, "{text:?}");
    }
}

#[test]
fn no_byte_but_20_is_a_space_around_a_number() {
    for byte in (0..=255u8).filter(|byte| !byte.is_ascii_digit()) {
        for list in [&[byte, b'1', b'2'][..], &[b'1', b'2', byte]] {
            let text = join(&[b"#ASDF BLOCK INDEX\n%YAML 1.1\n--- [", list, b"]\n...\n"]);
            let expected = if byte == b' ' {
                Verdict::Good
            } else {
                Verdict::IgnoredForm
            };
            assert_eq!(verdict(&b(), &text), expected, "{list:?}");
        }
    }
}

#[test]
fn verdict_on_an_inner_file_s_index_is_shown_nowhere() {
    let with_inner_index = |list: &str| {
        let inner_file = join(&[&b(), &index_of(list)]);
        file_with(block_of(&inner_file))
    };
    // 12 is the block's offset in its own file, 78 is its offset in the outermost file, and `1x` is
    // no list at all.
    let good = with_inner_index("12");
    let expected = "tree none\n0 0 12 48 107 107 0 0 0 1\n1 0 78 48 0 0 0 0 0 0\nindex absent\n";
    for list in ["12", "78", "1x"] {
        let file = with_inner_index(list);
        assert_eq!(read(&file), read(&good), "{list}");
        assert_eq!(records(&file), records(&good), "{list}");
        assert_eq!(listing(&file), expected.as_bytes(), "{list}");
    }
}

// The next tests cover files inside blocks.

#[test]
fn file_reads_the_same_whatever_its_blocks_hold() {
    let around = |content: &[u8]| join(&[A, &block_of(content).bytes(), &index_of("12")]);
    let expected = read(&around(b"plain bytes.")).unwrap();
    assert_eq!(expected.blocks.len(), 1);
    assert_eq!(expected.index, Verdict::Good);
    for (content, inner) in [
        (&b"plain bytes."[..], Inner::Plain),
        (b"#ASDF 1.0.0\n", Inner::Opened),
        (b"#ASDF 1.0.0 ", Inner::Refused(refusal(3, 6))),
        (b"#ASDF 2.0.0\n", Inner::Refused(refusal(4, 6))),
        (b"#ASDF 1.0.\n\n", Inner::Refused(refusal(3, 6))),
    ] {
        let file = around(content);
        assert_eq!(read(&file), Ok(expected.clone()));
        assert_eq!(records(&file).unwrap()[0].inner, inner);
    }
}

#[test]
fn refused_inner_file_takes_back_the_rows_of_every_file_in_it() {
    let three_deep = wrapped(&b(), 3);
    let refused_late = join(&[A, &block_of(&three_deep).bytes().repeat(2), b"stray"]);
    let file = file_with(block_of(&refused_late));
    let found = records(&file).unwrap();
    assert_eq!(found.len(), 1);
    let end_of_blocks = refused_late.len() as u64 - 5;
    assert_eq!(found[0].inner, Inner::Refused(refusal(17, end_of_blocks)));

    let accepted = &refused_late[..refused_late.len() - 5];
    assert_eq!(row_count(&file_with(block_of(accepted))), Ok(1 + 2 * 5));
}

#[test]
fn too_deep_is_said_only_of_what_would_have_been_opened() {
    for (parts, would_be, inner) in [
        (block_of(A), Inner::Opened, Inner::TooDeep),
        (streamed(A), Inner::Opened, Inner::TooDeep),
        (
            block_of(b"#ASDF "),
            Inner::Refused(refusal(3, 6)),
            Inner::TooDeep,
        ),
        (
            block_of(b"#ASDF 2.0.0\n"),
            Inner::Refused(refusal(4, 6)),
            Inner::TooDeep,
        ),
        (block_of(b"#ASDF"), Inner::Plain, Inner::Plain),
        (block_of(b""), Inner::Plain, Inner::Plain),
        (block_of(A).used(5).data_size(5), Inner::Plain, Inner::Plain),
        (block_of(A).compression(b"zlib"), Inner::Plain, Inner::Plain),
        (streamed(A).compression(b"zlib"), Inner::Plain, Inner::Plain),
    ] {
        let file = file_with(parts);
        let at_depth_6 = records(&wrapped(&file, 6)).unwrap()[6];
        assert_eq!((at_depth_6.depth, at_depth_6.inner), (6, would_be));
        let at_depth_7 = records(&wrapped(&file, 7)).unwrap()[7];
        assert_eq!((at_depth_7.depth, at_depth_7.inner), (7, inner));
    }
}

#[test]
fn content_of_the_first_six_bytes_alone_is_refused_and_an_empty_file_is_opened() {
    let six = file_with(block_of(b"#ASDF "));
    let found = records(&six).unwrap();
    assert_eq!(found.len(), 1);
    assert_eq!(found[0].inner, Inner::Refused(refusal(3, 6)));

    for without_blocks in [A.to_vec(), join(&[A, b"# c\n", TREE, b"free"])] {
        let found = rows(&file_with(block_of(&without_blocks))).unwrap();
        let length = without_blocks.len() as u32;
        let row = Row {
            depth: 0,
            streamed: false,
            compressed: false,
            checksum: false,
            inner: InnerKind::Opened,
            ordinal: 0,
            header_size: 48,
            offset: Outermost(12),
            allocated: length,
            used: length,
        };
        assert_eq!(found, [row]);
    }
}

// The next tests cover stored outlines, writers and the edit.

#[test]
fn stored_rows_are_held_to_no_rule_that_is_not_named() {
    let row = Row {
        depth: 0,
        streamed: false,
        compressed: false,
        checksum: false,
        inner: InnerKind::Plain,
        ordinal: 63,
        header_size: 48,
        offset: Outermost(u32::MAX),
        allocated: u32::MAX,
        used: 0,
    };
    // The ordinals repeat, the offsets do not rise, and the allocated space passes the end of every
    // file.
    let stored_row = |first| {
        [
            first, 63, 0, 48, 255, 255, 255, 255, 255, 255, 255, 255, 0, 0, 0, 0,
        ]
    };
    // The rows are, in order: a plain row; a row one deeper; a compressed row that is opened and
    // has no rows inside; a streamed row that is not the last; a row that is too deep at depth 0.
    let stored = [0x00, 0x20, 0x09, 0x10, 0x03].map(stored_row).concat();
    let expected = [
        row,
        Row { depth: 1, ..row },
        Row {
            compressed: true,
            inner: InnerKind::Opened,
            ..row
        },
        Row {
            streamed: true,
            ..row
        },
        Row {
            inner: InnerKind::TooDeep,
            ..row
        },
    ];
    assert_eq!(read_outline(&stored), Ok(expected.to_vec()));

    let two_deeper = [0x00, 0x40].map(stored_row).concat();
    let broken = join(&[&stored, &two_deeper]);
    assert_eq!(read_outline(&broken), Err(refusal(24, 6 * 16)));
}

#[test]
fn written_index_is_the_same_whatever_tail_is_accepted() {
    let file = file_of_blocks(2);
    let text = index_of("12, 66");
    for tail in [
        &b""[..],
        &[0; 50],
        &text,
        &index_of("66, 12"),
        b"#ASDF BLOCK INDEXED",
    ] {
        let mut out = vec![7; text.len()];
        let length = write_index(&join(&[&file, tail]), &mut out);
        assert_eq!(length, Ok(text.len()));
        assert_eq!(out, text);
    }
    let mut out = vec![7; text.len()];
    let stray = join(&[&file, &[0; 50], b"x"]);
    assert_eq!(write_index(&stray, &mut out), Err(refusal(17, 120)));
    assert_eq!(out, vec![7; text.len()]);
}

#[test]
fn refusals_of_the_file_come_first_in_every_writer() {
    for (file, expected) in refused_files() {
        let mut out = [7; 900];
        assert_eq!(outline(&file, &mut out), Err(expected));
        assert_eq!(outline(&file, &mut []), Err(expected));
        assert_eq!(write_index(&file, &mut out), Err(expected));
        assert_eq!(write_index(&file, &mut []), Err(expected));
        assert_eq!(out, [7; 900]);
        for text in [TREE, b"no tree"] {
            let mut edited = file.clone();
            assert_eq!(edit(&mut edited, text), Err(expected));
            assert_eq!(edited, file);
        }
    }
}

#[test]
fn refused_stored_outline_changes_no_byte_and_comes_before_a_short_buffer() {
    let good: [u8; 16] = [0, 0, 0, 48, 0, 0, 0, 0, 0, 0, 0, 0, 0, 0, 0, 0];
    let bad = [0; 16];
    for (stored, expected) in [
        (join(&[&good, &bad, &good[..15]]), refusal(23, 0)),
        (join(&[&good, &bad, &good]), refusal(24, 16)),
        (join(&[&bad, &good]), refusal(24, 0)),
    ] {
        for length in [0, 1, 100] {
            let mut out = vec![7; length];
            assert_eq!(rewrite_outline(&stored, &mut out), Err(expected));
            assert_eq!(out, vec![7; length]);
        }
    }
}

#[test]
fn text_of_any_length_is_taken_if_the_room_holds_it() {
    let long = tree_of(&("y".repeat(100_000) + "\n"));
    let mut file = join(&[A, &long, &block().bytes()]);
    let other = tree_of(&("z".repeat(100_000) + "\n"));
    assert_eq!(edit(&mut file, &other), Ok(()));
    assert_eq!(file, join(&[A, &other, &block().bytes()]));

    let mut small = t();
    assert_eq!(edit(&mut small, &long), Err(refusal(20, 0)));
    assert_eq!(small, t());
}

#[test]
fn text_s_lines_may_end_either_way() {
    let lines = ["%YAML 1.1", "---", "a: 1", "..."];
    for ends in 0..16 {
        let text: String = (0..4)
            .map(|i| lines[i].to_string() + ["\n", "\r\n"][ends >> i & 1])
            .collect();
        let mut file = t();
        assert_eq!(edit(&mut file, text.as_bytes()), Ok(()), "{text:?}");
        let spaces = " ".repeat(28 - text.len());
        let expected = join(&[A, text.as_bytes(), spaces.as_bytes(), &block().bytes()]);
        assert_eq!(file, expected, "{text:?}");
    }
}

#[test]
fn what_is_not_there_is_none_and_no_refusal() {
    for without_blocks in [A.to_vec(), join(&[A, TREE])] {
        assert_eq!(records(&without_blocks), Ok(vec![]));
        assert_eq!(rows(&without_blocks), Ok(vec![]));
        assert_eq!(row_count(&without_blocks), Ok(0));
    }
    assert_eq!(records(&b()).map(|found| found.get(1).copied()), Ok(None));
    assert_eq!(rows(&b()).map(|found| found.get(1).copied()), Ok(None));
    for (file, expected) in refused_files() {
        assert_eq!(records(&file), Err(expected));
        assert_eq!(rows(&file), Err(expected));
        assert_eq!(row_count(&file), Err(expected));
    }
}

// The next tests cover the program.

/// Starts the program, which then waits for its standard input.
fn start_program() -> Child {
    Command::new(env!("CARGO_BIN_EXE_asdf-second"))
        .stdin(Stdio::piped())
        .stdout(Stdio::piped())
        .spawn()
        .unwrap()
}

/// Returns what the program prints for this input, which is given in pieces with pauses. The exit
/// status must be 0.
fn printed_for(pieces: std::slice::Chunks<u8>) -> String {
    let mut program = start_program();
    let mut input = program.stdin.take().unwrap();
    for piece in pieces {
        input.write_all(piece).unwrap();
        thread::sleep(Duration::from_millis(2));
    }
    drop(input);
    let output = program.wait_with_output().unwrap();
    assert_eq!(output.status.code(), Some(0));
    String::from_utf8(output.stdout).unwrap()
}

#[test]
fn program_reads_on_over_short_reads_until_the_input_ends() {
    assert_eq!(
        printed_for(t().chunks(7)),
        "tree 12 30\n0 0 40 48 0 0 0 0 0 0\nindex absent\n"
    );
    assert_eq!(printed_for(A[..11].chunks(1)), "refused 3 6\n");
    assert_eq!(printed_for(b"".chunks(1)), "refused 2 0\n");
    let at_limit = file_with(streamed(&vec![b'x'; 65_536 - 66]));
    assert_eq!(
        printed_for(at_limit.chunks(5_000)),
        "tree none\n0 0 12 48 65470 65470 1 0 0 0\nindex absent\n"
    );
}

#[test]
fn program_stops_at_the_65_537th_byte_and_says_only_that_it_is_too_long() {
    assert_eq!(printed_for([b'x'; 65_536].chunks(65_536)), "refused 2 0\n");

    let mut program = start_program();
    let mut input = program.stdin.take().unwrap();
    let mut output = program.stdout.take().unwrap();
    let (sender, receiver) = mpsc::channel();
    thread::spawn(move || {
        let mut printed = Vec::new();
        sender.send(output.read_to_end(&mut printed).map(|_| printed))
    });
    input.write_all(&[b'x'; 65_537]).unwrap();
    // The input stays open, so only the count of its bytes can end the reading.
    let printed = receiver.recv_timeout(Duration::from_secs(60));
    drop(input);
    let printed = printed.expect("the program waits for more input").unwrap();
    assert_eq!(printed, b"too long for this program\n");
    assert_eq!(program.wait().unwrap().code(), Some(0));
}
