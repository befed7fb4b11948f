//! Tests the index written with dashes (W-201): the lines of that style, the texts that mix it with
//! the bracket style, and what stays as it was.

mod common;

use asdf_second::*;
use common::*;
use std::collections::HashMap;
use std::fs;
use std::path::Path;

/// The lines of an index before its start line.
const BEFORE_START: &str = "#ASDF BLOCK INDEX\n%YAML 1.1\n";

/// Returns an index whose start line is `---` alone, with these lines between it and the end line.
fn index_with(lines: &str) -> Vec<u8> {
    format!("{BEFORE_START}---\n{lines}...\n").into_bytes()
}

/// Returns an index in the dash style with these numbers and no more spaces than it needs.
fn dashes_of(numbers: &[&str]) -> Vec<u8> {
    let lines: String = numbers
        .iter()
        .map(|number| format!("- {number}\n"))
        .collect();
    index_with(&lines)
}

/// Returns the lines of a text, each with its line end.
fn lines_of(text: &[u8]) -> Vec<Vec<u8>> {
    text.split_inclusive(|&byte| byte == b'\n')
        .map(<[u8]>::to_vec)
        .collect()
}

/// Returns the verdict on a text put directly after B, whose only block is at 12.
fn verdict(text: &[u8]) -> Verdict {
    read(&join(&[&b(), text])).unwrap().index
}

/// Returns the verdict on a text put directly after a file with blocks at 12 and 66.
fn verdict_on_two(text: &[u8]) -> Verdict {
    read(&join(&[&file_of_blocks(2), text])).unwrap().index
}

/// Checks that a text does not have the form, whatever the blocks are.
fn assert_no_form(text: &[u8]) {
    let shown = String::from_utf8_lossy(text);
    assert_eq!(verdict(text), Verdict::IgnoredForm, "{shown:?}");
    assert_eq!(verdict_on_two(text), Verdict::IgnoredForm, "{shown:?}");
}

// The next tests cover the list.

#[test]
fn good_list() {
    assert_eq!(verdict(&dashes_of(&["12"])), Verdict::Good);
    assert_eq!(verdict_on_two(&dashes_of(&["12", "66"])), Verdict::Good);
}

#[test]
fn other_lists_are_ignored_list() {
    for list in [
        &["0"][..],
        &["13"],
        &["12", "12"],
        &["12", "66"],
        &["0", "12"],
    ] {
        let found = verdict(&dashes_of(list));
        assert_eq!(found, Verdict::IgnoredList, "{list:?}");
    }
    for list in [
        &["12"][..],
        &["66"],
        &["66", "12"],
        &["12", "67"],
        &["12", "12", "66"],
        &["12", "66", "120"],
    ] {
        let found = verdict_on_two(&dashes_of(list));
        assert_eq!(found, Verdict::IgnoredList, "{list:?}");
    }
}

#[test]
fn list_without_a_number_is_ignored_form() {
    for lines in ["", "-\n", "- \n", "-  \n", "- \r\n"] {
        assert_no_form(&index_with(lines));
    }
}

#[test]
fn numbers_are_those_of_the_bracket_style() {
    let numbers = [
        "12",
        "13",
        "0",
        "1234567890",
        "4294967308",
        "9999999999",
        "10000000012",
        "012",
        "00",
        "0000000012",
        "+12",
        "-12",
        "- 12",
        "0x0c",
        "0b1100",
        "014",
        "1_2",
        "12.0",
        "1e1",
        "~",
        "\"12\"",
        "!!int 12",
        "&a 12",
        "x",
        "1 2",
        "12 66",
    ];
    for number in numbers {
        let found = verdict(&dashes_of(&[number]));
        assert_eq!(found, verdict(&index_of(number)), "{number}");
        let two = format!("12, {number}");
        let found = verdict_on_two(&dashes_of(&["12", number]));
        assert_eq!(found, verdict_on_two(&index_of(&two)), "{number}");
    }
}

#[test]
fn ten_digits_are_a_number_and_eleven_are_not() {
    let ten = dashes_of(&["4294967308"]);
    assert_eq!(verdict(&ten), Verdict::IgnoredList);
    let with_spaces = index_with("- 9999999999     \n");
    assert_eq!(verdict(&with_spaces), Verdict::IgnoredList);
    assert_no_form(&dashes_of(&["10000000000"]));
    assert_no_form(&dashes_of(&["00000000012"]));
}

#[test]
fn list_may_have_more_than_64_numbers_and_is_then_another() {
    let full = file_of_blocks(64);
    let on_full = |list: &[&str]| read(&join(&[&full, &dashes_of(list)])).unwrap().index;
    let offsets: Vec<String> = (0..66).map(|i| (12 + 54 * i).to_string()).collect();
    let list: Vec<&str> = offsets.iter().map(String::as_str).collect();
    assert_eq!(on_full(&list[..63]), Verdict::IgnoredList);
    assert_eq!(on_full(&list[..64]), Verdict::Good);
    assert_eq!(on_full(&list[..65]), Verdict::IgnoredList);
    assert_eq!(on_full(&list), Verdict::IgnoredList);
    let malformed = [&list[..65], &["03522"]].concat();
    assert_eq!(on_full(&malformed), Verdict::IgnoredForm);
}

#[test]
fn form_of_every_line_is_judged_before_the_numbers() {
    for list in [
        &["13", "012"][..],
        &["012", "13"],
        &["12", "66", " 120"],
        &["12", "66", "120,"],
        &["0", "0", "0", "x"],
    ] {
        assert_no_form(&dashes_of(list));
    }
    assert_no_form(&join(&[&dashes_of(&["13"]), b"x"]));
}

// The next tests cover one line of the list.

#[test]
fn exactly_one_space_precedes_a_number() {
    for before in ["", "  ", "   ", "\t", " \t", "\t ", "\u{a0}"] {
        assert_no_form(&index_with(&format!("-{before}12\n")));
        assert_no_form(&index_with(&format!("- 12\n-{before}66\n")));
    }
    assert_eq!(verdict(&index_with("- 12\n")), Verdict::Good);
    // In brackets, any number of spaces may precede a number, including none.
    for list in ["12", " 12", "     12"] {
        assert_eq!(verdict(&index_of(list)), Verdict::Good, "{list:?}");
    }
}

#[test]
fn any_number_of_spaces_may_follow_a_number() {
    for count in [0, 1, 2, 5000] {
        let spaces = " ".repeat(count);
        for lines in [
            format!("- 12{spaces}\n- 66\n"),
            format!("- 12\n- 66{spaces}\n"),
            format!("- 12{spaces}\n- 66{spaces}\n"),
        ] {
            for text in [index_with(&lines), with_crlf(&index_with(&lines))] {
                assert_eq!(verdict_on_two(&text), Verdict::Good, "{count} spaces");
            }
        }
    }
}

#[test]
fn no_space_precedes_the_dash() {
    for before in [" ", "  ", "\t", "\r", "\0"] {
        assert_no_form(&index_with(&format!("{before}- 12\n")));
        assert_no_form(&index_with(&format!("- 12\n{before}- 66\n")));
        assert_no_form(&index_with(&format!("{before}- 12\n{before}- 66\n")));
    }
}

#[test]
fn no_byte_but_20_is_a_space_and_only_0d_before_the_0a_is_passed() {
    for byte in (0..=255u8).filter(|byte| !byte.is_ascii_digit()) {
        let with_line = |line: &[u8]| {
            let before = BEFORE_START.as_bytes();
            verdict(&join(&[before, b"---\n", line, b"\n...\n"]))
        };
        let expected = |good: bool| match good {
            true => Verdict::Good,
            false => Verdict::IgnoredForm,
        };
        let before_dash = with_line(&[byte, b'-', b' ', b'1', b'2']);
        assert_eq!(before_dash, expected(false), "{byte}");
        let before_number = with_line(&[b'-', byte, b'1', b'2']);
        assert_eq!(before_number, expected(byte == b' '), "{byte}");
        let after_number = with_line(&[b'-', b' ', b'1', b'2', byte]);
        let passed = byte == b' ' || byte == b'\r';
        assert_eq!(after_number, expected(passed), "{byte}");
        let as_dash = with_line(&[byte, b' ', b'1', b'2']);
        assert_eq!(as_dash, expected(byte == b'-'), "{byte}");
    }
}

#[test]
fn spaces_stand_before_a_0d_that_belongs_to_the_line_end() {
    for line in ["- 12\r\n", "- 12 \r\n", "- 12    \r\n"] {
        assert_eq!(verdict(&index_with(line)), Verdict::Good, "{line:?}");
    }
    for line in [
        "- 12\r \n",
        "- 12\r\r\n",
        "- 12 \r \r\n",
        "-\r 12\n",
        "- \r12\n",
    ] {
        assert_no_form(&index_with(line));
    }
}

/// Returns every line that these bytes can form, up to the length `most`.
fn all_lines(bytes: &[u8], most: usize) -> Vec<Vec<u8>> {
    let mut lines = vec![vec![]];
    let mut from = 0;
    for _ in 0..most {
        let to = lines.len();
        for shorter in from..to {
            for &byte in bytes {
                lines.push(join(&[&lines[shorter], &[byte]]));
            }
        }
        from = to;
    }
    lines
}

#[test]
fn every_short_line_is_a_number_s_line_or_has_no_form() {
    let mut right = HashMap::new();
    for number in all_lines(b"12", 5).into_iter().skip(1) {
        let verdict = match number == b"12" {
            true => Verdict::Good,
            false => Verdict::IgnoredList,
        };
        for spaces in 0..5 {
            for end in ["", "\r"] {
                let after = " ".repeat(spaces) + end;
                right.insert(join(&[b"- ", &number, after.as_bytes()]), verdict);
            }
        }
    }
    for line in all_lines(b"- 12\r", 7) {
        let before = BEFORE_START.as_bytes();
        let text = join(&[before, b"---\n", &line, b"\n...\n"]);
        let expected = right.get(&line).copied().unwrap_or(Verdict::IgnoredForm);
        let shown = String::from_utf8_lossy(&line);
        assert_eq!(verdict(&text), expected, "{shown:?}");
    }
}

// The next tests cover the lines around the list.

#[test]
fn each_line_may_end_either_way() {
    let lines = [
        "#ASDF BLOCK INDEX",
        "%YAML 1.1",
        "---",
        "- 12",
        "- 66",
        "...",
    ];
    for ends in 0..64 {
        let text: String = (0..6)
            .map(|i| lines[i].to_string() + ["\n", "\r\n"][ends >> i & 1])
            .collect();
        assert_eq!(verdict_on_two(text.as_bytes()), Verdict::Good, "{text:?}");
    }
}

#[test]
fn text_that_is_cut_anywhere_has_no_form() {
    for text in [dashes_of(&["12", "66"]), index_with("- 12  \r\n- 66 \r\n")] {
        for length in 17..text.len() {
            assert_no_form(&text[..length]);
            assert_no_form(&join(&[&text[..length], &[0; 9]]));
        }
        assert_eq!(verdict_on_two(&text), Verdict::Good);
    }
}

#[test]
fn start_line_is_three_dashes_and_nothing_else() {
    for start in [
        "",
        "-",
        "--",
        "----",
        " ---",
        "--- ",
        "---  ",
        "---\t",
        "---\r\r",
        "--- #",
        "--- !!seq",
        "--- |",
        "---#",
        "- --",
        "...",
    ] {
        assert_no_form(format!("{BEFORE_START}{start}\n- 12\n...\n").as_bytes());
        assert_no_form(format!("{BEFORE_START}{start}\n- 12\n- 66\n...\n").as_bytes());
    }
    assert_no_form(format!("{BEFORE_START}- 12\n...\n").as_bytes());
}

#[test]
fn end_line_is_three_points_and_nothing_else() {
    for end in [
        "", ".", "..", "....", " ...", "... ", "...\r\r", "... #", "- ...", "---",
    ] {
        assert_no_form(format!("{BEFORE_START}---\n- 12\n{end}\n").as_bytes());
    }
}

#[test]
fn no_other_line_stands_anywhere() {
    let lines = lines_of(&dashes_of(&["12", "66"]));
    for other in [
        "\n",
        "\r\n",
        " \n",
        "\t\n",
        "#\n",
        "# comment\n",
        "#ASDF BLOCK INDEX\n",
        "%YAML 1.1\n",
        "%TAG ! x\n",
        "---\n",
        "--- \n",
        "--- [12]\n",
        "[12]\n",
        "-\n",
        "- \n",
        "12\n",
        " 12\n",
        "-12\n",
        "...\n",
    ] {
        for at in 1..=lines.len() {
            let text = [&lines[..at], &[other.into()], &lines[at..]].concat();
            assert_no_form(&text.concat());
        }
    }
}

#[test]
fn every_line_is_needed_and_in_its_place() {
    let lines = lines_of(&dashes_of(&["12"]));
    for at in 1..lines.len() {
        let without = [&lines[..at], &lines[at + 1..]].concat();
        assert_no_form(&without.concat());
        for other in at + 1..lines.len() {
            let mut swapped = lines.clone();
            swapped.swap(at, other);
            assert_no_form(&swapped.concat());
        }
    }
}

#[test]
fn what_else_may_stand_in_a_number_s_line_of_yaml_has_no_form() {
    for line in [
        "- 12 # first\n",
        "- 12#\n",
        "- 12,\n",
        "- 12 ,\n",
        "- 12:\n",
        "- - 12\n",
        "-- 12\n",
        "? 12\n",
        "* 12\n",
        "\u{2013} 12\n",
        "- 12 ...\n",
        "-\n 12\n",
        "- 12 - 66\n",
    ] {
        assert_no_form(&index_with(line));
    }
}

#[test]
fn zeros_may_follow_and_nothing_else() {
    for zeros in [0, 1, 100] {
        let after = |list: &[&str]| join(&[&dashes_of(list), &vec![0; zeros]]);
        assert_eq!(verdict(&after(&["12"])), Verdict::Good);
        assert_eq!(verdict(&after(&["13"])), Verdict::IgnoredList);
        assert_no_form(&join(&[&after(&["12"]), b"x"]));
    }
    for after in [&b" "[..], b"\n", b"\r\n", b"- 66\n", b"...\n", MARK] {
        assert_no_form(&join(&[&dashes_of(&["12"]), after]));
    }
    assert_no_form(&index_with("- 12\n\0"));
    assert_no_form(&index_with("- 12\0\n"));
}

// The next tests cover the two styles.

#[test]
fn text_that_mixes_the_styles_has_no_form() {
    for text in [
        "--- [12]\n- 66\n",
        "--- [12]\n- 12\n",
        "--- [12, 66]\n- 12\n- 66\n",
        "--- [12,\n- 66]\n",
        "--- []\n- 12\n- 66\n",
        "--- [\n- 12\n- 66\n]\n",
        "--- [- 12]\n",
        "--- [- 12, - 66]\n",
        "---\n[12]\n",
        "---\n [12]\n",
        "---\n[12, 66]\n",
        "---\n--- [12]\n",
        "---\n- [12]\n",
        "---\n- [12, 66]\n",
        "---\n- [12]\n- [66]\n",
        "---\n- 12\n[66]\n",
        "---\n- 12\n--- [66]\n",
        "---\n- 12, 66\n",
        "---\n- 12,\n- 66\n",
        "---\n- 12]\n",
        "--- - 12\n",
        "--- - 12\n- 66\n",
        "--- 12\n",
        "--- 12\n- 66\n",
        "--- 12, 66\n",
    ] {
        assert_no_form(format!("{BEFORE_START}{text}...\n").as_bytes());
    }
}

#[test]
fn index_of_one_style_after_one_of_the_other_has_no_form() {
    let brackets = index_of("12");
    let dashes = dashes_of(&["12"]);
    for (first, second) in [(&brackets, &dashes), (&dashes, &brackets)] {
        assert_no_form(&join(&[first, second]));
        assert_no_form(&join(&[first, &[0; 9], second]));
        let second_document = &second[b"#ASDF BLOCK INDEX\n".len()..];
        assert_no_form(&join(&[first, second_document]));
    }
}

#[test]
fn bracket_line_takes_no_spaces_from_the_dash_style() {
    for start in ["--- [12] ", " --- [12]", "---  [12]", "---[12]"] {
        assert_no_form(format!("{BEFORE_START}{start}\n...\n").as_bytes());
    }
}

// The next tests cover where the index is in the file.

#[test]
fn index_line_among_comments_is_refused_in_either_style() {
    for text in [index_of("12"), dashes_of(&["12"])] {
        let file = join(&[A, &text, &block().bytes()]);
        assert_eq!(read(&file), Err(refusal(6, 12)));
    }
}

#[test]
fn without_a_block_or_after_a_streamed_one_it_is_absent() {
    let text = dashes_of(&["12"]);
    let free_space = read(&join(&[A, TREE, &text])).unwrap();
    assert_eq!(free_space.index, Verdict::Absent);
    let content = read(&file_with(streamed(&text))).unwrap();
    assert_eq!(content.index, Verdict::Absent);
    assert_eq!(content.blocks[0].used as usize, text.len());
}

#[test]
fn it_stands_directly_after_the_last_block() {
    let text = dashes_of(&["12"]);
    for gap in [&b"\0"[..], b"\n", b"gap"] {
        let file = join(&[&b(), gap, &text]);
        assert_eq!(read(&file), Err(refusal(17, 66)), "{gap:?}");
        let layout = read(&join(&[&file, &block().bytes()])).unwrap();
        assert_eq!(layout.blocks[1].offset.0 as usize, file.len());
        assert_eq!(layout.index, Verdict::Absent, "{gap:?}");
    }
    let in_unused_space = block_of(&text).used(0).data_size(0);
    let layout = read(&file_with(in_unused_space)).unwrap();
    assert_eq!(layout.index, Verdict::Absent);
}

#[test]
fn block_after_it_is_not_found_and_the_verdict_is_ignored_form() {
    let file = join(&[&b(), &dashes_of(&["12"]), &block().bytes()]);
    let layout = read(&file).unwrap();
    assert_eq!(layout.blocks.len(), 1);
    assert_eq!(layout.index, Verdict::IgnoredForm);
}

#[test]
fn it_is_judged_by_the_offsets_on_both_sides_of_a_gap() {
    let file = join(&[&b(), b"gap", &block().bytes()]);
    for (list, expected) in [
        (["12", "69"], Verdict::Good),
        (["12", "66"], Verdict::IgnoredList),
        (["12", "069"], Verdict::IgnoredForm),
    ] {
        let layout = read(&join(&[&file, &dashes_of(&list)])).unwrap();
        assert_eq!(layout.index, expected, "{list:?}");
    }
}

#[test]
fn verdict_on_an_inner_file_s_index_is_shown_nowhere() {
    let around = |text: &[u8]| file_with(block_of(&join(&[&b(), text])));
    let good = around(&dashes_of(&["12"]));
    assert_eq!(row_count(&good), Ok(2));
    // 78 is the offset of the same block in the outermost file, and `1x` is not a number.
    for number in ["78", "1x"] {
        let file = around(&dashes_of(&[number]));
        assert_eq!(read(&file), read(&good), "{number}");
        assert_eq!(records(&file), records(&good), "{number}");
        assert_eq!(listing(&file), listing(&good), "{number}");
    }
}

// The next tests cover the writer, the edit and the program.

#[test]
fn written_index_has_brackets_whatever_style_the_file_has() {
    let text = index_of("12, 66");
    for tail in [
        dashes_of(&["12", "66"]),
        dashes_of(&["66", "12"]),
        index_with("-  12\n"),
        text.clone(),
    ] {
        let file = join(&[&file_of_blocks(2), &tail]);
        let mut out = vec![7; text.len() + 3];
        assert_eq!(write_index(&file, &mut out), Ok(text.len()));
        assert_eq!(out, join(&[&text, &[7; 3]]));
        let mut short = vec![7; text.len() - 1];
        assert_eq!(write_index(&file, &mut short), Err(refusal(21, 0)));
        assert_eq!(short, vec![7; text.len() - 1]);
    }
    assert_eq!(verdict_on_two(&text), Verdict::Good);
}

#[test]
fn edit_keeps_the_verdict() {
    for (lines, expected) in [
        ("- 40 \n", Verdict::Good),
        ("- 41\n", Verdict::IgnoredList),
        (" - 40\n", Verdict::IgnoredForm),
    ] {
        let before = join(&[&t(), &index_with(lines)]);
        let mut after = before.clone();
        assert_eq!(edit(&mut after, &tree_of("- 12\n")), Ok(()));
        assert_eq!(read(&before).unwrap().index, expected, "{lines:?}");
        assert_eq!(read(&after).unwrap().index, expected, "{lines:?}");
        assert_eq!(after[40..], before[40..]);
    }
}

#[test]
fn listing_names_each_verdict() {
    for (number, word) in [
        ("12", "good"),
        ("13", "ignored-list"),
        ("012", "ignored-form"),
    ] {
        let printed = listing(&join(&[&b(), &dashes_of(&[number])]));
        let expected = format!("tree none\n0 0 12 48 0 0 0 0 0 0\nindex {word}\n");
        assert_eq!(String::from_utf8_lossy(&printed), expected);
    }
}

// The next tests read real files.

/// Reads a file from tests/data, which must end with an index that has these lines.
fn real_file(name: &str, lines: &str) -> Layout {
    let folder = Path::new(env!("CARGO_MANIFEST_DIR")).join("../tests/data");
    let file = fs::read(folder.join(name)).unwrap();
    assert!(file.ends_with(&index_with(lines)), "{name}");
    read(&file).unwrap()
}

#[test]
fn real_files_have_the_blocks_that_their_own_index_lists() {
    for (name, lines) in [
        ("one-block.asdf", "- 502\n"),
        ("three-blocks.asdf", "- 683\n- 742\n- 820\n"),
        ("padded.asdf", "- 8192\n- 16384\n"),
        ("updated.asdf", "- 686\n- 2794\n"),
        ("updated-gap.asdf", "- 703\n- 1026\n- 1366\n"),
    ] {
        assert_eq!(real_file(name, lines).index, Verdict::Good, "{name}");
    }
}

#[test]
fn real_file_whose_index_leaves_out_a_block_is_ignored_list() {
    let layout = real_file("updated-stale.asdf", "- 686\n- 1366\n");
    let offsets: Vec<u32> = layout.blocks.iter().map(|block| block.offset.0).collect();
    assert_eq!(offsets, [686, 1026, 1366]);
    assert_eq!(layout.index, Verdict::IgnoredList);
}
