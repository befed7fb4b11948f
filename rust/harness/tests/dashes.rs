//! Runs the proved functions on indexes with dashes: the verdict on both sides of every rule.
//!
//! Most indexes follow the file of 66 bytes that has an empty block at 12.

mod common;

use asdf_harness::calls::exports;
use asdf_harness::files::nests::file_of;
use asdf_harness::format::text::{HEADER_LINE, LEAST_TREE};
use common::{assert_writes, layout, one_block, verdict};
use std::collections::HashSet;

/// The first two lines of every index.
const FIRST_LINES: &str = "#ASDF BLOCK INDEX\n%YAML 1.1\n";
/// The index of a block at 12, as the functions write it.
const WRITTEN: &[u8] = b"#ASDF BLOCK INDEX\n%YAML 1.1\n--- [12]\n...\n";

/// A file with an index. `rest` holds the lines from the start line on, with the end line if there
/// is one.
fn with_index(file: &[u8], rest: &str) -> Vec<u8> {
    [file, FIRST_LINES.as_bytes(), rest.as_bytes()].concat()
}

/// The verdict on an index with these lines after one block.
fn after_one_block(rest: &str) -> &'static str {
    verdict(&with_index(&one_block(), rest))
}

/// The verdict on an index with these lines after blocks at 12 and 66.
fn after_two_blocks(rest: &str) -> &'static str {
    verdict(&with_index(&file_of([&b""[..]; 2]), rest))
}

/// Asserts this verdict for each of these lists, as the index of a file with one block.
fn assert_all(expected: &str, lists: &[&str]) {
    for list in lists {
        assert_eq!(after_one_block(list), expected, "{list:?}");
    }
}

/// Asserts that the form is wrong if one of these lines replaces the only line with a dash, before
/// an end line.
fn assert_wrong_lines(lines: &[&str]) {
    for line in lines {
        for line_end in ["\n", "\r\n"] {
            let list = format!("---\n{line}{line_end}...\n");
            assert_eq!(after_one_block(&list), "ignored-form", "{list:?}");
        }
    }
}

#[test]
fn list_of_the_offsets_is_good() {
    assert_eq!(after_one_block("---\n- 12\n...\n"), "good");
    assert_eq!(after_two_blocks("---\n- 12\n- 66\n...\n"), "good");
    let sixty_four = file_of([&b""[..]; 64]);
    let lines: String = (0..64).map(|n| format!("- {}\n", 12 + 54 * n)).collect();
    let list = format!("---\n{lines}...\n");
    assert_eq!(verdict(&with_index(&sixty_four, &list)), "good");
}

#[test]
fn each_line_ends_either_way() {
    let ends = ["\n", "\r\n"];
    for (first, second) in ends.iter().flat_map(|a| ends.map(|b| (a, b))) {
        for (third, fourth) in ends.iter().flat_map(|a| ends.map(|b| (a, b))) {
            for last in ends {
                let start = format!("#ASDF BLOCK INDEX{first}%YAML 1.1{second}---{third}");
                let index = format!("{start}- 12{fourth}...{last}");
                let file = [&one_block()[..], index.as_bytes()].concat();
                assert_eq!(verdict(&file), "good", "{index:?}");
            }
        }
    }
}

#[test]
fn any_number_of_spaces_may_follow_a_number() {
    for count in [0, 1, 2, 3, 63, 64, 65, 200] {
        let spaces = " ".repeat(count);
        for line_end in ["\n", "\r\n"] {
            let list = format!("---\n- 12{spaces}{line_end}...\n");
            assert_eq!(after_one_block(&list), "good", "{list:?}");
        }
        let different = format!("---\n- 12{spaces}\n- 66\n...\n");
        assert_eq!(after_two_blocks(&different), "good");
    }
}

#[test]
fn only_zeros_may_follow_the_end_line() {
    for zeros in [1, 2, 100] {
        let list = format!("---\n- 12\n...\n{}", "\0".repeat(zeros));
        assert_eq!(after_one_block(&list), "good");
    }
    for after in [" ", "x", "\0x", "\n", "\r\n", "...\n", "- 12\n", "\0\n"] {
        let list = format!("---\n- 12\n...\n{after}");
        assert_eq!(after_one_block(&list), "ignored-form", "{list:?}");
    }
}

#[test]
fn other_list_is_ignored_for_its_list() {
    let many = format!("---\n{}...\n", "- 12\n".repeat(65));
    assert_all(
        "ignored-list",
        &[
            "---\n- 13\n...\n",
            "---\n- 0\n...\n",
            "---\n- 12\n- 66\n...\n",
            "---\n- 4294967308\n...\n",
            "---\n- 9999999999\n...\n",
            "---\n- 13  \r\n...\r\n\0",
            &many,
        ],
    );
    for list in [
        "---\n- 66\n- 12\n...\n",
        "---\n- 12\n...\n",
        "---\n- 66\n...\n",
        "---\n- 12\n- 12\n...\n",
        "---\n- 12\n- 66\n- 120\n...\n",
    ] {
        assert_eq!(after_two_blocks(list), "ignored-list", "{list:?}");
    }
}

#[test]
fn dash_and_one_space_stand_before_a_number() {
    assert_wrong_lines(&[
        "-  12", "-12", " - 12", "  - 12", "\t- 12", "-\t12", "- \t12", "-", "- ", "-  ", "12",
        "+ 12", "* 12", "-- 12", "- - 12",
    ]);
}

#[test]
fn only_spaces_stand_after_a_number() {
    assert_wrong_lines(&[
        "- 12\t",
        "- 12 \t",
        "- 12\r\r",
        "- 12 \r\r",
        "- 12\0",
        "- 12,",
        "- 12 #",
        "- 12x",
        "- 1 2",
        "- 12 66",
        "- 12, 66",
    ]);
}

#[test]
fn number_has_1_to_10_digits_and_no_leading_zero() {
    assert_wrong_lines(&[
        "- 012",
        "- 00",
        "- 10000000000",
        "- 00000000012",
        "- 18446744073709551628",
        "- +12",
        "- -12",
        "- 0x0c",
        "- 1_2",
        "- 12.0",
        "- x",
    ]);
}

#[test]
fn form_is_judged_to_its_end_before_the_list() {
    assert_wrong_lines(&["- 13\n- 012", "- 13\n-  12", "- 12\n- 66\n- "]);
    assert_all(
        "ignored-form",
        &["---\n- 13\n...\nx", "---\n- 13\n", "---\n- 13\n..."],
    );
}

#[test]
fn there_is_a_number() {
    assert_all("ignored-form", &["---\n...\n", "---\r\n...\r\n\0"]);
}

#[test]
fn start_line_is_exactly_three_dashes() {
    for start in [
        "--- ",
        "---  ",
        "---\t",
        "---\r\r",
        "----",
        "--",
        " ---",
        "---\n---",
        "---\n--- ",
        "# c\n---",
        "%\n---",
        "...\n---",
        "--- #",
        "",
        "- 12",
    ] {
        let list = format!("{start}\n- 12\n...\n");
        assert_eq!(after_one_block(&list), "ignored-form", "{list:?}");
    }
}

#[test]
fn styles_are_not_mixed() {
    assert_all(
        "ignored-form",
        &[
            "--- [12]\n- 12\n...\n",
            "--- [\n- 12\n]\n...\n",
            "---\n[12]\n...\n",
            "---\n--- [12]\n...\n",
            "---\n- 12\n[12]\n...\n",
            "---\n- 12\n--- [12]\n...\n",
            "---\n- [12]\n...\n",
            "--- - 12\n...\n",
            "--- [- 12]\n...\n",
        ],
    );
    assert_eq!(after_two_blocks("--- [12]\n- 66\n...\n"), "ignored-form");
}

#[test]
fn no_other_line_stands_anywhere() {
    for other in ["", " ", "#", "# first", "%", "---", "-", "\0"] {
        for list in [
            format!("{other}\n---\n- 12\n- 66\n...\n"),
            format!("---\n{other}\n- 12\n- 66\n...\n"),
            format!("---\n- 12\n{other}\n- 66\n...\n"),
            format!("---\n- 12\n- 66\n{other}\n...\n"),
            format!("---\n- 12\n- 66\n...\n{other}\n"),
        ] {
            assert_eq!(after_two_blocks(&list), "ignored-form", "{list:?}");
        }
    }
}

#[test]
fn end_line_is_exactly_three_points_and_ended() {
    assert_all(
        "ignored-form",
        &[
            "---",
            "---\n",
            "---\n- 12",
            "---\n- 12\n",
            "---\n- 12\n...",
            "---\n- 12\n...\r",
            "---\n- 12\n...\0\0",
            "---\n- 12\n... \n",
            "---\n- 12\n ...\n",
            "---\n- 12\n....\n",
            "---\n- 12\n..\n",
            "---\n- 12\nabc\n",
        ],
    );
}

#[test]
fn brackets_keep_their_own_spaces() {
    assert_all("good", &["--- [12]\n...\n", "--- [  12 ]\n...\n"]);
    assert_eq!(after_two_blocks("--- [ 12 ,66  ]\n...\n"), "good");
    assert_all(
        "ignored-form",
        &[
            "--- [12] \n...\n",
            "---  [12]\n...\n",
            " --- [12]\n...\n",
            "--- [1 2]\n...\n",
            "--- [ ]\n...\n",
        ],
    );
}

/// All texts that consist of at most `most` of these parts.
fn texts(parts: &[&str], most: usize) -> Vec<String> {
    let mut texts = vec![String::new()];
    let mut longest = texts.clone();
    for _ in 0..most {
        let longer = |text: &String| parts.iter().map(|part| format!("{text}{part}")).collect();
        longest = longest.iter().flat_map::<Vec<String>, _>(longer).collect();
        texts.extend(longest.iter().cloned());
    }
    texts
}

/// Asserts that each of these lists, after one block, has the verdict of the second program. Every
/// verdict on an index has to occur.
fn assert_as_second(lists: impl Iterator<Item = String>) {
    let mut found = HashSet::new();
    for list in lists {
        let file = with_index(&one_block(), &list);
        let expected = asdf_second::read(&file).unwrap().index.to_string();
        assert_eq!(verdict(&file), expected, "{list:?}");
        found.insert(expected);
    }
    assert_eq!(found.len(), 3);
}

#[test]
fn short_texts_of_lines_are_judged_as_by_the_second_program() {
    let lines = [
        "---\n",
        "--- \n",
        "---\r\n",
        "- 12\n",
        "- 12 \r\n",
        "- 13\n",
        "-  12\n",
        "[12]\n",
        "--- [12]\n",
        "...\n",
        "...",
        "\n",
        "\0",
    ];
    assert_as_second(texts(&lines, 5).into_iter());
}

#[test]
fn short_lines_are_judged_as_by_the_second_program() {
    let parts = ["-", " ", "12", "0", "\r", "\n", "\t", ","];
    let lines = texts(&parts, 6).into_iter();
    assert_as_second(lines.map(|line| format!("---\n{line}\n...\n")));
}

#[test]
fn index_is_written_in_brackets() {
    let file = with_index(&one_block(), "---\n- 12\n...\n");
    assert_writes(|out| exports::index(&file, out), WRITTEN);
}

#[test]
fn verdict_is_the_same_after_an_edit() {
    let block = &one_block()[HEADER_LINE.len()..];
    let file = [HEADER_LINE, LEAST_TREE, b"     ", block].concat();
    let text = b"%YAML 1.1\n---\nabcd\n...\n";
    for (list, expected) in [
        ("---\n- 35  \n...\n", "good"),
        ("---\n- 12\n...\n", "ignored-list"),
        ("---\n-  35\n...\n", "ignored-form"),
    ] {
        let mut edited = with_index(&file, list);
        assert_eq!(verdict(&edited), expected);
        assert_eq!(exports::edit(&mut edited, text), 0);
        assert_eq!(verdict(&edited), expected);
    }
}

#[test]
fn index_of_a_file_inside_decides_nothing() {
    for list in ["---\n- 12\n...\n", "---\n-  12\n...\n"] {
        let file = file_of([&with_index(&one_block(), list)[..]]);
        let [.., blocks, _verdict, _line_end] = layout(&file);
        assert_eq!((blocks, exports::count(&file)), (1, 2));
        assert_eq!(verdict(&file), "absent");
    }
}
