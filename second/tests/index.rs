//! Tests the index in the bracket style: the verdicts, and the writer with refusals 21 and 22.

mod common;

use asdf_second::*;
use common::*;

/// Returns the verdict on a text put directly after B, whose only block is at 12.
fn verdict(text: &[u8]) -> Verdict {
    read(&join(&[&b(), text])).unwrap().index
}

/// Returns the verdict on a list put directly after a file with blocks at 12 and 66.
fn verdict_on_two(list: &str) -> Verdict {
    read(&join(&[&file_of_blocks(2), &index_of(list)]))
        .unwrap()
        .index
}

#[test]
fn good_list() {
    assert_eq!(verdict(&index_of("12")), Verdict::Good);
    assert_eq!(verdict_on_two("12, 66"), Verdict::Good);
    assert_eq!(verdict_on_two("12,66"), Verdict::Good);
}

#[test]
fn any_number_of_spaces_may_stand_around_each_number() {
    assert_eq!(verdict(&index_of("   12     ")), Verdict::Good);
    assert_eq!(verdict_on_two("  12  ,   66 "), Verdict::Good);
    assert_eq!(
        verdict_on_two(&format!("12{},66", " ".repeat(5000))),
        Verdict::Good
    );
}

#[test]
fn crlf_everywhere_and_mixed() {
    assert_eq!(verdict(&with_crlf(&index_of("12"))), Verdict::Good);
    assert_eq!(
        verdict(b"#ASDF BLOCK INDEX\r\n%YAML 1.1\n--- [12]\r\n...\n"),
        Verdict::Good
    );
}

#[test]
fn zeros_may_follow_and_nothing_else() {
    assert_eq!(verdict(&join(&[&index_of("12"), &[0; 100]])), Verdict::Good);
    assert_eq!(
        verdict(&join(&[&index_of("13"), &[0; 100]])),
        Verdict::IgnoredList
    );
    for rest in [&b" "[..], b"\n", b"\0\0x", b"...\n", MARK] {
        assert_eq!(
            verdict(&join(&[&index_of("12"), rest])),
            Verdict::IgnoredForm,
            "{rest:?}"
        );
    }
}

#[test]
fn other_lists_are_ignored_list() {
    for list in ["0", "13", "12, 66", "12, 12", "4294967308", "9999999999"] {
        assert_eq!(verdict(&index_of(list)), Verdict::IgnoredList, "{list}");
    }
    for list in ["12", "66", "66, 12", "12, 66, 120", "12, 67", "0, 66"] {
        assert_eq!(verdict_on_two(list), Verdict::IgnoredList, "{list}");
    }
    let seventy = vec!["12"; 70].join(",");
    assert_eq!(verdict_on_two(&seventy), Verdict::IgnoredList);
}

#[test]
fn ten_digits_are_a_list_and_eleven_are_not_the_form() {
    assert_eq!(verdict(&index_of("4294967296")), Verdict::IgnoredList);
    assert_eq!(verdict(&index_of("10000000000")), Verdict::IgnoredForm);
    assert_eq!(verdict_on_two("12, 10000000000"), Verdict::IgnoredForm);
    assert_eq!(verdict_on_two("13, 10000000000"), Verdict::IgnoredForm);
}

#[test]
fn malformed_lists_are_ignored_form() {
    let lists = [
        "", " ", ",", "12,", ",12", "12,,66", "12 66", "012", "00", "0012", "12, 066", "+12",
        "-12", "0x0c", "1_2", "12.0", "12\t", "\t12", "[12]", "12]", "[12", "12, x", "12;66",
        "12\r",
    ];
    for list in lists {
        assert_eq!(verdict(&index_of(list)), Verdict::IgnoredForm, "{list:?}");
        assert_eq!(verdict_on_two(list), Verdict::IgnoredForm, "{list:?}");
    }
}

#[test]
fn lone_zero_is_a_number() {
    assert_eq!(verdict_on_two("0, 0"), Verdict::IgnoredList);
}

#[test]
fn malformed_lines_are_ignored_form() {
    let texts: [&[u8]; 18] = [
        b"#ASDF BLOCK INDEX",
        b"#ASDF BLOCK INDEX\n",
        b"#ASDF BLOCK INDEX \n%YAML 1.1\n--- [12]\n...\n",
        b"#ASDF BLOCK INDEX\r\r\n%YAML 1.1\n--- [12]\n...\n",
        b"#ASDF BLOCK INDEX\n--- [12]\n...\n",
        b"#ASDF BLOCK INDEX\n%YAML 1.2\n--- [12]\n...\n",
        b"#ASDF BLOCK INDEX\n%YAML 1.1 \n--- [12]\n...\n",
        b"#ASDF BLOCK INDEX\n%YAML 1.1\n\n--- [12]\n...\n",
        b"#ASDF BLOCK INDEX\n%YAML 1.1\n---[12]\n...\n",
        b"#ASDF BLOCK INDEX\n%YAML 1.1\n---  [12]\n...\n",
        b"#ASDF BLOCK INDEX\n%YAML 1.1\n--- [12] \n...\n",
        b"#ASDF BLOCK INDEX\n%YAML 1.1\n--- [12,\n66]\n...\n",
        b"#ASDF BLOCK INDEX\n%YAML 1.1\n--- [12]\n",
        b"#ASDF BLOCK INDEX\n%YAML 1.1\n--- [12]\n...",
        b"#ASDF BLOCK INDEX\n%YAML 1.1\n--- [12]\n...\r",
        b"#ASDF BLOCK INDEX\n%YAML 1.1\n--- [12]\n... \n",
        b"#ASDF BLOCK INDEX\n%YAML 1.1\n--- [12]\n\n...\n",
        b"#ASDF BLOCK INDEX\n%YAML 1.1\n--- [12]",
    ];
    for text in texts {
        assert_eq!(
            verdict(text),
            Verdict::IgnoredForm,
            "{:?}",
            String::from_utf8_lossy(text)
        );
    }
}

#[test]
fn wrong_form_comes_before_a_wrong_list() {
    assert_eq!(
        verdict(&join(&[&index_of("13"), b"x"])),
        Verdict::IgnoredForm
    );
}

#[test]
fn written_index_is_good_and_has_the_stated_length() {
    for count in [1, 2, 19, 64] {
        let file = file_of_blocks(count);
        let mut out = [0xAA; LONGEST_INDEX];
        let length = write_index(&file, &mut out).unwrap();
        let digits: usize = (0..count).map(|i| (12 + 54 * i).to_string().len()).sum();
        assert_eq!(length, 39 + digits + 2 * (count - 1));
        assert!(out[length..].iter().all(|&byte| byte == 0xAA));
        assert_eq!(
            read(&join(&[&file, &out[..length]])).unwrap().index,
            Verdict::Good
        );
    }
}

#[test]
fn written_index_leaves_out_the_tail_of_the_file() {
    let mut out = [0; 49];
    let file = join(&[&file_of_blocks(2), &index_of("1"), &[0; 9]]);
    assert_eq!(write_index(&file, &mut out), Ok(45));
    assert_eq!(&out[..45], index_of("12, 66"));
}

#[test]
fn written_index_counts_only_the_file_s_own_blocks() {
    let mut out = [0; 41];
    assert_eq!(write_index(&file_with(block_of(&b())), &mut out), Ok(41));
    assert_eq!(out.as_slice(), index_of("12"));
}

#[test]
fn buffer_exact_longer_and_one_byte_short() {
    let file = file_of_blocks(2);
    let text = index_of("12, 66");
    let mut exact = vec![7; text.len()];
    assert_eq!(write_index(&file, &mut exact), Ok(text.len()));
    assert_eq!(exact, text);

    let mut longer = vec![7; text.len() + 3];
    assert_eq!(write_index(&file, &mut longer), Ok(text.len()));
    assert_eq!(longer, join(&[&text, &[7; 3]]));

    let mut short = vec![7; text.len() - 1];
    assert_eq!(write_index(&file, &mut short), Err(refusal(21, 0)));
    assert_eq!(short, vec![7; text.len() - 1]);
}

#[test]
fn index_without_block_or_with_a_streamed_last_is_refused_with_22_before_21() {
    let two = join(&[&b(), &streamed(b"abc").bytes()]);
    for file in [A.to_vec(), join(&[A, TREE]), file_with(streamed(b"")), two] {
        let mut out = [7; 100];
        assert_eq!(write_index(&file, &mut out), Err(refusal(22, 0)));
        assert_eq!(out, [7; 100]);
        assert_eq!(write_index(&file, &mut []), Err(refusal(22, 0)));
    }
}

#[test]
fn refusals_of_the_file_come_before_those_of_the_index() {
    assert_eq!(write_index(b"", &mut []), Err(refusal(2, 0)));
    assert_eq!(
        write_index(&join(&[&b(), b"x"]), &mut []),
        Err(refusal(17, 66))
    );
}
