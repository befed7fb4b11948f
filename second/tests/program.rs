//! Tests the program: its listing, and the commands of the binary.

mod common;

use asdf_second::*;
use common::*;
use std::io::Write;
use std::process::{Command, Output, Stdio};

fn listed(input: &[u8]) -> String {
    String::from_utf8(listing(input)).unwrap()
}

/// Runs the binary with these arguments and this standard input.
fn run(arguments: &[&str], input: &[u8]) -> Output {
    let mut child = Command::new(env!("CARGO_BIN_EXE_asdf-second"))
        .args(arguments)
        .stdin(Stdio::piped())
        .stdout(Stdio::piped())
        .stderr(Stdio::piped())
        .spawn()
        .unwrap();
    // A program that needs no more input may close its end before everything is written.
    let _ = child.stdin.take().unwrap().write_all(input);
    child.wait_with_output().unwrap()
}

#[test]
fn listing_of_b() {
    assert_eq!(
        listed(&b()),
        "tree none\n0 0 12 48 0 0 0 0 0 0\nindex absent\n"
    );
}

#[test]
fn listing_of_a_refusal() {
    assert_eq!(listed(&A[..11]), "refused 3 6\n");
    assert_eq!(listed(b""), "refused 2 0\n");
}

#[test]
fn listing_of_a_tree() {
    assert_eq!(
        listed(&t()),
        "tree 12 30\n0 0 40 48 0 0 0 0 0 0\nindex absent\n"
    );
}

#[test]
fn listing_names_each_verdict() {
    let last_line = |list: &str| {
        let text = listed(&join(&[&b(), &index_of(list)]));
        text.lines().last().unwrap().to_string()
    };
    assert_eq!(last_line("12"), "index good");
    assert_eq!(last_line("012"), "index ignored-form");
    assert_eq!(last_line("13"), "index ignored-list");
    assert_eq!(listed(A), "tree none\nindex absent\n");
}

#[test]
fn listing_of_every_column() {
    let file = join(&[
        A,
        &block_of(b"#ASDF x").bytes(),
        &block_of(b"abc")
            .used(2)
            .data_size(9)
            .compression(b"zlib")
            .header_size(50)
            .bytes(),
        &streamed(&b()).checksum([1; 16]).bytes(),
    ]);
    let expected = "tree none\n\
                    0 0 12 48 7 7 0 0 0 2\n\
                    0 1 73 50 3 2 0 1 0 0\n\
                    0 2 132 48 66 66 1 0 1 1\n\
                    1 0 198 48 0 0 0 0 0 0\n\
                    index absent\n";
    assert_eq!(listed(&file), expected);
}

#[test]
fn listing_of_64_and_65_blocks() {
    let text = listed(&file_of_blocks(64));
    assert_eq!(text.lines().count(), 66);
    assert_eq!(text.lines().nth(64), Some("0 63 3414 48 0 0 0 0 0 0"));
    assert_eq!(listed(&file_of_blocks(65)), "refused 16 3468\n");
}

#[test]
fn listing_of_depths_7_and_8() {
    let seven = listed(&wrapped(&b(), 7));
    assert_eq!(seven.lines().nth(8), Some("7 0 474 48 0 0 0 0 0 0"));
    let eight = listed(&wrapped(&b(), 8));
    assert_eq!(eight.lines().nth(8), Some("7 0 474 48 66 66 0 0 0 3"));
    assert_eq!(eight.lines().count(), 10);
}

#[test]
fn listing_of_used_equal_to_allocated_and_one_above() {
    let parts = block_of(b"abcd");
    assert_eq!(
        listed(&file_with(parts.clone())),
        "tree none\n0 0 12 48 4 4 0 0 0 0\nindex absent\n"
    );
    assert_eq!(listed(&file_with(parts.used(5))), "refused 13 12\n");
}

#[test]
fn listing_of_a_zero_length_streamed_block() {
    assert_eq!(
        listed(&file_with(streamed(b""))),
        "tree none\n0 0 12 48 0 0 1 0 0 0\nindex absent\n"
    );
}

#[test]
fn listing_of_sizes_of_all_ff() {
    assert_eq!(
        listed(&file_with(block().sizes(u64::MAX))),
        "refused 15 12\n"
    );
    assert_eq!(
        listed(&file_with(streamed(b"ab").sizes(u64::MAX))),
        "tree none\n0 0 12 48 2 2 1 0 0 0\nindex absent\n"
    );
}

#[test]
fn input_at_the_program_s_limit_and_one_byte_above() {
    let at_limit = file_with(streamed(&vec![b'x'; 65_536 - 66]));
    assert_eq!(at_limit.len(), 65_536);
    assert_eq!(
        listed(&at_limit),
        "tree none\n0 0 12 48 65470 65470 1 0 0 0\nindex absent\n"
    );
    let above = join(&[&at_limit, b"x"]);
    assert_eq!(listed(&above), "too long for this program\n");
    assert_eq!(listed(&vec![0; 65_537]), "too long for this program\n");
    assert_eq!(run(&[], &above).stdout, b"too long for this program\n");
    assert_eq!(run(&[], &at_limit).stdout, listing(&at_limit));
}

#[test]
fn most_rows_is_a_bound_that_is_reached() {
    let full = file_of_blocks(64);
    assert_eq!(most_rows(full.len()), 64);
    assert_eq!(most_rows(PROGRAM_LIMIT), 1213);
}

#[test]
fn program_without_arguments_prints_the_listing_with_status_0() {
    let dos = join(&[DOS_A, &block().bytes()]);
    for input in [b(), t(), dos, A[..11].to_vec()] {
        let output = run(&[], &input);
        assert_eq!(output.stdout, listing(&input));
        assert_eq!(output.status.code(), Some(0));
        assert!(output.stderr.is_empty());
    }
}

#[test]
fn layout_command() {
    let file = join(&[
        A,
        b"#\n",
        TREE,
        b"  ",
        &block_of(b"abc").bytes(),
        &index_of("34"),
    ]);
    let expected = "version 1 0 0\nheader 12\nline-end lf\ncomments 12 14\ntree 14 32 34\n\
                    block 0 34 48 00000000 00000000 3 3 3 00000000000000000000000000000000\n\
                    index good\n";
    assert_eq!(
        String::from_utf8(run(&["layout"], &file).stdout).unwrap(),
        expected
    );
    let dos = run(&["layout"], DOS_A);
    assert_eq!(
        String::from_utf8(dos.stdout).unwrap(),
        "version 1 0 0\nheader 13\nline-end crlf\ncomments 13 13\ntree none\nindex absent\n"
    );
    let refused = run(&["layout"], b"");
    assert_eq!(
        (refused.stdout.as_slice(), refused.status.code()),
        (&b"refused 2 0\n"[..], Some(0))
    );
}

#[test]
fn records_command() {
    let file = join(&[
        A,
        &block_of(&b()).bytes(),
        &block_of(b"#ASDF x").checksum([0xAB; 16]).bytes(),
    ]);
    let zeros = "0".repeat(32);
    let expected = format!(
        "0 0 12 48 00000000 00000000 66 66 66 {zeros} opened\n\
         1 0 78 48 00000000 00000000 0 0 0 {zeros} plain\n\
         0 1 132 48 00000000 00000000 7 7 7 {} refused 3 6\n",
        "ab".repeat(16)
    );
    assert_eq!(
        String::from_utf8(run(&["records"], &file).stdout).unwrap(),
        expected
    );
    assert_eq!(run(&["records"], &A[..11]).stdout, b"refused 3 6\n");
}

#[test]
fn outline_commands() {
    let file = wrapped(&b(), 1);
    let written = run(&["outline"], &file);
    assert_eq!(written.stdout.len(), 32);
    assert_eq!(written.status.code(), Some(0));
    let rows = run(&["read-outline"], &written.stdout);
    assert_eq!(
        rows.stdout,
        b"0 0 12 48 66 66 0 0 0 1\n1 0 78 48 0 0 0 0 0 0\n"
    );
    assert_eq!(run(&["read-outline"], b"x").stdout, b"refused 23 0\n");

    let refused = run(&["outline"], b"");
    assert_eq!(
        (refused.stdout.as_slice(), refused.status.code()),
        (&b""[..], Some(1))
    );
    assert_eq!(refused.stderr, b"refused 2 0\n");
}

#[test]
fn commands_take_more_than_the_program_s_limit() {
    let file = file_with(streamed(&vec![b'x'; 100_000]));
    let output = run(&["records"], &file);
    assert!(output
        .stdout
        .starts_with(b"0 0 12 48 00000001 00000000 100000 100000 100000 "));
}

#[test]
fn index_command() {
    assert_eq!(run(&["index"], &b()).stdout, index_of("12"));
    let dos = join(&[DOS_A, &block().bytes()]);
    assert_eq!(run(&["index"], &dos).stdout, with_crlf(&index_of("13")));
    let refused = run(&["index"], A);
    assert_eq!(
        (refused.stderr.as_slice(), refused.status.code()),
        (&b"refused 22 0\n"[..], Some(1))
    );
    assert!(refused.stdout.is_empty());
}

#[test]
fn edit_command() {
    let path = std::env::temp_dir().join(format!("asdf-second-edit-{}", std::process::id()));
    let path_text = path.to_str().unwrap();
    std::fs::write(&path, tree_of("xxxxxxxxx\n")).unwrap();
    let output = run(&["edit", path_text], &t());
    let refused = run(&["edit", path_text], &b());
    std::fs::remove_file(&path).unwrap();
    assert_eq!(
        output.stdout,
        join(&[A, &tree_of("xxxxxxxxx\n"), &block().bytes()])
    );
    assert_eq!(
        (refused.stderr.as_slice(), refused.status.code()),
        (&b"refused 18 0\n"[..], Some(1))
    );
    assert!(refused.stdout.is_empty());
}

#[test]
fn help_and_unknown_commands() {
    let help = run(&["--help"], b"");
    assert!(help.stdout.starts_with(b"usage: asdf-second"));
    assert_eq!(help.status.code(), Some(0));
    let unknown = run(&["unknown"], b"");
    assert!(unknown.stdout.is_empty());
    assert_eq!(unknown.status.code(), Some(2));
}
