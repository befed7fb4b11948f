//! Tests the listings, and the messages of calls that fail.

mod common;

use common::*;
use std::ffi::OsStr;
use std::fs;
use std::os::unix::ffi::OsStrExt;
use std::path::{Path, PathBuf};
use std::process::Command;

/// The minimum number of real files. More may be added, but none may get lost.
const AT_LEAST: usize = 18;

/// Returns the path of a real file.
fn real(name: &str) -> String {
    format!("{DATA}/{name}.asdf")
}

#[test]
fn plain_listing_of_every_real_file_is_the_stored_one() {
    let mut compared = 0;
    for entry in fs::read_dir(DATA).unwrap() {
        let path = entry.unwrap().path();
        if path.extension().is_some_and(|found| found == "listing") {
            let stored = fs::read_to_string(&path).unwrap();
            let ran = run(&["list", "--plain", word(&path.with_extension("asdf"))]);
            assert_eq!(ran.output, stored, "{}", path.display());
            let refused = stored.starts_with("refused ");
            assert_eq!(ran.status, Some(i32::from(refused)));
            assert_eq!(ran.errors.is_empty(), !refused);
            compared += 1;
        }
    }
    assert!(compared >= AT_LEAST, "only {compared} files");
}

#[test]
fn table_shows_depth_sizes_and_words() {
    let file = real("nested-8");
    let table = printed(&["list", &file]);
    let lines: Vec<&str> = table.lines().collect();
    assert_eq!(
        lines[0],
        format!("{file}: ASDF 1.0.0, length 5429 (5.3 KiB)")
    );
    assert_eq!(lines[3], "tree      33 to 504, in a room of 471");
    assert!(lines[5].starts_with("block "));
    assert!(lines[6].starts_with("0 "));
    assert!(lines[6].ends_with("a file, opened"));
    assert!(lines[13].starts_with("              0  "));
    assert!(lines[13].ends_with("a file, too deep to be read"));
    assert_eq!(
        lines[15],
        "index     good: it lists the offsets of the blocks"
    );
    assert_eq!(lines.len(), 16);
}

#[test]
fn table_names_compression_and_streamed_blocks() {
    assert!(printed(&["list", &real("bzp2")]).contains(" bzp2  "));
    assert!(printed(&["list", &real("streamed")]).contains(" streamed  "));
    assert!(printed(&["list", &real("tree-only")]).contains("\nblocks    none\n"));
}

#[test]
fn table_tells_why_an_inner_file_is_refused() {
    let inner = b"#ASDF 2.0.0\n";
    let file = [HEADER, &block_header(inner.len() as u64), inner].concat();
    let ran = run_with_input(&["list", "-"], &file);
    let refused = "a file, refused: first version number is not 1, at 6 (refusal 4)\n";
    assert!(ran.output.contains(refused), "{}", ran.output);
    assert!(ran.output.starts_with("standard input: ASDF 1.0.0, "));
}

#[test]
fn json_is_one_object() {
    let mut file = [HEADER, b"#c\n", TREE, b" ", &block_header(3), b"abc"].concat();
    // This name of a compression would break a string that is not escaped.
    file[34 + 10..34 + 14].copy_from_slice(b"\"\\\x01\0");
    let expected = concat!(
        r#"{"file":"-","bytes":91,"version":"1.0.0","header_end":12,"line_end":"0A","comments":{"start":12,"end":15},"#,
        r#""tree":{"start":15,"end":33,"room_end":34},"#,
        r#""blocks":[{"depth":0,"ordinal":0,"offset":34,"header_size":48,"flags":0,"streamed":false,"#,
        r#""compression":"\\\"\\\\\\x01","allocated":3,"used":3,"data_size":3,"checksum":null,"inner":"plain"}],"#,
        r#""index":"absent"}"#,
        "\n"
    );
    assert_eq!(
        run_with_input(&["list", "-", "--json"], &file).output,
        expected
    );
    let ran = run_with_input(&["list", "-", "--json"], b"");
    let refused = r#"{"number":2,"place":0,"reason":"file does not begin with `#ASDF `"}"#;
    let expected = format!("{{\"file\":\"-\",\"refused\":{refused}}}\n");
    assert_eq!(ran.output, expected);
    assert_eq!(ran.status, Some(1));
}

/// Returns a file whose only block is empty and compressed, with this name and data size.
fn compressed(name: &[u8; 4], data_size: u64) -> Vec<u8> {
    let mut header = block_header(0);
    header[10..14].copy_from_slice(name);
    header[30..38].copy_from_slice(&data_size.to_be_bytes());
    [HEADER, &header].concat()
}

#[test]
fn json_gives_a_size_as_text_too_if_floating_point_does_not_hold_it() {
    let listed = |size| run_with_input(&["list", "-", "--json"], &compressed(b"zlib", size)).output;
    let exact = 1 << 53;
    assert!(listed(exact).contains(r#""data_size":9007199254740992,"checksum":"#));
    assert!(listed(exact + 1).contains(
        r#""data_size":9007199254740993,"data_size_text":"9007199254740993","checksum":"#
    ));
    assert!(listed(u64::MAX).contains(
        r#""data_size":18446744073709551615,"data_size_text":"18446744073709551615","checksum":"#
    ));
}

/// Reads JSON from a file, and prints two of its members.
const READ_JSON: &str = r#"
import json, sys
listing = json.load(open(sys.argv[1], encoding="utf-8"))
print(ascii(listing["file"]), ascii(listing["blocks"][0]["compression"]))
"#;

#[test]
fn json_is_valid_whatever_the_names_hold() {
    let folder = folder("list-names");
    let has_python = Command::new("python3").arg("--version").output().is_ok();
    for (name, in_json, in_python) in [
        (&b"plain"[..], "plain", r"'plain'"),
        (
            b"\"\\\n\x1B[2J\x7F",
            r#"\"\\\u000a\u001b[2J\u007f"#,
            r#"'"\\\n\x1b[2J\x7f'"#,
        ),
        (
            "größe \u{202E}🌊".as_bytes(),
            r"größe \u202e🌊",
            r"'gr\xf6\xdfe \u202e\U0001f30a'",
        ),
        (
            b"not \xFF UTF-8",
            "not \u{FFFD} UTF-8",
            r"'not \ufffd UTF-8'",
        ),
    ] {
        let name = OsStr::from_bytes(name);
        fs::write(folder.join(name), compressed(b"\"\n\xFF\\", 0)).unwrap();
        let mut call = command(&["list", "--json", "--"]);
        let ran = call.arg(name).current_dir(&folder).output().unwrap();
        let ran = Ran::from(ran);
        let start = format!(r#"{{"file":"{in_json}","bytes":66,"#);
        assert!(ran.output.starts_with(&start), "{}", ran.output);
        assert!(ran.output.contains(r#","compression":"\\\"\\n\\xff\\\\","#));
        if has_python {
            let json = folder.join("json");
            fs::write(&json, ran.output).unwrap();
            let mut python = Command::new("python3");
            let read = python.args(["-c", READ_JSON, word(&json)]).output();
            let read = Ran::from(read.unwrap());
            let expected = format!("{in_python} '\\\\\"\\\\n\\\\xff\\\\\\\\'\n");
            assert_eq!((read.output, read.errors.as_str()), (expected, ""));
        }
    }
}

#[test]
fn line_end_of_the_header_is_in_the_json_alone() {
    let file = [DOS_HEADER, &block_header(0)].concat();
    let listed = |words: &[&str]| run_with_input(words, &file).output;
    assert!(listed(&["list", "-", "--json"])
        .contains(r#""header_end":13,"line_end":"0D 0A","comments":"#));
    assert_eq!(
        listed(&["list", "-", "--plain"]),
        "tree none\n0 0 13 48 0 0 0 0 0 0\nindex absent\n"
    );
    let table = listed(&["list", "-"]);
    let with_0a = [HEADER, &block_header(0)].concat();
    let table_with_0a = run_with_input(&["list", "-"], &with_0a).output;
    let moved = table.replace("67", "66").replace("13", "12");
    assert_eq!(moved, table_with_0a);
}

#[test]
fn refusal_is_a_sentence() {
    let mut file = [HEADER, &block_header(3)[..], b"abc"].concat();
    file[12 + 29] = 4;
    let ran = run_with_input(&["list", "-"], &file);
    let sentence = "used size is above allocated size, in the block at 12 (refusal 13)";
    assert_eq!(
        ran.errors,
        format!("asdf-layout: standard input: {sentence}\n")
    );
    assert_eq!((ran.status, ran.output.as_str()), (Some(1), ""));
}

#[test]
fn file_above_the_limit_is_refused_and_the_longest_is_listed() {
    let folder = folder("list-long");
    let (long, longest) = (folder.join("long"), folder.join("longest"));
    sparse_file(&long, 5 << 30, &[(0, HEADER)]);
    let ran = run(&["list", word(&long)]);
    let sentence = "file is longer than 4,294,967,295 bytes (refusal 1)";
    assert_eq!(
        ran.errors,
        format!("asdf-layout: {}: {sentence}\n", word(&long))
    );
    assert_eq!(ran.status, Some(1));

    let length = (1 << 32) - 1;
    let block = block_header(length - 66);
    sparse_file(&longest, length, &[(0, HEADER), (12, &block)]);
    let listing = printed(&["list", "--plain", word(&longest)]);
    assert_eq!(
        listing,
        "tree none\n0 0 12 48 4294967229 4294967229 0 0 0 0\nindex absent\n"
    );
}

#[test]
fn wrong_calls_and_missing_files_have_status_2() {
    for words in [
        &[][..],
        &["lists"],
        &["list"],
        &["list", ""],
        &["list", DATA, "--jsno"],
        &["list", "/no/such/file"],
        &["list", DATA],
        &["tree", "a", "b"],
        &["index", DATA, "--force"],
        &["outline", DATA],
        &["outline", DATA, "-o"],
        &["edit", "-", "-"],
        &["edit", "/no/such/file"],
        &["edit", "/no/such/file", "/no/such/file"],
        &["restore", "-", "--set-aside"],
        &["outline", "--read", "/no/such/file"],
        &["help", "lists"],
        &["--version", "list"],
    ] {
        let ran = run(words);
        assert_eq!(
            (ran.status, ran.output.as_str()),
            (Some(2), ""),
            "{words:?}"
        );
        assert!(ran.errors.starts_with("asdf-layout: "), "{words:?}");
        assert_eq!(ran.errors.lines().count(), 1, "{words:?}");
    }
}

#[test]
fn wrong_word_is_named_and_escaped() {
    let ran = run(&["tree", "a", "\x1B[2Jb"]);
    let problem = r"`tree` takes one file; `\u{1b}[2Jb` is one too many";
    let advice = "`asdf-layout tree --help` shows how to call it";
    assert_eq!(ran.errors, format!("asdf-layout: {problem}; {advice}\n"));
    assert_eq!(ran.status, Some(2));
}

#[test]
fn every_command_has_help() {
    for name in ["list", "tree", "index", "outline", "edit", "restore"] {
        let help = printed(&[name, "--help"]);
        assert!(help.starts_with(&format!("asdf-layout {name} FILE")));
        assert_eq!(printed(&[name, "-h"]), help);
        assert_eq!(printed(&["help", name]), help);
        assert!(printed(&["--help"]).contains(&format!("asdf-layout {name}")));
    }
    assert_eq!(printed(&["-h"]), printed(&["--help"]));
    assert_eq!(printed(&["help"]), printed(&["--help"]));
}

#[test]
fn version_is_that_of_the_package() {
    let version = concat!("asdf-layout ", env!("CARGO_PKG_VERSION"), "\n");
    assert_eq!(printed(&["--version"]), version);
}

#[test]
fn name_that_begins_with_a_dash_is_listed_after_two_dashes() {
    let folder = folder("list-dashes");
    fs::write(folder.join("-strange"), HEADER).unwrap();
    fs::write(folder.join("-"), HEADER).unwrap();
    let listed = |words: &[&str]| {
        let ran = command(words).current_dir(&folder).output();
        Ran::from(ran.unwrap()).output
    };
    let first = "ASDF 1.0.0, length 12\n";
    let strange = listed(&["list", "--", "-strange"]);
    assert!(strange.starts_with(&format!("-strange: {first}")));
    assert!(listed(&["list", "./-"]).starts_with(&format!("./-: {first}")));
    // This is still standard input, which is empty now.
    let standard = listed(&["list", "--plain", "--", "-"]);
    assert_eq!(standard, "refused 2 0\n");
}

/// The files of the tests of several files.
struct Several {
    folder: PathBuf,
}

impl Several {
    /// Makes a file with a block, a refused one, and one without blocks.
    fn new(test: &str) -> Several {
        let folder = folder(test);
        let one = [HEADER, &block_header(0)].concat();
        fs::write(folder.join("one"), one).unwrap();
        fs::write(folder.join("refused"), b"#ASDF 2.0.0\n").unwrap();
        fs::write(folder.join("none\n"), HEADER).unwrap();
        Several { folder }
    }

    /// Lists them, and one that is missing, with these words before them.
    fn listed(&self, words: &[&str]) -> Ran {
        let mut call = command(words);
        let call = call.current_dir(&self.folder);
        let files = ["one", "missing", "refused", "none\n"];
        call.args(files).output().unwrap().into()
    }
}

#[test]
fn several_files_are_listed_whatever_happens_to_one_of_them() {
    let several = Several::new("list-several");
    let table = several.listed(&["list"]);
    let expected = concat!(
        "one: ASDF 1.0.0, length 66\n",
        "header    0 to 12\ncomments  none\ntree      none\n\n",
        "block  offset  allocated  used  compression  checksum  content\n",
        "0      12      0          0     none         no        plain\n\n",
        "index     absent\n\n",
        "none\\n: ASDF 1.0.0, length 12\n",
        "header    0 to 12\ncomments  none\ntree      none\nblocks    none\nindex     absent\n",
    );
    assert_eq!(table.output, expected);
    let plain = several.listed(&["list", "--plain"]);
    let expected = concat!(
        "file one\ntree none\n0 0 12 48 0 0 0 0 0 0\nindex absent\n",
        "file refused\nrefused 4 6\n",
        "file none\\n\ntree none\nindex absent\n",
    );
    assert_eq!(plain.output, expected);
    let json = several.listed(&["list", "--json"]);
    let lines: Vec<&str> = json.output.lines().collect();
    let [one, refused, none] = lines[..] else {
        panic!("{lines:?}")
    };
    assert!(one.starts_with(r#"{"file":"one","bytes":66,"#));
    assert!(refused.starts_with(r#"{"file":"refused","refused":{"number":4,"#));
    assert!(none.starts_with(r#"{"file":"none\u000a","bytes":12,"#));
    for ran in [table, plain, json] {
        let errors: Vec<&str> = ran.errors.lines().collect();
        let [missing, refused] = errors[..] else {
            panic!("{errors:?}")
        };
        assert!(missing.starts_with("asdf-layout: cannot read missing: No such file"));
        assert!(refused.starts_with("asdf-layout: refused: first version number"));
        assert_eq!(ran.status, Some(2));
    }
}

#[test]
fn standard_input_may_be_one_of_several_files() {
    let file = [HEADER, &block_header(0)].concat();
    let ran = run_with_input(&["list", "--plain", &real("tree-only"), "-"], &file);
    let last = "\nfile -\ntree none\n0 0 12 48 0 0 0 0 0 0\nindex absent\n";
    assert!(ran.output.ends_with(last), "{}", ran.output);
    assert_eq!((ran.status, ran.errors.as_str()), (Some(0), ""));
}

#[test]
fn worst_status_counts_wherever_it_comes_from() {
    let several = Several::new("list-worst");
    let status = |files: &[&str]| {
        let mut call = command(&["list", "--plain"]);
        call.args(files).current_dir(&several.folder);
        call.output().unwrap().status.code()
    };
    assert_eq!(status(&["one", "none\n"]), Some(0));
    assert_eq!(status(&["one", "refused"]), Some(1));
    assert_eq!(status(&["refused", "one"]), Some(1));
    assert_eq!(status(&["missing", "refused"]), Some(2));
    assert_eq!(status(&["refused", "missing"]), Some(2));
}

#[test]
fn pipe_in_the_place_of_a_file_is_read() {
    let bytes = fs::read(real("one-block")).unwrap();
    let stored = fs::read_to_string(Path::new(DATA).join("one-block.listing")).unwrap();
    assert_eq!(
        run_with_input(&["list", "--plain", "/dev/stdin"], &bytes).output,
        stored
    );
}
