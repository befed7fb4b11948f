//! Checks that the reasons of refusals are the same in this crate, in the C header and in the
//! documentation, and that the sizes of results are the same in `asdf-sys` and in the C header.

use asdf_layout::REASONS;
use std::fs;

/// The text of a file in the repository.
fn text(path: &str) -> String {
    let root = concat!(env!("CARGO_MANIFEST_DIR"), "/../..");
    fs::read_to_string(format!("{root}/{path}")).unwrap()
}

#[test]
fn header_has_every_reason_in_the_same_words() {
    let header = text("include/asdf_layout.h");
    let (_, after) = header.split_once("enum asdf_refusal {").unwrap();
    let (found, _) = after.split_once("};").unwrap();
    let spaced = |line: &str| line.split_whitespace().collect::<Vec<_>>().join(" ");
    let found: Vec<String> = found.trim().lines().map(spaced).collect();
    let expected: Vec<String> = REASONS
        .iter()
        .map(|reason| {
            let comma = if reason.number == 24 { "" } else { "," };
            let (name, number, words) = (reason.name, reason.number, reason.words);
            format!("ASDF_{name} = {number}{comma} /* {words} */")
        })
        .collect();
    assert_eq!(found, expected);
}

#[test]
fn every_reason_is_documented() {
    let documented = text("docs/REFUSALS.md");
    for reason in REASONS {
        let row = format!("\n| {} | ", reason.number);
        assert!(documented.contains(&row), "{}", reason.number);
    }
    assert!(!documented.contains(&format!("\n| {} | ", REASONS.len() + 1)));
}

#[test]
fn header_names_every_number_of_a_result() {
    let header = text("include/asdf_layout.h");
    let results = [
        ("layout", "LAYOUT_LINE_END", asdf_sys::LAYOUT_NUMBERS),
        ("block", "BLOCK_CHECKSUM_LOW", asdf_sys::BLOCK_NUMBERS),
        ("row", "ROW_INNER", asdf_sys::ROW_NUMBERS),
    ];
    for (result, last, count) in results {
        let begin = format!("enum asdf_{result}_number {{");
        let (_, after) = header.split_once(&begin).unwrap();
        let (found, _) = after.split_once("};").unwrap();
        let names: Vec<&str> = found
            .lines()
            .filter_map(|line| line.trim().strip_prefix("ASDF_"))
            .collect();
        assert_eq!(names.len(), count, "{result}");
        assert!(names[count - 1].starts_with(last), "{result}");
    }
}

#[test]
fn header_says_the_same_sizes() {
    let header = text("include/asdf_layout.h");
    let sizes = [
        (
            "LAYOUT_BYTES",
            asdf_sys::LAYOUT_NUMBERS * asdf_sys::NUMBER_BYTES,
        ),
        (
            "BLOCK_BYTES",
            asdf_sys::BLOCK_NUMBERS * asdf_sys::NUMBER_BYTES,
        ),
        (
            "RECORD_BYTES",
            asdf_sys::RECORD_NUMBERS * asdf_sys::NUMBER_BYTES,
        ),
        ("ROW_BYTES", asdf_sys::ROW_BYTES),
        (
            "STORED_ROW_BYTES",
            asdf_sys::ROW_NUMBERS * asdf_sys::NUMBER_BYTES,
        ),
        ("LONGEST_INDEX", asdf_sys::LONGEST_INDEX),
    ];
    for (name, size) in sizes {
        assert!(
            header.contains(&format!("#define ASDF_{name} {size}\n")),
            "{name}"
        );
    }
}
