//! Writes files and what the second program reports about them, for a reader that runs elsewhere.

use crate::calls::numbers::{block_numbers, layout_numbers};
use crate::generate::corpus::numbered_file;
use asdf_second::{read, Block, Layout, PROGRAM_LIMIT};
use std::fs::{create_dir_all, File};
use std::io::{self, BufWriter, Write};
use std::path::Path;

/// Writes `in`, with each file after its length, and `out`, with a line for each file.
pub fn dump(seed: u64, count: u64, directory: &Path) -> io::Result<()> {
    create_dir_all(directory)?;
    let mut input = BufWriter::new(File::create(directory.join("in"))?);
    let mut output = BufWriter::new(File::create(directory.join("out"))?);
    for file in (0..count).map(|number| numbered_file(seed, number)) {
        if file.len() <= PROGRAM_LIMIT {
            input.write_all(&(file.len() as u64).to_be_bytes())?;
            input.write_all(&file)?;
            writeln!(output, "{}", answer_text(&file))?;
        }
    }
    input.flush()?;
    output.flush()
}

/// What is reported about a file, in one line.
fn answer_text(file: &[u8]) -> String {
    match read(file) {
        Err(refusal) => format!("{refusal} "),
        Ok(layout) => layout_text(&layout),
    }
}

/// A layout with its blocks. If there is no tree, one word replaces its numbers.
fn layout_text(layout: &Layout) -> String {
    let [front @ .., _, start, end, room_end, count, verdict, line_end] = layout_numbers(layout);
    let tree = match layout.tree {
        None => "none ".to_string(),
        Some(_) => words(&[start, end, room_end]),
    };
    let blocks: String = layout.blocks.iter().map(block_text).collect();
    let (front, back) = (words(&front), words(&[count, verdict, line_end]));
    format!("{front}{tree}{back}{blocks}nomore")
}

/// A block, after a bar.
fn block_text(block: &Block) -> String {
    format!("| {}", words(&block_numbers(block)))
}

/// Numbers, each with a space after it.
fn words(numbers: &[u64]) -> String {
    numbers.iter().map(|number| format!("{number} ")).collect()
}

#[cfg(test)]
mod tests {
    use super::*;

    #[test]
    fn refusal_and_layout_are_one_line_each() {
        assert_eq!(answer_text(b""), "refused 2 0 ");
        assert_eq!(
            answer_text(b"#ASDF 1.2.3\n"),
            "1 2 3 12 12 none 0 0 0 nomore"
        );
        let tree = b"#ASDF 1.0.0\r\n#\n%YAML 1.1\n---\n...\n  ";
        assert_eq!(answer_text(tree), "1 0 0 13 15 15 33 35 0 0 1 nomore");
    }

    #[test]
    fn each_block_is_told_with_all_its_fields() {
        let mut file = b"#ASDF 1.0.0\n\xD3BLK\0\x30\0\0\x01\0\0\0\0\x01".to_vec();
        file.extend([0u64, 0, 9, 5, 6].map(u64::to_be_bytes).concat());
        assert_eq!(
            answer_text(&file),
            "1 0 0 12 12 none 1 0 0 | 0 12 48 256 1 0 0 9 5 6 nomore"
        );
    }
}
