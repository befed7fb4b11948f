//! Compares the proved functions with the second program on one file. `nest` compares what concerns
//! the files inside it, and the index.

use super::asked::{compare_numbered, Asked};
use super::nest;
use crate::answers::file::Answers;
use crate::calls::exports;
use crate::calls::kinds::{Calls, Function};
use crate::calls::numbers::{block_numbers, bytes_of, layout_numbers};
use crate::calls::returned::Expected;

/// Ordinals that no block has. Cut to fewer bits, some of them would be the ordinal of a block.
/// Read as signed numbers, the last two would be below every ordinal.
const FAR_ORDINALS: [u64; 6] = [64, 1 << 8, 1 << 16, 1 << 32, 1 << 63, u64::MAX];

/// Fails if a proved function answers differently from the second program, and says where.
pub fn compare(file: &[u8], answers: &Answers, calls: &mut Calls) -> Result<(), String> {
    let layout = Asked::new(Function::Read, expected_layout(answers), file.len());
    layout.compare(|out| exports::read(file, out), calls)?;
    compare_numbered(
        Function::Block,
        ordinals(answers.blocks().len()),
        file.len(),
        |ordinal| expected_block(answers, ordinal),
        |ordinal, out| exports::block(file, ordinal, out),
        calls,
    )?;
    nest::compare(file, answers, calls)
}

/// The ordinal of each block, the two ordinals after the last, and far higher ones.
fn ordinals(blocks: usize) -> impl Iterator<Item = u64> {
    (0..=blocks as u64 + 1).chain(FAR_ORDINALS)
}

/// The bytes of the layout according to the second program.
fn expected_layout(answers: &Answers) -> Expected {
    let layout = answers.layout.as_ref();
    layout
        .map(|layout| bytes_of(&layout_numbers(layout)))
        .map_err(|&refusal| refusal)
}

/// The bytes of a block according to the second program. There are none if there is no such block.
fn expected_block(answers: &Answers, ordinal: u64) -> Expected {
    let layout = answers.layout.as_ref().map_err(|&refusal| refusal)?;
    let mut blocks = layout.blocks.iter();
    let block = blocks.find(|block| u64::from(block.ordinal) == ordinal);
    Ok(block.map_or(Vec::new(), |block| bytes_of(&block_numbers(block))))
}

#[cfg(test)]
mod tests {
    use super::*;

    const FILE: &[u8] = b"#ASDF 1.0.0\n";

    #[test]
    fn answers_to_a_file_and_a_refused_one_are_the_same() {
        for file in [FILE, b"", b"#ASDF 2.0.0\n"] {
            let compared = compare(file, &Answers::to(file), &mut Calls::new());
            assert_eq!(compared, Ok(()));
        }
    }

    #[test]
    fn answers_to_another_file_are_found_out() {
        for (file, other) in [(FILE, &b""[..]), (b"", FILE), (FILE, b"#ASDF 1.0.1\n")] {
            assert!(compare(file, &Answers::to(other), &mut Calls::new()).is_err());
        }
    }
}
