//! What the tests of the exported functions share.

use asdf_harness::calls::exports;
use asdf_harness::calls::numbers::LAYOUT_NUMBERS;
use asdf_harness::files::nests::file_of;

/// What every lent buffer holds before a call.
const UNTOUCHED: u8 = 0xA5;
/// The length of every lent buffer.
const LENT: usize = 100;
/// The length of a number in bytes.
const NUMBER: usize = 8;
/// The words for the verdicts on an index, in the order of their numbers.
const VERDICTS: [&str; 4] = ["absent", "good", "ignored-form", "ignored-list"];

/// The file with one empty block: 66 bytes.
pub fn one_block() -> Vec<u8> {
    file_of([&b""[..]])
}

/// The numbers of a file's layout.
pub fn layout(file: &[u8]) -> [u64; LAYOUT_NUMBERS] {
    numbers(|out| exports::read(file, out))
}

/// The verdict on the index of a file.
pub fn verdict(file: &[u8]) -> &'static str {
    let [.., verdict, _line_end] = layout(file);
    VERDICTS[verdict as usize]
}

/// A lent buffer that begins with these bytes.
fn beginning(bytes: &[u8]) -> [u8; LENT] {
    let mut buffer = [UNTOUCHED; LENT];
    buffer[..bytes.len()].copy_from_slice(bytes);
    buffer
}

/// Asks a writer, which has to write these bytes and nothing else.
pub fn assert_writes(ask: impl FnOnce(&mut [u8]) -> u64, expected: &[u8]) {
    let mut buffer = [UNTOUCHED; LENT];
    assert_eq!(ask(&mut buffer), expected.len() as u64);
    assert_eq!(buffer, beginning(expected));
}

/// Asks a writer, which has to write `N` numbers.
pub fn numbers<const N: usize>(ask: impl FnOnce(&mut [u8]) -> u64) -> [u64; N] {
    let mut bytes = vec![UNTOUCHED; N * NUMBER];
    assert_eq!(ask(&mut bytes), bytes.len() as u64);
    let mut numbers = bytes.chunks(NUMBER);
    [(); N].map(|()| u64::from_be_bytes(numbers.next().unwrap().try_into().unwrap()))
}
