//! Runs the proved functions on both line ends of a header, and compares exact bytes. The lines of
//! a written index end like the header.

mod common;

use asdf_harness::calls::exports;
use asdf_harness::calls::numbers::LAYOUT_BYTES;
use asdf_harness::files::sparse::SparseFile;
use asdf_harness::format::block::block_header;
use asdf_harness::format::limits::MOST_BLOCKS;
use asdf_harness::format::text::{HEADER_LINE, LEAST_TREE};
use common::{assert_writes, layout, one_block, verdict};

/// A header line that ends with 0D 0A: 13 bytes.
const DOS_HEADER: &[u8] = b"#ASDF 1.0.0\r\n";
/// The numbers of the two line ends.
const LF: u64 = 0;
const CRLF: u64 = 1;
/// What a lent buffer holds before a call.
const UNTOUCHED: u8 = 0xA5;
/// What is returned if a buffer is too short, and if there can be no index.
const TOO_SHORT: u64 = 21 << 56;
const NO_INDEX: u64 = 22 << 56;
/// What is returned for a malformed version line.
const MALFORMED: u64 = (3 << 56) + 6;

/// A file that consists of `front` and an empty block.
fn with_block(front: &[u8]) -> Vec<u8> {
    [front, &block_header(0, 0)].concat()
}

/// The smallest file with a block and a header that ends with 0D 0A.
fn dos_block() -> Vec<u8> {
    with_block(DOS_HEADER)
}

/// An index with this list. Its lines end with 0A.
fn index(list: &str) -> Vec<u8> {
    format!("#ASDF BLOCK INDEX\n%YAML 1.1\n--- [{list}]\n...\n").into_bytes()
}

/// The same index with lines that end with 0D 0A.
fn dos_index(list: &str) -> Vec<u8> {
    format!("#ASDF BLOCK INDEX\r\n%YAML 1.1\r\n--- [{list}]\r\n...\r\n").into_bytes()
}

/// A header line, the function that makes an index with the same line end, and the length of an
/// index.
type Kind = (&'static [u8], fn(&str) -> Vec<u8>, usize);

/// The places of 64 empty blocks that follow one another from `first` on.
fn places_from(first: usize) -> Vec<usize> {
    let length = block_header(0, 0).len();
    (0..MOST_BLOCKS)
        .map(|block| first + block * length)
        .collect()
}

/// These places as the list of an index.
fn list_of(places: &[usize]) -> String {
    let numbers: Vec<String> = places.iter().map(usize::to_string).collect();
    numbers.join(", ")
}

/// The number of the line end of the header, which is the last number of the layout.
fn line_end(file: &[u8]) -> u64 {
    let [.., line_end] = layout(file);
    line_end
}

/// Asserts that the index of a file is this text, and that it is good after the last block. The
/// file has to end with this block.
fn assert_index(file: &[u8], text: &[u8]) {
    assert_writes(|out| exports::index(file, out), text);
    assert_eq!(verdict(&[file, text].concat()), "good");
}

#[test]
fn index_of_a_dos_file_ends_its_four_lines_with_0d_0a() {
    let file = dos_block();
    assert_eq!(line_end(&file), CRLF);
    let text = dos_index("13");
    assert_eq!(text.len(), 45);
    assert_index(&file, &text);
    let indexed = [file, text].concat();
    assert_eq!(layout(&indexed), [1, 0, 0, 13, 13, 0, 0, 0, 0, 1, 1, CRLF]);
}

#[test]
fn line_end_of_a_header_alone_is_reported() {
    assert_eq!(line_end(HEADER_LINE), LF);
    assert_eq!(line_end(DOS_HEADER), CRLF);
    assert_eq!(line_end(&one_block()), LF);
}

#[test]
fn lines_after_a_header_of_0d_0a_do_not_count() {
    let file = with_block(&[DOS_HEADER, b"#xx\n"].concat());
    assert_index(&file, &dos_index("17"));
    let file = with_block(&[DOS_HEADER, b"#xx\n", LEAST_TREE].concat());
    assert_index(&file, &dos_index("35"));
}

#[test]
fn lines_after_a_header_of_0a_do_not_count() {
    let lines = b"#xx\r\n%YAML 1.1\r\n---\r\n...\r\n";
    let file = with_block(&[HEADER_LINE, &lines[..]].concat());
    assert_eq!(line_end(&file), LF);
    assert_index(&file, &index("38"));
}

#[test]
fn an_old_index_does_not_count() {
    let file = [dos_block(), index("13")].concat();
    assert_eq!((line_end(&file), verdict(&file)), (CRLF, "good"));
    assert_writes(|out| exports::index(&file, out), &dos_index("13"));
    let file = [one_block(), dos_index("12")].concat();
    assert_eq!((line_end(&file), verdict(&file)), (LF, "good"));
    assert_writes(|out| exports::index(&file, out), &index("12"));
}

#[test]
fn only_the_outermost_header_counts() {
    let inside = |header: &[u8], inner: &[u8]| {
        let block = block_header(0, inner.len() as u64);
        [header, &block, inner].concat()
    };
    let file = inside(DOS_HEADER, &one_block());
    assert_eq!((exports::count(&file), line_end(&file)), (2, CRLF));
    assert_index(&file, &dos_index("13"));
    let file = inside(HEADER_LINE, &dos_block());
    assert_eq!((exports::count(&file), line_end(&file)), (2, LF));
    assert_index(&file, &index("12"));
}

#[test]
fn two_0d_are_no_line_end() {
    let file = with_block(b"#ASDF 1.0.0\r\r\n");
    assert_eq!(exports::read(&file, &mut [0; LAYOUT_BYTES]), MALFORMED);
    assert_eq!(exports::index(&file, &mut [0; 100]), MALFORMED);
}

#[test]
fn a_0d_alone_is_no_line_end() {
    let file = with_block(b"#ASDF 1.0.0\r");
    assert_eq!(exports::read(&file, &mut [0; LAYOUT_BYTES]), MALFORMED);
}

#[test]
fn index_of_64_blocks_has_404_bytes_with_0d_0a_and_400_with_0a() {
    let kinds: [Kind; 2] = [(DOS_HEADER, dos_index, 404), (HEADER_LINE, index, 400)];
    for (header, index, length) in kinds {
        let file = [header, &block_header(0, 0).repeat(MOST_BLOCKS)].concat();
        let text = index(&list_of(&places_from(header.len())));
        assert_eq!(text.len(), length);
        assert_written_exactly(&file, &text);
    }
}

/// Asserts that a file has this index, whatever buffer is lent for it.
fn assert_written_exactly(file: &[u8], text: &[u8]) {
    for lent in 0..text.len() + 3 {
        assert_written(file, text, lent);
    }
}

/// Asserts that a file has this index if a buffer of `lent` bytes is lent. If the index fits, the
/// bytes after it must not change. Otherwise it is refused with 21 and no byte may change.
fn assert_written(file: &[u8], text: &[u8], lent: usize) {
    let mut buffer = vec![UNTOUCHED; lent];
    let returned = exports::index(file, &mut buffer);
    if lent < text.len() {
        assert_eq!((returned, buffer), (TOO_SHORT, vec![UNTOUCHED; lent]));
    } else {
        let after = vec![UNTOUCHED; lent - text.len()];
        assert_eq!(returned, text.len() as u64);
        assert_eq!(buffer, [text, &after].concat());
    }
}

#[test]
fn buffer_of_44_bytes_is_too_short_for_an_index_of_45() {
    assert_written_exactly(&dos_block(), &dos_index("13"));
    assert_written_exactly(&one_block(), &index("12"));
}

#[test]
fn no_block_and_a_streamed_one_have_no_index() {
    let streamed = [DOS_HEADER, &block_header(1, 0)].concat();
    for file in [DOS_HEADER, &streamed] {
        assert_eq!(line_end(file), CRLF);
        let mut buffer = [UNTOUCHED; 100];
        assert_eq!(exports::index(file, &mut buffer), NO_INDEX);
        assert_eq!(exports::index(file, &mut []), NO_INDEX);
        assert_eq!(buffer, [UNTOUCHED; 100]);
    }
}

#[test]
fn longest_index_has_809_bytes_with_0d_0a_and_805_with_0a() {
    let places = places_from(1_000_000_000);
    let block = block_header(0, 0);
    let kinds: [Kind; 2] = [(DOS_HEADER, dos_index, 809), (HEADER_LINE, index, 805)];
    for (header, index, length) in kinds {
        let front = [header, LEAST_TREE].concat();
        let mut parts = vec![(0, &front[..])];
        parts.extend(places.iter().map(|&place| (place, &block[..])));
        let end = places[MOST_BLOCKS - 1] + block.len();
        let file = SparseFile::new(end, &parts).unwrap();
        let text = index(&list_of(&places));
        assert_eq!(text.len(), length);
        assert_written(&file, &text, length);
        assert_written(&file, &text, 809);
        assert_written(&file, &text, length - 1);
    }
}

#[test]
fn layout_takes_96_bytes_and_88_are_too_few() {
    assert_eq!(LAYOUT_BYTES, 96);
    for lent in [0, 8, 87, 88, 95] {
        let mut buffer = vec![UNTOUCHED; lent];
        assert_eq!(exports::read(DOS_HEADER, &mut buffer), TOO_SHORT);
        assert_eq!(buffer, vec![UNTOUCHED; lent]);
    }
    let numbers: [u64; 12] = [1, 0, 0, 13, 13, 0, 0, 0, 0, 0, 0, CRLF];
    let bytes = numbers.map(u64::to_be_bytes).concat();
    assert_writes(|out| exports::read(DOS_HEADER, out), &bytes);
}

#[test]
fn an_edit_keeps_the_line_end_of_the_header() {
    let texts: [&[u8]; 2] = [b"%YAML 1.1\n---\n...\n", b"%YAML 1.1\r\n---\r\n...\r\n"];
    for (header, kind) in [(HEADER_LINE, LF), (DOS_HEADER, CRLF)] {
        for text in texts {
            let mut file = with_block(&[header, LEAST_TREE, b"free space"].concat());
            let before = layout(&file);
            assert_eq!(exports::edit(&mut file, text), 0);
            let after = layout(&file);
            assert_eq!((after[3], after[11]), (before[3], kind));
            assert_eq!(before[11], kind);
        }
    }
}
