//! Tests the outline, written from files and read when stored: refusals 21, 23 and 24.

mod common;

use asdf_second::*;
use common::*;

/// Returns a stored row that is accepted anywhere: depth 0, H 48.
fn plain_row() -> [u8; 16] {
    [0, 0, 0, 48, 0, 0, 0, 0, 0, 0, 0, 0, 0, 0, 0, 0]
}

fn row_with(changes: &[(usize, u8)]) -> [u8; 16] {
    let mut row = plain_row();
    for &(at, byte) in changes {
        row[at] = byte;
    }
    row
}

fn written(file: &[u8]) -> Vec<u8> {
    let mut out = vec![0; most_rows(file.len()) * ROW_LENGTH];
    let length = outline(file, &mut out).unwrap();
    out.truncate(length);
    out
}

/// Returns one file with every inner state, a compressed block, a block with a checksum, and a
/// streamed last block.
fn varied_file() -> Vec<u8> {
    join(&[
        A,
        TREE,
        &wrapped_in_block(&wrapped(&b(), 8)),
        &block_of(b"zz").compression(b"zlib").data_size(900).bytes(),
        &block_of(b"cc")
            .checksum([0, 0, 0, 0, 0, 0, 0, 0, 0, 0, 0, 0, 0, 0, 0, 1])
            .bytes(),
        &block_of(b"#ASDF no").header_size(300).bytes(),
        &streamed(b"rest").bytes(),
    ])
}

fn wrapped_in_block(file: &[u8]) -> Vec<u8> {
    block_of(file).bytes()
}

#[test]
fn each_bit_has_its_place() {
    let parts = block_of(b"abc")
        .header_size(0x0102)
        .checksum([1; 16])
        .compression(b"zlib");
    let outer = written(&file_with(parts.clone()));
    assert_eq!(outer, [0x0C, 0, 1, 2, 0, 0, 0, 12, 0, 0, 0, 3, 0, 0, 0, 3]);
    assert_eq!(written(&file_with(parts.flags(1)))[0], 0x1C);
    assert_eq!(written(&file_with(streamed(b"")))[0], 0x10);
    assert_eq!(
        written(&file_with(block().compression(b"\0\0\0\x01")))[0],
        0x08
    );
    assert_eq!(written(&file_with(block().checksum([255; 16])))[0], 0x04);
    assert_eq!(written(&file_with(block_of(b"#ASDF x")))[0], 0x02);
    assert_eq!(written(&wrapped(&b(), 8))[7 * 16], 0xE3);
}

#[test]
fn rows_hold_ordinal_allocated_and_used() {
    let file = join(&[
        &file_of_blocks(63),
        &block_of(b"abcde").used(2).data_size(2).bytes(),
    ]);
    let last = &written(&file)[63 * 16..];
    let offset = (12 + 63 * 54u32).to_be_bytes();
    assert_eq!(last[..4], [0, 63, 0, 48]);
    assert_eq!(last[4..8], offset);
    assert_eq!(last[8..], [0, 0, 0, 5, 0, 0, 0, 2]);
}

#[test]
fn no_rows_is_an_empty_outline() {
    assert_eq!(outline(A, &mut []), Ok(0));
    let mut out = [7; 4];
    assert_eq!(outline(&join(&[A, TREE]), &mut out), Ok(0));
    assert_eq!(out, [7; 4]);
    assert_eq!(read_outline(b""), Ok(vec![]));
    assert_eq!(rewrite_outline(b"", &mut []), Ok(0));
}

#[test]
fn buffer_exact_longer_and_one_byte_short() {
    let file = wrapped(&b(), 1);
    let expected = written(&file);
    assert_eq!(expected.len(), 32);

    let mut exact = [7; 32];
    assert_eq!(outline(&file, &mut exact), Ok(32));
    assert_eq!(exact.as_slice(), expected);

    let mut longer = [7; 37];
    assert_eq!(outline(&file, &mut longer), Ok(32));
    assert_eq!(longer.as_slice(), join(&[&expected, &[7; 5]]));

    let mut short = [7; 31];
    assert_eq!(outline(&file, &mut short), Err(refusal(21, 0)));
    assert_eq!(short, [7; 31]);
}

#[test]
fn refused_file_changes_no_byte_and_comes_before_21() {
    let mut out = [7; 64];
    assert_eq!(
        outline(&join(&[&b(), b"x"]), &mut out),
        Err(refusal(17, 66))
    );
    assert_eq!(out, [7; 64]);
    assert_eq!(outline(&join(&[&b(), b"x"]), &mut []), Err(refusal(17, 66)));
}

#[test]
fn written_outlines_are_accepted_and_rewritten_the_same() {
    for file in [
        A.to_vec(),
        b(),
        t(),
        wrapped(&b(), 9),
        file_of_blocks(64),
        varied_file(),
    ] {
        let bytes = written(&file);
        assert_eq!(read_outline(&bytes), rows(&file));
        let mut again = vec![0; bytes.len()];
        assert_eq!(rewrite_outline(&bytes, &mut again), Ok(bytes.len()));
        assert_eq!(again, bytes);
    }
}

#[test]
fn varied_file_shows_every_inner_state() {
    let found = rows(&varied_file()).unwrap();
    let count = |kind| found.iter().filter(|row| row.inner == kind).count();
    assert_eq!(count(InnerKind::Opened), 7);
    assert_eq!(count(InnerKind::TooDeep), 1);
    assert_eq!(count(InnerKind::Refused), 1);
    assert_eq!(count(InnerKind::Plain), 3);
}

#[test]
fn length_not_divisible_by_16_is_refused_with_23() {
    let bad_row = row_with(&[(1, 64)]);
    for length in [1, 15, 17, 31] {
        let bytes = &[bad_row, bad_row].concat()[..length];
        assert_eq!(read_outline(bytes), Err(refusal(23, 0)), "{length} bytes");
        assert_eq!(rewrite_outline(bytes, &mut []), Err(refusal(23, 0)));
    }
}

#[test]
fn first_row_against_the_rules_is_refused_with_24_at_its_first_byte() {
    let bad_rows = [
        row_with(&[(1, 64)]),
        row_with(&[(1, 255)]),
        row_with(&[(3, 47)]),
        row_with(&[(3, 0)]),
        row_with(&[(15, 1)]),
        row_with(&[(11, 5), (15, 6)]),
        row_with(&[(0, 2 << 5)]),
        row_with(&[(0, 7 << 5)]),
    ];
    for bad in bad_rows {
        assert_eq!(read_outline(&bad), Err(refusal(24, 0)), "{bad:?}");
        let bytes = [plain_row(), bad, bad].concat();
        assert_eq!(read_outline(&bytes), Err(refusal(24, 16)), "{bad:?}");
        assert_eq!(
            rewrite_outline(&bytes, &mut []),
            Err(refusal(24, 16)),
            "{bad:?}"
        );
    }
}

#[test]
fn rows_at_the_limits_are_accepted() {
    let bytes = [
        row_with(&[(1, 63)]),
        row_with(&[(11, 5), (15, 5)]),
        row_with(&[(2, 255), (3, 255), (8, 255), (4, 255)]),
    ]
    .concat();
    let found = read_outline(&bytes).unwrap();
    assert_eq!(found[0].ordinal, 63);
    assert_eq!((found[1].allocated, found[1].used), (5, 5));
    assert_eq!(
        (found[2].header_size, found[2].offset),
        (65_535, Outermost(0xFF00_0000))
    );
}

#[test]
fn first_row_must_have_depth_0() {
    assert_eq!(read_outline(&row_with(&[(0, 1 << 5)])), Err(refusal(24, 0)));
}

#[test]
fn depth_grows_by_one_at_most_and_falls_freely() {
    let depths = |list: &[u8]| -> Vec<u8> {
        list.iter()
            .flat_map(|&depth| row_with(&[(0, depth << 5)]))
            .collect()
    };
    assert_eq!(
        read_outline(&depths(&[0, 1, 2, 3, 4, 5, 6, 7, 7, 3, 4, 0]))
            .unwrap()
            .len(),
        12
    );
    assert_eq!(read_outline(&depths(&[0, 1, 3])), Err(refusal(24, 32)));
    assert_eq!(
        read_outline(&depths(&[0, 1, 2, 0, 2])),
        Err(refusal(24, 64))
    );
}

#[test]
fn every_first_byte_of_depth_0_is_a_row_that_comes_back() {
    for first in 0..32 {
        let bytes = row_with(&[(0, first)]);
        let row = read_outline(&bytes).unwrap()[0];
        assert_eq!(row.streamed, first & 16 != 0);
        assert_eq!(row.compressed, first & 8 != 0);
        assert_eq!(row.checksum, first & 4 != 0);
        assert_eq!(row.inner as u8, first & 3);
        let mut again = [0; 16];
        assert_eq!(rewrite_outline(&bytes, &mut again), Ok(16));
        assert_eq!(again, bytes);
    }
}

#[test]
fn rewriting_needs_the_whole_length() {
    let bytes = [plain_row(), row_with(&[(0, 1 << 5)])].concat();
    let mut longer = [7; 33];
    assert_eq!(rewrite_outline(&bytes, &mut longer), Ok(32));
    assert_eq!(longer.as_slice(), join(&[&bytes, &[7]]));
    let mut short = [7; 31];
    assert_eq!(rewrite_outline(&bytes, &mut short), Err(refusal(21, 0)));
    assert_eq!(short, [7; 31]);
}
