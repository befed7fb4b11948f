//! Tests files inside blocks: inner states, depths, and offsets in the outermost file.

mod common;

use asdf_second::*;
use common::*;

#[test]
fn record_holds_everything_that_is_reported() {
    let inner_block = block_of(b"xyz").header_size(49).checksum([9; 16]).flags(8);
    let inner_file = join(&[A, b"#\n", &inner_block.bytes()]);
    let file = file_with(block_of(&inner_file));
    let found = records(&file).unwrap();
    assert_eq!(found.len(), 2);
    let outer = Block {
        ordinal: 0,
        offset: InFile(12),
        header_size: 48,
        flags: 0,
        compression: [0; 4],
        allocated: inner_file.len() as u32,
        used: inner_file.len() as u32,
        data_size: inner_file.len() as u64,
        checksum: [0; 16],
    };
    assert_eq!(
        found[0],
        Record {
            depth: 0,
            offset: Outermost(12),
            block: outer,
            inner: Inner::Opened
        }
    );
    let nested = Block {
        ordinal: 0,
        offset: InFile(14),
        header_size: 49,
        flags: 8,
        compression: [0; 4],
        allocated: 3,
        used: 3,
        data_size: 3,
        checksum: [9; 16],
    };
    assert_eq!(
        found[1],
        Record {
            depth: 1,
            offset: Outermost(66 + 14),
            block: nested,
            inner: Inner::Plain
        }
    );
}

#[test]
fn content_that_does_not_begin_like_a_file_is_plain() {
    for content in [
        &b""[..],
        b"#ASDF",
        b"x#ASDF 1.0.0\n",
        b"#ASDF\n1.0.0\n",
        b"#asdf 1.0.0\n",
    ] {
        assert_eq!(inner_of(block_of(content)), Inner::Plain, "{content:?}");
    }
}

#[test]
fn compressed_content_is_plain() {
    assert_eq!(inner_of(block_of(A).compression(b"zlib")), Inner::Plain);
    assert_eq!(inner_of(streamed(A).compression(b"zlib")), Inner::Plain);
}

#[test]
fn file_in_a_block_is_opened() {
    assert_eq!(inner_of(block_of(A)), Inner::Opened);
    assert_eq!(inner_of(block_of(A).flags(0xFFFF_FFFE)), Inner::Opened);
    assert_eq!(inner_of(block_of(A).header_size(70)), Inner::Opened);
    assert_eq!(inner_of(streamed(A)), Inner::Opened);
}

#[test]
fn only_the_used_part_is_the_inner_file() {
    let content = join(&[A, b"stray"]);
    assert_eq!(inner_of(block_of(&content)), Inner::Refused(refusal(7, 12)));
    assert_eq!(
        inner_of(block_of(&content).used(12).data_size(12)),
        Inner::Opened
    );
    assert_eq!(
        inner_of(block_of(A).used(6).data_size(6)),
        Inner::Refused(refusal(3, 6))
    );
    assert_eq!(inner_of(block_of(A).used(5).data_size(5)), Inner::Plain);
}

#[test]
fn inner_place_counts_from_the_inner_file() {
    let bad = join(&[A, &block().bytes(), &block().used(1).bytes()]);
    let file = join(&[
        A,
        TREE,
        b"    ",
        &block_of(b"pad").bytes(),
        &block_of(&bad).bytes(),
    ]);
    let found = records(&file).unwrap();
    assert_eq!(found[0].inner, Inner::Plain);
    assert_eq!(found[1].inner, Inner::Refused(refusal(13, 66)));
    assert_eq!(found[1].offset, Outermost(12 + 18 + 4 + 57));
}

#[test]
fn refused_inner_file_adds_no_rows_and_does_not_refuse_the_outer() {
    let bad = join(&[A, &block_of(&b()).bytes(), b"stray"]);
    let file = join(&[A, &block_of(&bad).bytes(), &block_of(&b()).bytes()]);
    let found = rows(&file).unwrap();
    let seen: Vec<_> = found
        .iter()
        .map(|row| (row.depth, row.ordinal, row.inner))
        .collect();
    assert_eq!(
        seen,
        [
            (0, 0, InnerKind::Refused),
            (0, 1, InnerKind::Opened),
            (1, 0, InnerKind::Plain)
        ]
    );
}

#[test]
fn refused_file_two_deep_leaves_the_one_around_it_opened() {
    let bad = join(&[A, b"x"]);
    let file = file_with(block_of(&file_with(block_of(&bad))));
    let found = records(&file).unwrap();
    assert_eq!(found[0].inner, Inner::Opened);
    assert_eq!(found[1].inner, Inner::Refused(refusal(7, 12)));
    assert_eq!(found.len(), 2);
}

#[test]
fn every_number_from_3_to_17_can_refuse_an_inner_file() {
    for (content, expected) in refused_files() {
        assert_eq!(read(&content), Err(expected));
        assert_eq!(inner_of(block_of(&content)), Inner::Refused(expected));
        assert_eq!(inner_of(streamed(&content)), Inner::Refused(expected));
    }
}

#[test]
fn walking_order_is_block_then_its_inner_blocks_then_the_next() {
    let two = file_of_blocks(2);
    let file = join(&[
        A,
        &block_of(&two).bytes(),
        &block_of(b"x").bytes(),
        &block_of(&two).bytes(),
    ]);
    let found = rows(&file).unwrap();
    let seen: Vec<_> = found
        .iter()
        .map(|row| (row.depth, row.ordinal, row.offset.0))
        .collect();
    let inner = 120;
    let third = 12 + 54 + inner + 55;
    assert_eq!(
        seen,
        [
            (0, 0, 12),
            (1, 0, 66 + 12),
            (1, 1, 66 + 66),
            (0, 1, 12 + 54 + inner),
            (0, 2, third),
            (1, 0, third + 54 + 12),
            (1, 1, third + 54 + 66),
        ]
    );
    assert_eq!(row_count(&file), Ok(7));
}

#[test]
fn streamed_inner_block_ends_with_its_own_file() {
    let inner = file_with(streamed(b"abc"));
    let file = join(&[A, &block_of(&inner).bytes(), &block().bytes()]);
    let found = rows(&file).unwrap();
    assert_eq!(found.len(), 3);
    assert!(found[1].streamed);
    assert_eq!((found[1].allocated, found[1].used), (3, 3));
    assert_eq!(found[2].depth, 0);
}

#[test]
fn index_of_an_inner_file_counts_in_that_file() {
    let inner = join(&[&b(), &index_of("12")]);
    assert_eq!(read(&inner).unwrap().index, Verdict::Good);
    let file = file_with(block_of(&inner));
    assert_eq!(records(&file).unwrap()[0].inner, Inner::Opened);
    let spoiled = join(&[&b(), &index_of("078")]);
    assert_eq!(inner_of(block_of(&spoiled)), Inner::Opened);
}

#[test]
fn depth_7_is_read_and_depth_8_is_too_deep() {
    let seven = records(&wrapped(&b(), 7)).unwrap();
    assert_eq!(seven.len(), 8);
    assert_eq!(seven[6].inner, Inner::Opened);
    assert_eq!((seven[7].depth, seven[7].inner), (7, Inner::Plain));
    assert_eq!(seven[7].offset, Outermost(7 * 66 + 12));

    let eight = records(&wrapped(&b(), 8)).unwrap();
    assert_eq!(eight.len(), 8);
    assert_eq!(eight[6].inner, Inner::Opened);
    assert_eq!((eight[7].depth, eight[7].inner), (7, Inner::TooDeep));
}

#[test]
fn too_deep_is_said_without_reading_the_file() {
    let broken = wrapped(b"#ASDF broken", 8);
    assert_eq!(records(&broken).unwrap()[7].inner, Inner::TooDeep);
    let one_less = wrapped(b"#ASDF broken", 7);
    assert_eq!(
        records(&one_less).unwrap()[6].inner,
        Inner::Refused(refusal(3, 6))
    );
}

#[test]
fn compressed_block_at_depth_7_is_plain() {
    let deepest = file_with(block_of(A).compression(b"zlib"));
    let found = records(&wrapped(&deepest, 7)).unwrap();
    assert_eq!((found[7].depth, found[7].inner), (7, Inner::Plain));
}

#[test]
fn read_opens_nothing() {
    let layout = read(&wrapped(&b(), 3)).unwrap();
    assert_eq!(layout.blocks.len(), 1);
}

#[test]
fn refused_outermost_file_has_no_records() {
    let file = join(&[&b(), b"x"]);
    assert_eq!(records(&file), Err(refusal(17, 66)));
    assert_eq!(rows(&file), Err(refusal(17, 66)));
    assert_eq!(row_count(&file), Err(refusal(17, 66)));
}
