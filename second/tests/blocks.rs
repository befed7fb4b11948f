//! Tests blocks, the chain and the tail: refusals 11 to 17. Space between blocks is tested in
//! gaps.rs.

mod common;

use asdf_second::*;
use common::*;

fn refused(file: &[u8]) -> Refusal {
    read(file).unwrap_err()
}

/// Returns the only block of a file that is A and this block.
fn only_block(parts: BlockParts) -> Block {
    let blocks = read(&file_with(parts)).unwrap().blocks;
    assert_eq!(blocks.len(), 1);
    blocks[0]
}

#[test]
fn every_field_is_reported() {
    let checksum = *b"0123456789abcdef";
    let parts = block()
        .header_size(50)
        .flags(0xFFFF_FFFE)
        .compression(b"zlib")
        .allocated(7)
        .used(5)
        .data_size(0x0102_0304_0506_0708)
        .checksum(checksum)
        .after_header(b"contents");
    let found = only_block(BlockParts::clone(&parts).after_header(b"content"));
    let expected = Block {
        ordinal: 0,
        offset: InFile(12),
        header_size: 50,
        flags: 0xFFFF_FFFE,
        compression: *b"zlib",
        allocated: 7,
        used: 5,
        data_size: 0x0102_0304_0506_0708,
        checksum,
    };
    assert_eq!(found, expected);
    assert!(!found.is_streamed() && found.is_compressed() && found.has_checksum());
    assert_eq!(refused(&file_with(parts)), refusal(17, 12 + 56 + 7));
}

#[test]
fn fewer_than_six_bytes_are_refused_with_11() {
    for left in 4..6 {
        assert_eq!(
            refused(&b()[..12 + left]),
            refusal(11, 12),
            "{left} bytes left"
        );
    }
}

#[test]
fn small_header_size_comes_before_a_header_that_passes_the_end() {
    let file = file_with(block().header_size(47));
    for left in [6, 20, 52, 54] {
        assert_eq!(
            refused(&file[..12 + left]),
            refusal(12, 12),
            "{left} bytes left"
        );
    }
    assert_eq!(refused(&file_with(block().header_size(0))), refusal(12, 12));
}

#[test]
fn header_sizes_from_48_on_are_accepted() {
    assert_eq!(only_block(block().header_size(48)).header_size, 48);
    assert_eq!(only_block(block().header_size(49)).header_size, 49);
    assert_eq!(only_block(block().header_size(65_535)).header_size, 65_535);
}

#[test]
fn header_that_passes_the_end_is_refused_with_11() {
    for header_size in [48, 49, 300, 65_535] {
        let file = file_with(block().header_size(header_size).used(9));
        let cut = &file[..file.len() - 1];
        assert_eq!(refused(cut), refusal(11, 12), "H {header_size}");
    }
}

#[test]
fn used_equal_to_allocated_is_accepted_and_one_above_is_refused_with_13() {
    let parts = block_of(b"abcd");
    assert_eq!(only_block(parts.clone()).used, 4);
    assert_eq!(
        refused(&file_with(parts.used(5).data_size(5))),
        refusal(13, 12)
    );
}

#[test]
fn used_below_allocated_is_accepted() {
    let found = only_block(block_of(b"abcd").used(3).data_size(3));
    assert_eq!((found.allocated, found.used, found.data_size), (4, 3, 3));
}

#[test]
fn other_data_size_without_compression_is_refused_with_14() {
    assert_eq!(
        refused(&file_with(block_of(b"abcd").data_size(5))),
        refusal(14, 12)
    );
    assert_eq!(
        refused(&file_with(block_of(b"abcd").data_size(3))),
        refusal(14, 12)
    );
    assert_eq!(
        only_block(block_of(b"abcd").data_size(5).compression(b"bzp2")).data_size,
        5
    );
    assert_eq!(
        only_block(block_of(b"abcd").data_size(5).compression(b"\0\0\0x")).data_size,
        5
    );
}

#[test]
fn allocated_space_that_passes_the_end_is_refused_with_15() {
    assert_eq!(
        refused(&file_with(block_of(b"abcd").sizes(5))),
        refusal(15, 12)
    );
    assert_eq!(
        refused(&file_with(block_of(b"abcd").allocated(5))),
        refusal(15, 12)
    );
    assert_eq!(refused(&file_with(block().sizes(1))), refusal(15, 12));
}

#[test]
fn sizes_are_judged_in_the_order_13_14_15() {
    assert_eq!(
        refused(&file_with(block().allocated(8).used(9).data_size(1))),
        refusal(13, 12)
    );
    assert_eq!(
        refused(&file_with(block().allocated(9).used(9).data_size(1))),
        refusal(14, 12)
    );
    assert_eq!(
        refused(&file_with(block().allocated(9).used(9).data_size(9))),
        refusal(15, 12)
    );
}

#[test]
fn sizes_of_all_ff_are_refused_each_in_its_way() {
    let ff = u64::MAX;
    assert_eq!(refused(&file_with(block().allocated(ff))), refusal(15, 12));
    assert_eq!(refused(&file_with(block().used(ff))), refusal(13, 12));
    assert_eq!(refused(&file_with(block().data_size(ff))), refusal(14, 12));
    assert_eq!(refused(&file_with(block().sizes(ff))), refusal(15, 12));
    assert_eq!(
        refused(&file_with(block().allocated(ff).used(ff))),
        refusal(14, 12)
    );
    assert_eq!(
        only_block(block().data_size(ff).compression(b"zlib")).data_size,
        ff
    );
}

#[test]
fn sizes_that_would_wrap_back_into_the_file_are_refused_with_15() {
    for wrapping in [
        u64::MAX - 65,
        u64::MAX - 11,
        1 << 32,
        (1 << 32) - 66,
        1 << 63,
    ] {
        let file = file_with(block().allocated(wrapping));
        assert_eq!(refused(&file), refusal(15, 12), "{wrapping}");
    }
}

#[test]
fn streamed_block_ignores_its_sizes() {
    let ff = u64::MAX;
    let plain = streamed(b"abc");
    for parts in [
        plain.clone(),
        plain.clone().allocated(ff),
        plain.clone().used(ff),
        plain.clone().data_size(ff),
        plain.clone().sizes(ff),
        plain.used(1),
    ] {
        let found = only_block(parts);
        assert_eq!((found.allocated, found.used, found.data_size), (3, 3, 3));
        assert!(found.is_streamed());
    }
}

#[test]
fn streamed_block_may_be_empty() {
    let found = only_block(streamed(b""));
    assert_eq!((found.allocated, found.used, found.flags), (0, 0, 1));
}

#[test]
fn streamed_block_can_be_refused_with_11_and_12_only() {
    let file = file_with(streamed(b"").sizes(u64::MAX));
    assert_eq!(refused(&file[..file.len() - 1]), refusal(11, 12));
    assert_eq!(
        refused(&file_with(streamed(b"").header_size(47))),
        refusal(12, 12)
    );
}

#[test]
fn streamed_block_takes_marks_indices_and_zeros_as_content() {
    let content = join(&[&block().bytes(), &index_of("12"), &[0; 9], b"stray"]);
    let layout = read(&file_with(streamed(&content))).unwrap();
    assert_eq!(layout.blocks.len(), 1);
    assert_eq!(layout.blocks[0].used as usize, content.len());
    assert_eq!(layout.index, Verdict::Absent);
}

#[test]
fn only_bit_0_means_streamed() {
    let found = only_block(block_of(b"abc").flags(0xFFFF_FFFE));
    assert!(!found.is_streamed());
    assert_eq!(only_block(streamed(b"abc").flags(0xFFFF_FFFF)).used, 3);
}

#[test]
fn next_block_may_begin_where_the_allocated_space_ends() {
    let first = block_of(b"abcdef").used(2).data_size(2).bytes();
    let second = block_of(b"gh").header_size(60).bytes();
    let third = streamed(b"ijk").bytes();
    let blocks = read(&join(&[A, &first, &second, &third])).unwrap().blocks;
    let found: Vec<_> = blocks
        .iter()
        .map(|block| (block.ordinal, block.offset.0))
        .collect();
    assert_eq!(found, [(0, 12), (1, 12 + 60), (2, 12 + 60 + 68)]);
}

#[test]
fn place_of_a_later_refusal_is_that_block() {
    let file = join(&[A, &block_of(b"abc").bytes(), &block().used(1).bytes()]);
    assert_eq!(refused(&file), refusal(13, 12 + 57));
}

#[test]
fn mark_in_unused_space_is_no_block() {
    let file = file_with(block_of(MARK).used(0).data_size(0));
    assert_eq!(read(&file).unwrap().blocks.len(), 1);
}

#[test]
fn blocks_64_are_accepted_and_a_65th_mark_is_refused_with_16() {
    let layout = read(&file_of_blocks(64)).unwrap();
    assert_eq!(layout.blocks.len(), 64);
    assert_eq!(layout.blocks[63].ordinal, 63);
    assert_eq!(refused(&file_of_blocks(65)), refusal(16, 12 + 64 * 54));
}

#[test]
fn mark_65_with_four_bytes_left_is_refused_with_16_and_with_three_17() {
    let full = file_of_blocks(64);
    assert_eq!(refused(&join(&[&full, MARK])), refusal(16, 12 + 64 * 54));
    assert_eq!(
        refused(&join(&[&full, &MARK[..3]])),
        refusal(17, 12 + 64 * 54)
    );
}

#[test]
fn mark_65_that_is_streamed_or_broken_is_refused_with_16() {
    let full = file_of_blocks(64);
    for last in [streamed(b"").bytes(), block().header_size(0).bytes()] {
        assert_eq!(refused(&join(&[&full, &last])), refusal(16, 12 + 64 * 54));
    }
}

#[test]
fn a_64th_block_may_be_streamed() {
    let layout = read(&join(&[&file_of_blocks(63), &streamed(MARK).bytes()])).unwrap();
    assert_eq!(layout.blocks.len(), 64);
    assert_eq!(layout.blocks[63].used, 4);
}

#[test]
fn tail_of_zeros_is_an_absent_index() {
    for zeros in [0, 1, 500] {
        let layout = read(&join(&[&b(), &vec![0; zeros]])).unwrap();
        assert_eq!(layout.index, Verdict::Absent, "{zeros} zeros");
    }
}

#[test]
fn stray_tail_is_refused_with_17_at_the_end_of_the_last_block() {
    let tails: [&[u8]; 7] = [
        b" ",
        b"\0\0x",
        b"\n",
        b"#ASDF BLOCK INDE",
        b"\0#ASDF BLOCK INDEX\n",
        &MARK[..3],
        b"#\n",
    ];
    for tail in tails {
        assert_eq!(refused(&join(&[&b(), tail])), refusal(17, 66), "{tail:?}");
    }
    let with_unused = file_with(block_of(b"abcd").used(1).data_size(1));
    assert_eq!(refused(&join(&[&with_unused, b"x"])), refusal(17, 70));
}
