//! What the second program reports, as the numbers that the proved functions put into a buffer.

use asdf_second::{Block, Inner, InnerKind, Layout, LineEnd, Record, Refusal, Row, Tree, Verdict};
pub use asdf_sys::{BLOCK_NUMBERS, LAYOUT_NUMBERS, NUMBER_BYTES, RECORD_NUMBERS, ROW_NUMBERS};

/// The length of a layout in bytes.
pub const LAYOUT_BYTES: usize = LAYOUT_NUMBERS * NUMBER_BYTES;

/// The numbers of a layout: version, end of the header, end of the comments, tree, number of
/// blocks, verdict, line end.
pub fn layout_numbers(layout: &Layout) -> [u64; LAYOUT_NUMBERS] {
    let version = layout.version;
    let [present, start, end, room_end] = tree_numbers(layout.tree);
    [
        version.major.into(),
        version.minor.into(),
        version.patch.into(),
        layout.header_end.0.into(),
        layout.comments.end.0.into(),
        present,
        start,
        end,
        room_end,
        layout.blocks.len() as u64,
        verdict_number(layout.index),
        line_end_number(layout.line_end),
    ]
}

/// Four numbers: whether there is a tree, its start, its end and the end of its room.
fn tree_numbers(tree: Option<Tree>) -> [u64; 4] {
    tree.map_or([0; 4], |tree| {
        [
            1,
            tree.start.0.into(),
            tree.end.0.into(),
            tree.room_end.0.into(),
        ]
    })
}

/// The number of a verdict.
fn verdict_number(verdict: Verdict) -> u64 {
    match verdict {
        Verdict::Absent => 0,
        Verdict::Good => 1,
        Verdict::IgnoredForm => 2,
        Verdict::IgnoredList => 3,
    }
}

/// The number of the line end of the header.
fn line_end_number(line_end: LineEnd) -> u64 {
    match line_end {
        LineEnd::Lf => 0,
        LineEnd::Crlf => 1,
    }
}

/// The numbers of a block, from its ordinal to the two halves of its checksum.
pub fn block_numbers(block: &Block) -> [u64; BLOCK_NUMBERS] {
    let checksum = u128::from_be_bytes(block.checksum);
    [
        block.ordinal.into(),
        block.offset.0.into(),
        block.header_size.into(),
        block.flags.into(),
        u32::from_be_bytes(block.compression).into(),
        block.allocated.into(),
        block.used.into(),
        block.data_size,
        (checksum >> 64) as u64,
        checksum as u64,
    ]
}

/// The numbers of a record: depth, offset in the outermost file, inner state with its refusal, and
/// then the numbers of its block.
pub fn record_numbers(record: &Record) -> [u64; RECORD_NUMBERS] {
    let refusal = inner_refusal(record.inner);
    let front = [
        record.depth.into(),
        record.offset.0.into(),
        InnerKind::from(record.inner) as u64,
        refusal.number.into(),
        refusal.place,
    ];
    let block = block_numbers(&record.block);
    let mut numbers = front.into_iter().chain(block);
    std::array::from_fn(|_| numbers.next().unwrap_or(0))
}

/// The refusal of an inner file, or two zeros if there is none.
fn inner_refusal(inner: Inner) -> Refusal {
    match inner {
        Inner::Refused(refusal) => refusal,
        Inner::Plain | Inner::Opened | Inner::TooDeep => Refusal {
            number: 0,
            place: 0,
        },
    }
}

/// The numbers of a row in the order of the listing.
pub fn row_numbers(row: &Row) -> [u64; ROW_NUMBERS] {
    [
        row.depth.into(),
        row.ordinal.into(),
        row.offset.0.into(),
        row.header_size.into(),
        row.allocated.into(),
        row.used.into(),
        row.streamed.into(),
        row.compressed.into(),
        row.checksum.into(),
        row.inner as u64,
    ]
}

/// Turns numbers into the bytes of a buffer.
pub fn bytes_of(numbers: &[u64]) -> Vec<u8> {
    let mut bytes = Vec::with_capacity(numbers.len() * NUMBER_BYTES);
    for number in numbers {
        bytes.extend_from_slice(&number.to_be_bytes());
    }
    bytes
}

/// The numbers in the bytes of a buffer. Bytes at the end that make no whole number are left out.
pub fn numbers_of(bytes: &[u8]) -> Vec<u64> {
    let (chunks, _) = bytes.as_chunks();
    chunks
        .iter()
        .map(|chunk| u64::from_be_bytes(*chunk))
        .collect()
}
