//! Builds the parts of test files.
#![allow(dead_code)]

use asdf_second::{records, Inner, Refusal};

/// The worked example A, which has 12 bytes.
pub const A: &[u8] = b"#ASDF 1.0.0\n";
/// The example A with a DOS line end, which has 13 bytes.
pub const DOS_A: &[u8] = b"#ASDF 1.0.0\r\n";
/// The mark: the four bytes with which a block begins.
pub const MARK: &[u8] = &[0xD3, 0x42, 0x4C, 0x4B];
/// The smallest tree, which has 18 bytes.
pub const TREE: &[u8] = b"%YAML 1.1\n---\n...\n";
/// The number of bytes in a block header with H 48.
pub const HEADER_BYTES: usize = 54;

/// A block that a test changes field by field and then turns into bytes.
#[derive(Clone)]
pub struct BlockParts {
    header_size: u16,
    flags: u32,
    compression: [u8; 4],
    allocated: u64,
    used: u64,
    data_size: u64,
    checksum: [u8; 16],
    after_header: Vec<u8>,
}

/// Returns a block with H 48 in which every other field is zero.
pub fn block() -> BlockParts {
    BlockParts {
        header_size: 48,
        flags: 0,
        compression: [0; 4],
        allocated: 0,
        used: 0,
        data_size: 0,
        checksum: [0; 16],
        after_header: Vec::new(),
    }
}

/// Returns a block that holds this content. All three sizes are the length of the content.
pub fn block_of(content: &[u8]) -> BlockParts {
    block().sizes(content.len() as u64).after_header(content)
}

/// Returns a streamed block that holds this content and has zeros for its sizes.
pub fn streamed(content: &[u8]) -> BlockParts {
    block().flags(1).after_header(content)
}

impl BlockParts {
    pub fn header_size(mut self, value: u16) -> Self {
        self.header_size = value;
        self
    }
    pub fn flags(mut self, value: u32) -> Self {
        self.flags = value;
        self
    }
    pub fn compression(mut self, name: &[u8; 4]) -> Self {
        self.compression = *name;
        self
    }
    pub fn sizes(self, value: u64) -> Self {
        self.allocated(value).used(value).data_size(value)
    }
    pub fn allocated(mut self, value: u64) -> Self {
        self.allocated = value;
        self
    }
    pub fn used(mut self, value: u64) -> Self {
        self.used = value;
        self
    }
    pub fn data_size(mut self, value: u64) -> Self {
        self.data_size = value;
        self
    }
    pub fn checksum(mut self, value: [u8; 16]) -> Self {
        self.checksum = value;
        self
    }
    pub fn after_header(mut self, bytes: &[u8]) -> Self {
        self.after_header = bytes.to_vec();
        self
    }

    /// Returns the header, zeros up to 6 + H if H is above 48, and the bytes after the header.
    pub fn bytes(&self) -> Vec<u8> {
        let mut bytes = MARK.to_vec();
        bytes.extend(self.header_size.to_be_bytes());
        bytes.extend(self.flags.to_be_bytes());
        bytes.extend(self.compression);
        bytes.extend(self.allocated.to_be_bytes());
        bytes.extend(self.used.to_be_bytes());
        bytes.extend(self.data_size.to_be_bytes());
        bytes.extend(self.checksum);
        bytes.resize(HEADER_BYTES.max(6 + usize::from(self.header_size)), 0);
        bytes.extend(&self.after_header);
        bytes
    }
}

/// Puts the parts one after another.
pub fn join(parts: &[&[u8]]) -> Vec<u8> {
    parts.concat()
}

/// Returns the worked example B, which has 66 bytes: A and one block with H 48 and every other
/// field zero.
pub fn b() -> Vec<u8> {
    join(&[A, &block().bytes()])
}

/// Returns the worked example T: A, the smallest tree, 10 spaces and the block of B.
pub fn t() -> Vec<u8> {
    join(&[A, TREE, &[b' '; 10], &block().bytes()])
}

/// Returns a file that is A and this one block.
pub fn file_with(block: BlockParts) -> Vec<u8> {
    join(&[A, &block.bytes()])
}

/// Returns a file that is A and `count` empty blocks.
pub fn file_of_blocks(count: usize) -> Vec<u8> {
    join(&[A, &block().bytes().repeat(count)])
}

/// Returns a tree whose content is this text.
pub fn tree_of(content: &str) -> Vec<u8> {
    format!("%YAML 1.1\n---\n{content}...\n").into_bytes()
}

/// Returns an index in the bracket style, as it is written, with this text between the brackets.
pub fn index_of(list: &str) -> Vec<u8> {
    format!("#ASDF BLOCK INDEX\n%YAML 1.1\n--- [{list}]\n...\n").into_bytes()
}

/// Returns the same text with every 0A turned into 0D 0A.
pub fn with_crlf(text: &[u8]) -> Vec<u8> {
    text.iter()
        .flat_map(|&byte| {
            if byte == b'\n' {
                b"\r\n".to_vec()
            } else {
                vec![byte]
            }
        })
        .collect()
}

/// Wraps a file `times` times, each time in a file with one block.
pub fn wrapped(file: &[u8], times: usize) -> Vec<u8> {
    (0..times).fold(file.to_vec(), |inner, _| file_with(block_of(&inner)))
}

/// Returns the inner state of the only block in a file that is A and this block.
pub fn inner_of(parts: BlockParts) -> Inner {
    records(&file_with(parts)).unwrap()[0].inner
}

pub fn refusal(number: u8, place: u64) -> Refusal {
    Refusal { number, place }
}

/// Returns a malformed block for each number from 11 to 15, in that order. Each stays refused if an
/// empty block follows it.
pub fn malformed_blocks() -> Vec<(Vec<u8>, u8)> {
    vec![
        (block().header_size(65_535).bytes()[..54].to_vec(), 11),
        (block().header_size(47).bytes(), 12),
        (block().used(1).bytes(), 13),
        (block().data_size(1).bytes(), 14),
        (block().sizes(55).bytes(), 15),
    ]
}

/// Returns a file for each number from 3 to 17, in that order, with its refusal.
pub fn refused_files() -> Vec<(Vec<u8>, Refusal)> {
    vec![
        (b"#ASDF x".to_vec(), refusal(3, 6)),
        (b"#ASDF 0.1.0\n".to_vec(), refusal(4, 6)),
        (join(&[A, b"#"]), refusal(5, 12)),
        (join(&[A, &index_of("12")]), refusal(6, 12)),
        (join(&[A, b"x"]), refusal(7, 12)),
        (join(&[A, b"%YAML 1.1\n...\n"]), refusal(8, 22)),
        (join(&[A, b"%YAML 1.1\n---\n---\n"]), refusal(9, 26)),
        (join(&[A, b"%YAML 1.1\n---\n"]), refusal(10, 26)),
        (b()[..20].to_vec(), refusal(11, 12)),
        (file_with(block().header_size(47)), refusal(12, 12)),
        (file_with(block().used(1)), refusal(13, 12)),
        (file_with(block().data_size(1)), refusal(14, 12)),
        (file_with(block().allocated(1)), refusal(15, 12)),
        (file_of_blocks(65), refusal(16, 12 + 64 * 54)),
        (join(&[&b(), b"x"]), refusal(17, 66)),
    ]
}
