//! The fixed words of the format, and small searches in bytes.

/// The six bytes with which every file begins.
pub const FILE_BEGIN: &[u8] = b"#ASDF ";
/// The four bytes with which every block begins.
pub const MARK: &[u8] = &[0xD3, 0x42, 0x4C, 0x4B];
/// The first line of an index.
pub const INDEX_LINE: &[u8] = b"#ASDF BLOCK INDEX";
/// The first line of a tree, and the second line of an index.
pub const YAML_LINE: &[u8] = b"%YAML 1.1";
/// The start line of an index with dashes.
pub const DASH_START: &[u8] = b"---";
/// The last line of a tree and of an index.
pub const END_LINE: &[u8] = b"...";
/// A header line.
pub const HEADER_LINE: &[u8] = b"#ASDF 1.0.0\n";
/// The smallest tree.
pub const LEAST_TREE: &[u8] = b"%YAML 1.1\n---\n...\n";

/// Every place in a file at which these bytes begin.
pub fn places_of(file: &[u8], bytes: &[u8]) -> Vec<usize> {
    (0..file.len())
        .filter(|&place| file[place..].starts_with(bytes))
        .collect()
}

/// The bytes after the first line.
pub fn after_first_line(text: &[u8]) -> &[u8] {
    let end = text.iter().position(|&byte| byte == b'\n');
    end.map_or(&[], |end| &text[end + 1..])
}
