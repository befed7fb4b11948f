//! Makes stored outlines: outlines of files, rows with any values, and rows on both sides of each
//! rule.

use crate::rng::Rng;
use asdf_second::ROW_LENGTH;

/// How many bits of a row's first byte are below its depth.
const BELOW_DEPTH: u32 = 5;
/// The highest depth that the upper three bits can hold.
const DEEPEST: u8 = 7;

/// Sizes and offsets at the ends of their range, and around the largest number of one byte, of two
/// bytes and of 31 bits.
const TELLING_SIZES: &[u32] = &[
    0,
    1,
    255,
    256,
    65_535,
    65_536,
    0x7FFF_FFFF,
    0x8000_0000,
    u32::MAX - 1,
    u32::MAX,
];

/// A row as it is stored.
#[derive(Debug, Clone, Copy, PartialEq, Eq)]
pub struct StoredRow {
    /// The depth in the upper three bits, and the flags and the inner state in the lower five.
    pub front: u8,
    pub ordinal: u8,
    pub header_size: u16,
    pub offset: u32,
    pub allocated: u32,
    pub used: u32,
}

impl StoredRow {
    /// Returns the row at the start of these bytes. If there are too few bytes, all its fields are
    /// zero.
    pub fn from_bytes(bytes: &[u8]) -> StoredRow {
        let mut row = [0; ROW_LENGTH];
        if let Some(stored) = bytes.first_chunk::<ROW_LENGTH>() {
            row = *stored;
        }
        let [front, ordinal, high, low, sizes @ ..] = row;
        let (sizes, _) = sizes.as_chunks();
        StoredRow {
            front,
            ordinal,
            header_size: u16::from_be_bytes([high, low]),
            offset: u32::from_be_bytes(sizes[0]),
            allocated: u32::from_be_bytes(sizes[1]),
            used: u32::from_be_bytes(sizes[2]),
        }
    }

    /// Returns the bytes of the row.
    pub fn bytes(self) -> Vec<u8> {
        let mut bytes = vec![self.front, self.ordinal];
        bytes.extend(self.header_size.to_be_bytes());
        bytes.extend(
            [self.offset, self.allocated, self.used]
                .map(u32::to_be_bytes)
                .concat(),
        );
        bytes
    }

    /// Returns the depth of the row.
    pub fn depth(self) -> u8 {
        self.front >> BELOW_DEPTH
    }

    /// Sets the depth of the row. It has to fit into three bits.
    fn set_depth(&mut self, depth: u8) {
        let kind = self.front & ((1 << BELOW_DEPTH) - 1);
        self.front = depth << BELOW_DEPTH | kind;
    }
}

/// Makes a stored outline, sometimes from the outline of a file.
pub fn stored_outline(rng: &mut Rng, of_file: impl FnOnce() -> Vec<u8>) -> Vec<u8> {
    match rng.below(8) {
        0 => of_file(),
        1 | 2 => changed(rng, &of_file()),
        3 => right_rows(rng),
        4..=6 => {
            let rows = right_rows(rng);
            changed(rng, &rows)
        }
        _ => any_bytes(rng),
    }
}

/// Makes rows that keep the rules, mostly few.
fn right_rows(rng: &mut Rng) -> Vec<u8> {
    let most = rng.pick(&[1, 2, 5, 12, 12, 12, 40]);
    let count = if rng.chance(200) {
        300
    } else {
        rng.between(0, most)
    };
    let mut deepest = 0;
    let mut bytes = Vec::new();
    for _ in 0..count {
        let row = right_row(rng, deepest);
        deepest = DEEPEST.min(row.depth() + 1);
        bytes.extend(row.bytes());
    }
    bytes
}

/// Makes a row that keeps the rules. Its depth is at most `deepest`, and mostly exactly that.
fn right_row(rng: &mut Rng, deepest: u8) -> StoredRow {
    let allocated = size(rng);
    let used = match rng.below(3) {
        0 => allocated,
        1 => allocated.saturating_sub(1),
        _ => size(rng).min(allocated),
    };
    let mut row = StoredRow {
        front: rng.byte(),
        ordinal: rng.pick(&[0, 1, 62, 63, 63, 17]),
        header_size: rng.pick(&[48, 48, 49, 255, 256, 0x3000, u16::MAX]),
        offset: size(rng),
        allocated,
        used,
    };
    let depth = if rng.chance(3) {
        rng.below(usize::from(deepest) + 1) as u8
    } else {
        deepest
    };
    row.set_depth(depth);
    row
}

/// Makes a size or an offset.
fn size(rng: &mut Rng) -> u32 {
    if rng.chance(2) {
        rng.pick(TELLING_SIZES)
    } else {
        rng.word() as u32
    }
}

/// Returns an outline with something changed: a row at a limit or beyond it, some bits, the order
/// or number of the rows, or the length.
fn changed(rng: &mut Rng, outline: &[u8]) -> Vec<u8> {
    let mut bytes = outline.to_vec();
    match rng.below(8) {
        0..=3 => change_row(rng, &mut bytes),
        4 => flip_bits(rng, &mut bytes),
        5 => move_row(rng, &mut bytes),
        6 => change_length(rng, &mut bytes),
        _ => {
            change_row(rng, &mut bytes);
            change_length(rng, &mut bytes);
        }
    }
    bytes
}

/// Puts one row at or beyond a limit.
fn change_row(rng: &mut Rng, bytes: &mut [u8]) {
    let place = rng.below(bytes.len() / ROW_LENGTH) * ROW_LENGTH;
    let depth_before = place
        .checked_sub(ROW_LENGTH)
        .map(|before| StoredRow::from_bytes(&bytes[before..]).depth());
    if let Some(stored) = bytes.get_mut(place..place + ROW_LENGTH) {
        let mut row = StoredRow::from_bytes(stored);
        put_at_limit(rng, &mut row, depth_before);
        stored.copy_from_slice(&row.bytes());
    }
}

/// Gives a row a value at a limit, beyond it or far beyond it.
fn put_at_limit(rng: &mut Rng, row: &mut StoredRow, depth_before: Option<u8>) {
    match rng.below(4) {
        0 => row.ordinal = rng.pick(&[63, 64, 64, 65, 127, 128, 192, 255]),
        1 => row.header_size = rng.pick(&[0, 1, 46, 47, 47, 48, 49, 256]),
        2 => {
            row.allocated = size(rng);
            row.used = match rng.below(3) {
                0 => row.allocated,
                1 => row.allocated.saturating_add(1),
                _ => u32::MAX,
            };
        }
        _ => {
            let deepest = depth_before.map_or(0, |depth| depth + 1);
            let depth = deepest + rng.pick(&[0, 1, 1, 2]);
            row.set_depth(depth.min(DEEPEST));
        }
    }
}

/// Flips one to three bits.
fn flip_bits(rng: &mut Rng, bytes: &mut [u8]) {
    for _ in 0..rng.between(1, 3) {
        let bit = 1 << rng.below(8);
        if let Some(byte) = bytes.get_mut(rng.below(bytes.len())) {
            *byte ^= bit;
        }
    }
}

/// Removes a row, and mostly inserts it again anywhere.
fn move_row(rng: &mut Rng, bytes: &mut Vec<u8>) {
    let rows = bytes.len() / ROW_LENGTH;
    if rows == 0 {
        return;
    }
    let from = rng.below(rows) * ROW_LENGTH;
    let row: Vec<u8> = bytes.drain(from..from + ROW_LENGTH).collect();
    let to = rng.below(rows) * ROW_LENGTH;
    if !rng.chance(3) {
        bytes.splice(to..to, row);
    }
}

/// Shortens or lengthens the outline by less than a row.
fn change_length(rng: &mut Rng, bytes: &mut Vec<u8>) {
    let difference = rng.between(1, ROW_LENGTH - 1);
    if rng.chance(2) {
        bytes.truncate(bytes.len().saturating_sub(difference));
    } else {
        bytes.extend(rng.bytes(difference));
    }
}

/// Makes bytes of any value, or all of one value, mostly whole rows.
fn any_bytes(rng: &mut Rng) -> Vec<u8> {
    let rows = rng.between(0, 6) * ROW_LENGTH;
    let length = if rng.chance(4) {
        rng.between(0, 100)
    } else {
        rows
    };
    match rng.below(4) {
        0 => vec![0; length],
        1 => vec![0xFF; length],
        _ => rng.bytes(length),
    }
}

#[cfg(test)]
mod tests {
    use super::*;
    use asdf_second::read_outline;

    #[test]
    fn right_rows_are_accepted() {
        for number in 0..2_000 {
            let rows = right_rows(&mut Rng::for_file(0, number));
            let accepted = read_outline(&rows).map(|rows| rows.len());
            assert_eq!(accepted, Ok(rows.len() / ROW_LENGTH));
        }
    }

    #[test]
    fn row_is_stored_and_read_again() {
        for number in 0..200 {
            let bytes = Rng::for_file(0, number).bytes(ROW_LENGTH);
            assert_eq!(StoredRow::from_bytes(&bytes).bytes(), bytes);
        }
    }

    #[test]
    fn outlines_of_every_small_length_can_be_changed() {
        for number in 0..20_000 {
            let mut rng = Rng::for_file(0, number);
            let length = rng.between(0, 3 * ROW_LENGTH);
            let bytes = rng.bytes(length);
            stored_outline(&mut rng, || bytes);
        }
    }
}
