//! Damages any bytes of a file.

use crate::format::block::FIELDS;
use crate::format::text::{places_of, MARK};
use crate::rng::Rng;
use std::ops::Range;

/// Byte values that mean something in the format.
const TELLING_BYTES: &[u8] = &[0x00, 0xFF, b'\n', b'\r', b'#', b'.', b'-', b' ', b'0', 0xD3];

/// Damages a file in one to three ways.
pub fn damage(rng: &mut Rng, file: &mut Vec<u8>) {
    for _ in 0..rng.between(1, 3) {
        damage_once(rng, file);
    }
}

/// Damages one or two places of a file. All other bytes stay where they were.
pub fn damage_in_place(rng: &mut Rng, file: &mut [u8]) {
    for _ in 0..rng.between(1, 2) {
        match rng.below(3) {
            0 => flip_bit(rng, file),
            1 => set_byte(rng, file),
            _ => overwrite_field(rng, file),
        }
    }
}

/// Damages a file in one way.
fn damage_once(rng: &mut Rng, file: &mut Vec<u8>) {
    match rng.below(8) {
        0 => flip_bit(rng, file),
        1 | 2 => set_byte(rng, file),
        3 => file.truncate(rng.below(file.len())),
        4 => insert(rng, file),
        5 => delete(rng, file),
        6 => duplicate(rng, file),
        _ => overwrite_field(rng, file),
    }
}

/// Flips one bit.
fn flip_bit(rng: &mut Rng, file: &mut [u8]) {
    let bit = 1 << rng.below(8);
    if let Some(byte) = any_byte(rng, file) {
        *byte ^= bit;
    }
}

/// Sets one byte to a value that means something in the format.
fn set_byte(rng: &mut Rng, file: &mut [u8]) {
    let value = rng.pick(TELLING_BYTES);
    if let Some(byte) = any_byte(rng, file) {
        *byte = value;
    }
}

/// Chooses one of the bytes, the first 40 more often.
fn any_byte<'a>(rng: &mut Rng, file: &'a mut [u8]) -> Option<&'a mut u8> {
    let bound = if rng.chance(3) {
        file.len().min(40)
    } else {
        file.len()
    };
    file.get_mut(rng.below(bound))
}

/// Inserts a few bytes anywhere.
fn insert(rng: &mut Rng, file: &mut Vec<u8>) {
    let place = rng.between(0, file.len());
    let length = rng.between(1, 8);
    let new = if rng.chance(2) {
        rng.bytes(length)
    } else {
        rng.bytes_of(TELLING_BYTES, length)
    };
    file.splice(place..place, new);
}

/// Removes a few bytes anywhere.
fn delete(rng: &mut Rng, file: &mut Vec<u8>) {
    file.drain(any_stretch(rng, file, 8));
}

/// Inserts a copy of a range directly after it.
fn duplicate(rng: &mut Rng, file: &mut Vec<u8>) {
    let stretch = any_stretch(rng, file, 80);
    let copy = file[stretch.clone()].to_vec();
    file.splice(stretch.end..stretch.end, copy);
}

/// Chooses a range of a file that is at most `most` bytes long.
fn any_stretch(rng: &mut Rng, file: &[u8], most: usize) -> Range<usize> {
    let start = rng.between(0, file.len());
    let length = rng.between(0, most.min(file.len() - start));
    start..start + length
}

/// Gives a field of some block an extreme value.
fn overwrite_field(rng: &mut Rng, file: &mut [u8]) {
    let marks = places_of(file, MARK);
    let Some(&mark) = marks.get(rng.below(marks.len())) else {
        return;
    };
    let field = rng.pick(FIELDS);
    let value = extreme_value(rng, field.length);
    if let Some(bytes) = file.get_mut(field.stretch(mark)) {
        bytes.copy_from_slice(&value);
    }
}

/// Makes a big-endian number of `length` bytes that is at or near a limit.
fn extreme_value(rng: &mut Rng, length: usize) -> Vec<u8> {
    let mut value = vec![0; length];
    match rng.below(5) {
        0 => value.fill(0xFF),
        1 => value[0] = 0x80,
        2 => value[length - 1] = rng.pick(&[1, 47, 48, 49, 255]),
        3 => value[length / 2] = 1,
        _ => {}
    }
    value
}

#[cfg(test)]
mod tests {
    use super::*;

    #[test]
    fn files_of_every_small_length_can_be_damaged() {
        for number in 0..20_000 {
            let mut rng = Rng::for_file(0, number);
            let mut file = [MARK, b"#ASDF 1.0.0\n"].concat();
            file.truncate(rng.below(file.len()));
            damage(&mut rng, &mut file);
        }
    }

    #[test]
    fn fields_are_overwritten_after_a_mark_only() {
        let block = [MARK, &[7; 50]].concat();
        for number in 0..100 {
            let mut rng = Rng::for_file(0, number);
            let mut file = [&[7; 9], &block[..], &[7; 9]].concat();
            overwrite_field(&mut rng, &mut file);
            assert_eq!((&file[..9], &file[63..]), (&[7; 9][..], &[7; 9][..]));
            assert_ne!(file[9..63], block);
        }
    }
}
