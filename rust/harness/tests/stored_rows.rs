//! All rows of a stored outline as numbers. The tests compare exact bytes, on both sides of each
//! rule, with buffers that fit, that are too short, or that are longer.

use asdf_harness::calls::exports::stored_rows;

/// What every lent buffer holds before a call.
const UNTOUCHED: u8 = 0xA5;
/// The length of a row as numbers, in bytes.
const ROW: usize = 80;

/// A row that keeps every rule. Its ordinal, header size and sizes are at their limits, all flags
/// are set, and the inner state is 3.
const FIRST: [u8; 16] = [
    0x1F, 63, 0, 48, 0, 0, 0, 12, 0xFF, 0xFF, 0xFF, 0xFF, 0xFF, 0xFF, 0xFF, 0xFF,
];
const FIRST_NUMBERS: [u64; 10] = [0, 63, 12, 48, 0xFFFF_FFFF, 0xFFFF_FFFF, 1, 1, 1, 3];

/// A row one level deeper, without flags.
const SECOND: [u8; 16] = [
    0x20, 0, 0xFF, 0xFF, 0xFF, 0xFF, 0xFF, 0xFF, 0, 0, 0, 2, 0, 0, 0, 1,
];
const SECOND_NUMBERS: [u64; 10] = [1, 0, 0xFFFF_FFFF, 65_535, 2, 1, 0, 0, 0, 0];

/// A refusal with its place, in the form in which it is returned.
const fn refusal(number: u64, place: u64) -> u64 {
    (number << 56) + place
}

/// What is returned for a buffer of `length` bytes, and what the buffer holds then.
fn asked(stored: &[u8], length: usize) -> (u64, Vec<u8>) {
    let mut buffer = vec![UNTOUCHED; length];
    (stored_rows(stored, &mut buffer), buffer)
}

/// Asserts that the outline is refused with this word, whatever buffer is lent, and that no byte
/// changes.
fn assert_refused(stored: &[u8], word: u64) {
    for length in [0, 1, ROW, 3 * ROW] {
        assert_eq!(asked(stored, length), (word, vec![UNTOUCHED; length]));
    }
}

/// Asserts that the rows of the outline are these numbers.
fn assert_rows(stored: &[u8], rows: &[[u64; 10]]) {
    let numbers = rows.as_flattened().iter().map(|n| n.to_be_bytes());
    let bytes: Vec<u8> = numbers.flatten().collect();
    let length = bytes.len();
    assert_eq!(asked(stored, length), (length as u64, bytes.clone()));
    let longer = [&bytes[..], &[UNTOUCHED; 79]].concat();
    assert_eq!(asked(stored, length + 79), (length as u64, longer));
    for short in [0, 1, length.saturating_sub(ROW), length.saturating_sub(1)] {
        if short < length {
            assert_eq!(
                asked(stored, short),
                (refusal(21, 0), vec![UNTOUCHED; short])
            );
        }
    }
}

/// The first row, and then the second row with this change.
fn changed(change: impl Fn(&mut [u8; 16])) -> Vec<u8> {
    let mut second = SECOND;
    change(&mut second);
    [FIRST, second].concat()
}

#[test]
fn rows_are_put_one_after_another_with_nothing_around_them() {
    assert_rows(b"", &[]);
    assert_rows(&FIRST, &[FIRST_NUMBERS]);
    assert_rows(
        &[FIRST, SECOND, FIRST].concat(),
        &[FIRST_NUMBERS, SECOND_NUMBERS, FIRST_NUMBERS],
    );
}

#[test]
fn length_that_is_no_whole_rows_is_refused_with_23_before_all_else() {
    for cut in 1..16 {
        assert_refused(&FIRST[..cut], refusal(23, 0));
        assert_refused(&[&SECOND[..], &FIRST[..cut]].concat(), refusal(23, 0));
    }
}

#[test]
fn row_one_beyond_a_limit_is_refused_with_24_at_its_first_byte_before_21() {
    assert_refused(&changed(|row| row[1] = 64), refusal(24, 16));
    assert_refused(
        &changed(|row| row[2..4].copy_from_slice(&[0, 47])),
        refusal(24, 16),
    );
    assert_refused(&changed(|row| row[15] = 3), refusal(24, 16));
    assert_refused(&changed(|row| row[0] = 0x40), refusal(24, 16));
    assert_refused(&SECOND, refusal(24, 0));
}

#[test]
fn row_at_a_limit_is_put() {
    let mut numbers = SECOND_NUMBERS;
    numbers[1] = 63;
    assert_rows(&changed(|row| row[1] = 63), &[FIRST_NUMBERS, numbers]);
    let mut numbers = SECOND_NUMBERS;
    numbers[3] = 48;
    let least_header = changed(|row| row[2..4].copy_from_slice(&[0, 48]));
    assert_rows(&least_header, &[FIRST_NUMBERS, numbers]);
    let mut numbers = SECOND_NUMBERS;
    numbers[5] = 2;
    assert_rows(&changed(|row| row[15] = 2), &[FIRST_NUMBERS, numbers]);
    let mut numbers = SECOND_NUMBERS;
    numbers[0] = 0;
    assert_rows(&changed(|row| row[0] = 0), &[FIRST_NUMBERS, numbers]);
}
