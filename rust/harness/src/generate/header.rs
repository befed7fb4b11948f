//! Makes the header line.

use super::text::line;
use crate::format::text::FILE_BEGIN;
use crate::rng::Rng;

/// Wrong bytes in place of `#ASDF ` (2).
const WRONG_BEGINS: &[&[u8]] = &[
    b"",
    b"#",
    b"#ASDF",
    b"#ASDF\t",
    b"#ASDF_",
    b"#ASD ",
    b"#asdf ",
    b"#ASDFF ",
    b"ASDF ",
    b"%ASDF ",
    b" #ASDF ",
    b"\n#ASDF ",
    b"# ASDF ",
    b"#ASDF\r\n",
    b"\xEF\xBB\xBF#ASDF ",
    b"\xD3BLK",
];

/// Versions that do not have the right form (3).
const MALFORMED_VERSIONS: &[&[u8]] = &[
    b"",
    b"1",
    b"1.",
    b"1.0",
    b"1.0.",
    b"1.0.0.",
    b"1.0.0.0",
    b".1.0.0",
    b"1..0",
    b"1..0.0",
    b"...",
    b"01.0.0",
    b"1.00.0",
    b"1.0.00",
    b"1.01.0",
    b"1.0.01",
    b"0001.0.0",
    b"10000.0.0",
    b"1.10000.0",
    b"1.0.10000",
    b"1.0.00000",
    b"1.0.18446744073709551616",
    b"65537.0.0",
    b" 1.0.0",
    b"1.0.0 ",
    b"1 .0.0",
    b"1. 0.0",
    b"1.0.0\t",
    b"1.0.0\r\r",
    b"1.0\r.0",
    b"1.0.0\0",
    b"1.0.0-rc1",
    b"1.0.0+b",
    b"1,0,0",
    b"1.0,0",
    b"-1.0.0",
    b"+1.0.0",
    b"1.-0.0",
    b"1.0.x",
    b"a.b.c",
    b"0x1.0.0",
    b"1.0.0#",
    b"1:0:0",
    b"1/0/0",
    b"\xD9\xA1.0.0",
    b"2.00.0",
    b"2.0",
    b"0.1",
    b"02.0.0",
];

/// First numbers of a version other than 1 (4).
const WRONG_MAJORS: &[usize] = &[0, 2, 3, 9, 10, 11, 100, 257, 1001, 9999];

/// Makes a header line, right or wrong.
pub fn header(rng: &mut Rng, wrong: bool) -> Vec<u8> {
    match rng.below(3) {
        _ if !wrong => header_of_major(rng, 1),
        0 => wrong_begin(rng),
        1 => malformed_version(rng),
        _ => wrong_major(rng),
    }
}

/// Makes a header line with a version that has this first number.
fn header_of_major(rng: &mut Rng, major: usize) -> Vec<u8> {
    let version = version(rng, major);
    header_line(rng, FILE_BEGIN, &version)
}

/// Makes a header line from its two parts.
fn header_line(rng: &mut Rng, begin: &[u8], version: &[u8]) -> Vec<u8> {
    line(rng, &[begin, version].concat())
}

/// Makes a version with this first number.
fn version(rng: &mut Rng, major: usize) -> Vec<u8> {
    let (minor, patch) = (version_number(rng), version_number(rng));
    format!("{major}.{minor}.{patch}").into_bytes()
}

/// Makes a number of 1 to 4 digits, mostly 0.
fn version_number(rng: &mut Rng) -> usize {
    let most = rng.pick(&[0, 0, 0, 9, 99, 999, 9999]);
    if rng.chance(3) {
        most
    } else {
        rng.between(0, most)
    }
}

/// Makes a header line that does not begin like one (2).
fn wrong_begin(rng: &mut Rng) -> Vec<u8> {
    let begin = rng.pick(WRONG_BEGINS);
    let version = version(rng, 1);
    header_line(rng, begin, &version)
}

/// Makes a header line whose version does not have the right form (3).
fn malformed_version(rng: &mut Rng) -> Vec<u8> {
    let version = rng.pick(MALFORMED_VERSIONS);
    header_line(rng, FILE_BEGIN, version)
}

/// Makes a header line with a version whose first number is not 1 (4).
fn wrong_major(rng: &mut Rng) -> Vec<u8> {
    let major = rng.pick(WRONG_MAJORS);
    header_of_major(rng, major)
}
