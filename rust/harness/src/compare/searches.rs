//! Compares both proved searches for a mark with a plain search in Rust.

use crate::calls::exports;
use crate::format::text::MARK;
use crate::goals::coverage::Coverage;
use crate::goals::searches::Search;
use crate::rng::Rng;
use crate::same::same;

/// The bytes that may mislead a search: those of a mark, a space and a zero.
const BYTES: [u8; 6] = [0xD3, 0x42, 0x4C, 0x4B, 0x20, 0x00];
/// The length of the longest string.
const LONGEST: usize = 200;
/// How many strings there are of each length.
const STRINGS: u64 = 20;
/// Changes the seed, so that the strings do not use the random numbers of the files of this seed.
const SEARCHES: u64 = 1 << 60;

/// A search for the first mark at or after an offset.
type Searcher = fn(&[u8], usize) -> usize;

/// The proved searches with their names.
const SEARCHERS: [(&str, Searcher); 2] = [
    ("find_mark", exports::find_mark),
    ("find_mark_plain", exports::find_mark_plain),
];

/// Searches every string from every offset, and from the offset one after its end. Returns how many
/// searches there were.
pub fn compare_strings(seed: u64, coverage: &mut Coverage<Search>) -> Result<u64, String> {
    let mut searches = 0;
    for length in 0..=LONGEST {
        for number in 0..STRINGS {
            let string = numbered_string(seed, number, length);
            for start in 0..=length + 1 {
                let search = compare(&string, start, &SEARCHERS)?;
                coverage.count(&string, &search);
                searches += 1;
            }
        }
    }
    Ok(searches)
}

/// Searches a file from each of its first four offsets, and again from the second byte of each mark
/// that is found. Returns how many searches there were.
pub fn compare_in_file(file: &[u8]) -> Result<u64, String> {
    for start in 1..MARK.len() {
        compare(file, start, &SEARCHERS)?;
    }
    let (mut start, mut searches) = (0, MARK.len() as u64 - 1);
    while start < file.len() {
        start = compare(file, start, &SEARCHERS)?.found + 1;
        searches += 1;
    }
    Ok(searches)
}

/// The string with this number and length. In two of three strings a mark is placed, if it fits.
fn numbered_string(seed: u64, number: u64, length: usize) -> Vec<u8> {
    let mut rng = Rng::for_file(seed ^ SEARCHES, (length as u64) << 32 | number);
    let mut string = rng.bytes_of(&BYTES, length);
    if length >= MARK.len() && !rng.chance(3) {
        let place = rng.below(length - MARK.len() + 1);
        string[place..][..MARK.len()].copy_from_slice(MARK);
    }
    string
}

/// Searches from one offset. Each search has to find what the plain search in Rust finds.
fn compare(bytes: &[u8], start: usize, searchers: &[(&str, Searcher)]) -> Result<Search, String> {
    let found = first_mark(bytes, start);
    for (name, searcher) in searchers {
        same(name, searcher(bytes, start), found)
            .map_err(|reason| format!("searched from {start}: {reason}"))?;
    }
    Ok(Search { start, found })
}

/// Where the first mark at or after `start` begins, or the end if there is none. If `start` is
/// after the end, `start` itself is returned.
fn first_mark(bytes: &[u8], start: usize) -> usize {
    let rest = bytes.get(start..).unwrap_or_default();
    let length = rest.windows(MARK.len()).position(|four| four == MARK);
    start + length.unwrap_or(rest.len())
}

#[cfg(test)]
mod tests {
    use super::*;

    #[test]
    fn plain_search_finds_the_first_mark_or_the_end() {
        let bytes = b" \xD3\xD3BLK\xD3BLK";
        let found: Vec<usize> = (0..=11).map(|start| first_mark(bytes, start)).collect();
        assert_eq!(found, [2, 2, 2, 6, 6, 6, 6, 10, 10, 10, 10, 11]);
    }

    #[test]
    fn a_search_that_errs_is_found_out() {
        let wrong: Searcher = |_, start| start;
        assert!(compare(b"\xD3BLK", 0, &[("wrong", wrong)]).is_ok());
        assert!(compare(b" \xD3BLK", 0, &[("wrong", wrong)]).is_err());
        assert!(compare(b" ", 0, &[("wrong", wrong)]).is_err());
    }
}
