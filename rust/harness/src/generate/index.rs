//! Makes block indexes, in brackets and with dashes: good ones, indexes with other numbers, and
//! texts that do not have the form of an index.

use super::text::lines;
use crate::format::text::{DASH_START, END_LINE, INDEX_LINE, YAML_LINE};
use crate::rng::Rng;

/// The position of the start line among the lines of an index.
const START: usize = 2;

const WRONG_FIRST_LINES: &[&[u8]] = &[
    b"#ASDF BLOCK INDEX ",
    b"#ASDF BLOCK INDEX\r\r",
    b"#ASDF BLOCK INDEX\0",
    b"#ASDF BLOCK INDEXED",
    b"#ASDF BLOCK INDEX\xD3BLK",
    b"#ASDF BLOCK INDEX#ASDF BLOCK INDEX",
];

const WRONG_SECOND_LINES: &[&[u8]] = &[
    b"",
    b"%",
    b"%YAML",
    b"%YAML 1.2",
    b"%YAML 1.1 ",
    b"%YAML 1.1\r\r",
    b"%YAML 1.10",
    b" %YAML 1.1",
    b"#YAML 1.1",
    b"%YAML 1.1\n%YAML 1.1",
    b"#ASDF BLOCK INDEX",
];

/// Wrong lines in place of the start line of an index in brackets.
const WRONG_LIST_LINES: &[&[u8]] = &[
    b"",
    b"---",
    b"--- ",
    b"--- 12",
    b"--- [",
    b"--- ]",
    b"--- []",
    b"--- [ ]",
    b"--- [,]",
    b"--- [12,]",
    b"--- [12, ]",
    b"--- [,12]",
    b"--- [ ,12]",
    b"--- [12,,66]",
    b"--- [12, ,66]",
    b"--- [12 66]",
    b"--- [1 2]",
    b"--- [012]",
    b"--- [00]",
    b"--- [0012]",
    b"--- [12, 066]",
    b"--- [13, 012]",
    b"--- [+12]",
    b"--- [-12]",
    b"--- [0x0c]",
    b"--- [1_2]",
    b"--- [1e1]",
    b"--- [12.0]",
    b"--- [12\t]",
    b"--- [\t12]",
    b"--- [12\r]",
    b"--- [12\0]",
    b"--- [\xA012]",
    b"--- [[12]]",
    b"--- [12]]",
    b"--- [[12]",
    b"--- [12",
    b"--- 12]",
    b"--- [12, x]",
    b"--- [12;66]",
    b"--- [/2]",
    b"--- [:2]",
    b"--- [12\n]",
    b"--- [12,\n66]",
    b"---\n[12]",
    b"--- [12345678901]",
    b"--- [00000000012]",
    b"--- [10000000000]",
    b"--- [18446744073709551628]",
    b"---  [12]",
    b"---[12]",
    b"---\t[12]",
    b" --- [12]",
    b"-- [12]",
    b"---- [12]",
    b"[12]",
    b"--- (12)",
    b"--- [12] ",
    b"--- [12]\r\r",
    b"--- [12],",
    b"--- [12] #",
    b"--- [12]\0",
];

/// Wrong lines in place of the start line of an index with dashes.
pub const WRONG_START_LINES: &[&[u8]] = &[
    b"",
    b"-",
    b"--",
    b"----",
    b"--- ",
    b"---  ",
    b"---\t",
    b"---\r\r",
    b"---\0",
    b" ---",
    b"--- 12",
    b"--- []",
    b"--- [12]",
    b"--- #",
    b"+++",
    b"...",
    b"%YAML 1.1",
    b"- 12",
    b"\n---",
    b"---\n",
    b"---\n---",
    b"---\n--- ",
    b"---\n#",
    b"#\n---",
    b"%\n---",
    b"...\n---",
];

/// Wrong lines in place of a line with a dash.
pub const WRONG_DASH_LINES: &[&[u8]] = &[
    b"",
    b" ",
    b"-",
    b"- ",
    b"-  ",
    b"-12",
    b"-  12",
    b" - 12",
    b"\t- 12",
    b"-\t12",
    b"- \t12",
    b"- 12\t",
    b"- 12 \t",
    b"- 12\r\r",
    b"- 12 \r\r",
    b"- 12\0",
    b"- \xA012",
    b"- 012",
    b"- 00",
    b"- 0012",
    b"- 12345678901",
    b"- 10000000000",
    b"- 00000000012",
    b"- 18446744073709551628",
    b"- +12",
    b"- -12",
    b"- - 12",
    b"-- 12",
    b"--12",
    b"+ 12",
    b"* 12",
    b"12",
    b" 12",
    b"- x",
    b"- 12x",
    b"- /2",
    b"- :2",
    b"- 0x0c",
    b"- 1_2",
    b"- 1e1",
    b"- 12.0",
    b"- 1 2",
    b"- 12 66",
    b"- 12,",
    b"- 12, 66",
    b"- [12]",
    b"[12]",
    b"[12, 66]",
    b"--- [12]",
    b"---",
    b"--- ",
    b"#",
    b"- 12 #",
    b"- 12\n\n- 12",
    b"- 13\n- 012",
    b"... ",
    b"....",
    b"..",
];

const WRONG_LAST_LINES: &[&[u8]] = &[
    b"", b".", b"..", b"....", b"... ", b"...\r\r", b"...\0", b" ...", b"---", b"abc", b"\n...",
];

/// Bytes that are not allowed after the last line of an index.
const WRONG_AFTER: &[&[u8]] = &[
    b" ",
    b"\n",
    b"\r\n",
    b"x",
    b"\x01",
    b"\0\0x",
    b"\0\n",
    b"...\n",
    b"\xD3BLK",
    b"#ASDF BLOCK INDEX\n",
];

/// Bytes that break the form of a list, or only change its numbers.
const ODD_BYTES: &[u8] = b"00,, \t\r\n+-_.[]x\0\x3A\x2F9";

/// An index: the texts of its lines, and the bytes after them.
struct Index {
    texts: Vec<Vec<u8>>,
    after: Vec<u8>,
}

/// Makes an index that is good for blocks at these offsets.
pub fn good_index(rng: &mut Rng, offsets: &[u64]) -> Vec<u8> {
    Index::of(rng, offsets).bytes(rng)
}

/// Makes an index of the right form that does not list these offsets.
pub fn index_of_other_list(rng: &mut Rng, offsets: &[u64]) -> Vec<u8> {
    let numbers = other_numbers(rng, offsets);
    good_index(rng, &numbers)
}

/// Makes bytes that begin with the 17 bytes of the index line, but mostly do not have the form of
/// an index.
pub fn index_of_wrong_form(rng: &mut Rng, offsets: &[u64]) -> Vec<u8> {
    let mut index = Index::of(rng, offsets);
    match rng.below(10) {
        0..=3 => index.replace_line(rng),
        4 => index.disturb_list(rng),
        5 => index.mix_styles(rng),
        6 => drop(index.texts.remove(rng.between(1, index.last()))),
        7 => index
            .texts
            .insert(rng.between(1, index.texts.len()), Vec::new()),
        8 => index.after = rng.pick(WRONG_AFTER).to_vec(),
        _ => return index.cut(rng),
    }
    index.bytes(rng)
}

impl Index {
    /// Makes an index of these numbers in either style, sometimes with zeros after it.
    fn of(rng: &mut Rng, numbers: &[u64]) -> Index {
        if rng.chance(2) {
            Index::in_brackets(rng, numbers)
        } else {
            Index::with_dashes(rng, numbers)
        }
    }

    /// Makes an index of these numbers in brackets.
    fn in_brackets(rng: &mut Rng, numbers: &[u64]) -> Index {
        let list = list_text(rng, numbers);
        Index::with_list(rng, vec![[b"--- [", &list[..], b"]"].concat()])
    }

    /// Makes an index of these numbers with dashes.
    fn with_dashes(rng: &mut Rng, numbers: &[u64]) -> Index {
        let list = [vec![DASH_START.to_vec()], dash_lines(rng, numbers)].concat();
        Index::with_list(rng, list)
    }

    /// Makes an index with these lines as its list.
    fn with_list(rng: &mut Rng, list: Vec<Vec<u8>>) -> Index {
        let first = vec![INDEX_LINE.to_vec(), YAML_LINE.to_vec()];
        let zeros = rng.pick(&[0, 0, 0, 1, 16]);
        Index {
            texts: [first, list, vec![END_LINE.to_vec()]].concat(),
            after: vec![0; zeros],
        }
    }

    /// Returns the position of the last line.
    fn last(&self) -> usize {
        self.texts.len() - 1
    }

    /// Whether the start line is that of an index with dashes.
    fn has_dashes(&self) -> bool {
        self.texts[START] == DASH_START
    }

    /// Replaces one of the lines with a wrong line.
    fn replace_line(&mut self, rng: &mut Rng) {
        let last = self.last();
        let (place, wrong) = match rng.below(8) {
            0 => (0, WRONG_FIRST_LINES),
            1 => (1, WRONG_SECOND_LINES),
            2 => (last, WRONG_LAST_LINES),
            _ if !self.has_dashes() => (START, WRONG_LIST_LINES),
            3 => (START, WRONG_START_LINES),
            _ => (rng.between(START + 1, last), WRONG_DASH_LINES),
        };
        self.texts[place] = rng.pick(wrong).to_vec();
    }

    /// Inserts an odd byte somewhere in a line of the list.
    fn disturb_list(&mut self, rng: &mut Rng) {
        let place = rng.between(START, self.last() - 1);
        let line = &mut self.texts[place];
        line.insert(rng.between(0, line.len()), rng.pick(ODD_BYTES));
    }

    /// Inserts a line of the other style somewhere, at the start of the list or later.
    fn mix_styles(&mut self, rng: &mut Rng) {
        let other: &[&[u8]] = if self.has_dashes() {
            &[b"--- [12]", b"[12]", b"- [12]"]
        } else {
            &[b"---", b"- 12"]
        };
        let place = rng.between(START, self.last());
        self.texts.insert(place, rng.pick(other).to_vec());
    }

    /// Returns the first bytes of the index: at least the 17 of the index line, but not all.
    fn cut(mut self, rng: &mut Rng) -> Vec<u8> {
        self.after.clear();
        let mut bytes = self.bytes(rng);
        bytes.truncate(rng.between(INDEX_LINE.len(), bytes.len() - 1));
        bytes
    }

    /// Returns the bytes of the index. Each line gets either line end.
    fn bytes(&self, rng: &mut Rng) -> Vec<u8> {
        [lines(rng, &self.texts), self.after.clone()].concat()
    }
}

/// Makes a list of numbers with commas between them, in the usual form or with more spaces around
/// the numbers.
fn list_text(rng: &mut Rng, numbers: &[u64]) -> Vec<u8> {
    let most_spaces = rng.pick(&[0, 0, 0, 3, 40]);
    let items: Vec<String> = numbers
        .iter()
        .map(|number| {
            let before = spaces(rng, most_spaces);
            let after = spaces(rng, most_spaces);
            format!("{before}{number}{after}")
        })
        .collect();
    items.join(rng.pick(&[",", ", "])).into_bytes()
}

/// Makes lines with a dash and a number each, some with spaces after the number.
fn dash_lines(rng: &mut Rng, numbers: &[u64]) -> Vec<Vec<u8>> {
    let most_spaces = rng.pick(&[0, 0, 0, 3, 40]);
    numbers
        .iter()
        .map(|number| format!("- {number}{}", spaces(rng, most_spaces)).into_bytes())
        .collect()
}

/// Makes at most `most` spaces.
fn spaces(rng: &mut Rng, most: usize) -> String {
    " ".repeat(rng.between(0, most))
}

/// Makes a list that is not `offsets` and has at least one number.
fn other_numbers(rng: &mut Rng, offsets: &[u64]) -> Vec<u64> {
    let mut numbers = offsets.to_vec();
    if numbers.is_empty() {
        return vec![0];
    }
    let place = rng.below(numbers.len());
    match rng.below(9) {
        0 => numbers[place] += 1,
        1 => numbers[place] = 0,
        2 => numbers[place] += 1 << 32,
        3 => numbers[place] = rng.pick(&[u64::from(u32::MAX), 1 << 32, 9_999_999_999]),
        4 => numbers.insert(place, numbers[place]),
        5 => numbers.push(numbers[place] + 54),
        6 if numbers.len() > 1 => drop(numbers.remove(place)),
        7 if numbers.len() > 1 => numbers.reverse(),
        _ => numbers = vec![12; rng.between(65, 80)],
    }
    numbers
}

#[cfg(test)]
mod tests {
    use super::*;
    use asdf_second::{read, Verdict};

    /// Returns the verdict on an index at the end of a file with one block.
    fn verdict(index: &[u8]) -> Verdict {
        let file = [b"#ASDF 1.0.0\n\xD3BLK\0\x30", &[0; 48][..], index].concat();
        read(&file).unwrap().index
    }

    /// Returns the verdicts on many indexes made with `index`, each verdict once.
    fn verdicts(index: fn(&mut Rng, &[u64]) -> Vec<u8>) -> Vec<Verdict> {
        let mut found = Vec::new();
        for number in 0..1_000 {
            let verdict = verdict(&index(&mut Rng::for_file(0, number), &[12]));
            if !found.contains(&verdict) {
                found.push(verdict);
            }
        }
        found
    }

    #[test]
    fn good_index_is_good() {
        assert_eq!(verdicts(good_index), [Verdict::Good]);
    }

    #[test]
    fn index_of_another_list_is_ignored_for_its_list() {
        assert_eq!(verdicts(index_of_other_list), [Verdict::IgnoredList]);
    }

    #[test]
    fn each_wrong_line_is_ignored_for_its_form() {
        let brackets: [(usize, &[&[u8]]); 4] = [
            (0, WRONG_FIRST_LINES),
            (1, WRONG_SECOND_LINES),
            (START, WRONG_LIST_LINES),
            (3, WRONG_LAST_LINES),
        ];
        let dashes: [(usize, &[&[u8]]); 5] = [
            (0, WRONG_FIRST_LINES),
            (1, WRONG_SECOND_LINES),
            (START, WRONG_START_LINES),
            (3, WRONG_DASH_LINES),
            (4, WRONG_LAST_LINES),
        ];
        assert_wrong(Index::in_brackets, &brackets);
        assert_wrong(Index::with_dashes, &dashes);
    }

    /// Checks that each of these lines is wrong in its place in the index of one block, whatever
    /// the line ends are.
    fn assert_wrong(index: fn(&mut Rng, &[u64]) -> Index, wrong: &[(usize, &[&[u8]])]) {
        for (place, lines) in wrong {
            for line in *lines {
                for number in 0..20 {
                    let rng = &mut Rng::for_file(0, number);
                    let mut index = index(rng, &[12]);
                    index.texts[*place] = line.to_vec();
                    let verdict = verdict(&index.bytes(rng));
                    assert_eq!(verdict, Verdict::IgnoredForm, "{}", line.escape_ascii());
                }
            }
        }
    }

    #[test]
    fn mixed_styles_are_ignored_for_their_form() {
        let mixed = |rng: &mut Rng, offsets: &[u64]| {
            let mut index = Index::of(rng, offsets);
            index.mix_styles(rng);
            index.bytes(rng)
        };
        assert_eq!(verdicts(mixed), [Verdict::IgnoredForm]);
    }
}
