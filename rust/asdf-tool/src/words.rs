//! The words for what is reported. They are written where they are needed, so that a listing takes
//! no memory for them.

use asdf_layout::{Block, Verdict};
use std::fmt::{self, Display, Formatter};
use std::slice::EscapeAscii;

/// The units of sizes. Each is 1,024 times the one before it.
const UNITS: [&str; 3] = ["KiB", "MiB", "GiB"];

/// Describes a verdict on the index.
pub fn verdict(verdict: Verdict) -> &'static str {
    match verdict {
        Verdict::Absent => "absent",
        Verdict::Good => "good: it lists the offsets of the blocks",
        Verdict::IgnoredForm => "ignored: its text does not have the form of an index",
        Verdict::IgnoredList => "ignored: the offsets it lists are not those of the blocks",
    }
}

/// A number of bytes. From 1,024 on it is also given in the largest unit that it fills.
pub struct Size(pub usize);

impl Display for Size {
    fn fmt(&self, f: &mut Formatter<'_>) -> fmt::Result {
        let scaled = UNITS.iter().scan(self.0 as f64, |size, unit| {
            *size /= 1024.0;
            Some((*size, unit))
        });
        write!(f, "{}", self.0)?;
        match scaled.take_while(|(size, _)| *size >= 1.0).last() {
            None => Ok(()),
            Some((size, unit)) => write!(f, " ({size:.1} {unit})"),
        }
    }
}

/// A number with a comma before each group of three digits.
pub struct Grouped(pub usize);

impl Display for Grouped {
    fn fmt(&self, f: &mut Formatter<'_>) -> fmt::Result {
        match (self.0 / 1000, self.0 % 1000) {
            (0, rest) => write!(f, "{rest}"),
            (thousands, rest) => write!(f, "{},{rest:03}", Grouped(thousands)),
        }
    }
}

/// Returns the name of a block's compression, without the zeros at its end. Bytes that cannot be
/// printed are escaped.
pub fn compression(block: &Block) -> Option<EscapeAscii<'_>> {
    let mut name = &block.compression[..];
    while let [front @ .., 0] = name {
        name = front;
    }
    block.is_compressed().then(|| name.escape_ascii())
}

#[cfg(test)]
mod tests {
    use super::*;

    #[test]
    fn size_is_given_in_the_greatest_unit_that_it_fills() {
        for (bytes, words) in [
            (0, "0"),
            (1_023, "1023"),
            (1_024, "1024 (1.0 KiB)"),
            (1_572_864, "1572864 (1.5 MiB)"),
            (4_294_967_295, "4294967295 (4.0 GiB)"),
        ] {
            assert_eq!(Size(bytes).to_string(), words);
        }
    }

    #[test]
    fn digits_are_grouped_by_three() {
        for (number, words) in [
            (0, "0"),
            (999, "999"),
            (1_000, "1,000"),
            (1_065_220, "1,065,220"),
        ] {
            assert_eq!(Grouped(number).to_string(), words);
        }
    }
}
