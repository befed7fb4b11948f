//! Measures the search for a mark by fours, next to the plain search and that of libc.

use crate::measure::medians;
use crate::read::{random_bytes, MIB};
use asdf_harness::calls::exports;
use asdf_harness::format::text::MARK;
use std::hint::black_box;
use std::io;

/// Lines as they occur in a tree.
const TEXT: &[u8] = b"asdf_library: !core/software-1.0.0 {author: The ASDF Developers, name: asdf}
data: !core/ndarray-1.0.0
  source: 0
  datatype: float64
  byteorder: little
  shape: [4096, 4096]
meta: {telescope: KECK, instrument: LRIS, detector: B, exposure: 120.0, filter: 'BG38'}
";
/// Among letters of a mark, one byte in this many is the first byte of a mark.
const RARE: usize = 64;

/// A megabyte without a mark.
struct Case {
    name: &'static str,
    bytes: Vec<u8>,
}

/// Measures every content and prints a line for each.
pub fn print_table() -> io::Result<()> {
    println!(
        "{:<36}{:>12}{:>12}{:>12}{:>12}{:>12}",
        "content", "by fours", "plain", "memmem", "to plain", "to memmem"
    );
    cases().iter().try_for_each(print_row)
}

/// All contents that are measured.
fn cases() -> Vec<Case> {
    let filled = |name, byte| Case {
        name,
        bytes: vec![byte; MIB],
    };
    vec![
        filled("spaces", b' '),
        filled("zeros", 0),
        filled("FF", 0xFF),
        filled("x", b'x'),
        Case {
            name: "text",
            bytes: TEXT.iter().copied().cycle().take(MIB).collect(),
        },
        Case {
            name: "random bytes",
            bytes: random_bytes(),
        },
        filled("all K", b'K'),
        filled("all B", b'B'),
        filled("all D3", 0xD3),
        Case {
            name: "B, and D3 once in 64",
            bytes: (0..MIB).map(rare_first_byte).collect(),
        },
    ]
}

/// B, but D3 at every 64th offset.
fn rare_first_byte(offset: usize) -> u8 {
    match offset % RARE {
        0 => 0xD3,
        _ => b'B',
    }
}

/// Measures one content and prints the times.
fn print_row(case: &Case) -> io::Result<()> {
    let bytes = &case.bytes[..];
    let by_fours = || exports::find_mark(black_box(bytes), 0);
    let plain = || exports::find_mark_plain(black_box(bytes), 0);
    let libc = || exports::find_bytes(black_box(bytes), MARK).unwrap_or(bytes.len());
    if [by_fours(), plain(), libc()] != [MIB; 3] {
        return Err(io::Error::other("a mark was found where there is none"));
    }
    let [by_fours, plain, libc] = medians([&mut { by_fours }, &mut { plain }, &mut { libc }]);
    println!(
        "{:<36}{by_fours:>12.2}{plain:>12.2}{libc:>12.2}{:>12.2}{:>12.2}",
        case.name,
        by_fours / plain,
        by_fours / libc
    );
    Ok(())
}
