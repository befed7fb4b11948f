//! The benchmark: measures the proved functions against those of the second program and a bare
//! search of libc.

#![deny(unsafe_code)]

mod blocks;
mod edit;
mod index;
mod measure;
mod outline;
mod read;
mod records;
mod search;

use measure::RUNS;
use std::io;

fn main() -> io::Result<()> {
    println!("median of {RUNS} runs each; times in microseconds; floor: memchr, memmem or memcmp of libc");
    read::print_table()?;
    println!();
    println!("outlines; plain: the same for a tree in lines of 41 bytes, as long as the file");
    outline::print_table()?;
    println!();
    println!("records and counts of the same files");
    records::print_table()?;
    println!();
    println!("edits in place");
    edit::print_table()?;
    println!();
    println!("the search for a mark over 1 MiB without one");
    search::print_table()
}
