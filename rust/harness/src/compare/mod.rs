//! Compares what the proved functions report and write with what the second program reports. Also
//! checks that the answers of each of the two are consistent.

mod asked;
pub mod edit;
pub mod file;
mod loan;
mod nest;
pub mod read_back;
pub mod searches;
pub mod second;
pub mod stored;
