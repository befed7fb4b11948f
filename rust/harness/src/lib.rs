//! Generates test files, and compares what the proved functions and the second program report about
//! them.
//!
//! | Folder | Holds |
//! |---|---|
//! | `format` | the words, fields, limits and refusal numbers of the format |
//! | `calls` | the proved functions, and how often each was called in which way |
//! | `answers` | what the second program reports |
//! | `files` | files that are made by hand |
//! | `generate` | files, stored outlines and edits that are made from a seed |
//! | `goals` | what a run has to reach |
//! | `compare` | the comparisons of the proved functions with the second program |
//! | `run` | what the command does |
//!
//! Each folder uses only the folders above it, except in unit tests. So no two depend on each
//! other.

#![deny(unsafe_code)]

mod answers;
pub mod calls;
mod compare;
pub mod files;
pub mod format;
pub mod generate;
mod goals;
pub mod rng;
pub mod run;
mod same;
