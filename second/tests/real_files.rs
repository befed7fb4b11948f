//! Tests the real files in tests/data. Each has its listing beside it.

use asdf_second::listing;
use std::fs;
use std::path::{Path, PathBuf};

/// The number of files that are there. More may be added, but none may get lost.
const AT_LEAST: usize = 18;

/// Returns the paths in tests/data with this extension, in the order of their names.
fn data_files(extension: &str) -> Vec<PathBuf> {
    let folder = Path::new(env!("CARGO_MANIFEST_DIR")).join("../tests/data");
    let mut paths: Vec<PathBuf> = fs::read_dir(folder)
        .unwrap()
        .map(|entry| entry.unwrap().path())
        .filter(|path| path.extension().is_some_and(|found| found == extension))
        .collect();
    paths.sort();
    paths
}

#[test]
fn every_file_has_its_listing() {
    let files = data_files("asdf");
    assert!(files.len() >= AT_LEAST, "only {} files", files.len());
    let beside: Vec<PathBuf> = files
        .iter()
        .map(|file| file.with_extension("listing"))
        .collect();
    assert_eq!(beside, data_files("listing"));
}

#[test]
fn every_listing_is_printed_as_stored() {
    for file in data_files("asdf") {
        let printed = listing(&fs::read(&file).unwrap());
        let stored = fs::read(file.with_extension("listing")).unwrap();
        assert_eq!(
            String::from_utf8_lossy(&printed),
            String::from_utf8_lossy(&stored),
            "{}",
            file.display()
        );
    }
}
