//! What the documents show is what the tool prints and what the sources say, and their links lead somewhere.

mod common;

use common::*;
use std::fs;
use std::path::{Path, PathBuf};

/// A part of a document between fences, with the words after the first fence.
struct Fenced {
    words: String,
    text: String,
}

fn root() -> PathBuf {
    Path::new(DATA).join("../..")
}

fn read(name: &str) -> String {
    fs::read_to_string(root().join(name)).unwrap_or_else(|error| panic!("{name}: {error}"))
}

/// The names of all documents, from the repository's root.
fn documents() -> Vec<String> {
    let mut names: Vec<String> = ["README.md", "CONTRIBUTING.md", "tests/data/README.md"]
        .map(String::from)
        .to_vec();
    for folder in ["docs", "docs/landings"] {
        for entry in fs::read_dir(root().join(folder)).unwrap() {
            let name = entry.unwrap().file_name().into_string().unwrap();
            if name.ends_with(".md") {
                names.push(format!("{folder}/{name}"));
            }
        }
    }
    names
}

/// The fenced parts of a document.
fn fenced(document: &str) -> Vec<Fenced> {
    let parts: Vec<&str> = document.split("\n```").collect();
    // Every second part is inside.
    parts
        .iter()
        .skip(1)
        .step_by(2)
        .map(|part| {
            let (words, text) = part.split_once('\n').unwrap_or((part, ""));
            Fenced {
                words: words.to_string(),
                text: text.to_string(),
            }
        })
        .collect()
}

#[test]
fn listings_in_the_documents_are_what_is_printed() {
    let mut shown = 0;
    for name in documents() {
        for part in fenced(&read(&name)) {
            let Some(call) = part.text.strip_prefix("$ asdf-layout ") else {
                continue;
            };
            let (words, output) = call.split_once('\n').unwrap();
            let words: Vec<&str> = words.split(' ').collect();
            let ran = command(&words).current_dir(root()).output().unwrap();
            assert_eq!(
                Ran::from(ran).output.trim_end(),
                output.trim_end(),
                "{name}"
            );
            shown += 1;
        }
    }
    assert_eq!(shown, 3);
}

#[test]
fn plain_listing_in_the_readme_is_that_of_the_file_above_it() {
    let listing = read("tests/data/nested-3.listing");
    let readme = fenced(&read("README.md"));
    assert!(readme.iter().any(|part| part.text == listing.trim_end()));
}

#[test]
fn sources_that_the_documents_quote_say_so() {
    let mut quoted = 0;
    for name in documents() {
        for part in fenced(&read(&name)) {
            if let Some((_, path)) = part.words.split_once(' ') {
                let source = read(path);
                assert!(
                    source.contains(&part.text),
                    "{name}: {path} has no such lines"
                );
                quoted += 1;
            }
        }
    }
    assert!(quoted >= 5, "{quoted}");
}

#[test]
fn picture_of_the_house_has_every_crate() {
    let house = read("docs/HOUSE.md");
    let crates = read("crates.txt");
    let names = crates
        .lines()
        .filter(|line| !line.starts_with('#'))
        .filter_map(|line| line.split([' ', ':']).next());
    for name in names {
        // A field of the picture begins with the name; one crate is named below it.
        let entries = [
            format!("│ {name} "),
            format!("`{name}` is not part of the house"),
        ];
        assert!(entries.iter().any(|entry| house.contains(entry)), "{name}");
    }
}

/// The name that a heading has in a link.
fn anchor(heading: &str) -> String {
    let kept = heading
        .trim_start_matches('#')
        .trim()
        .to_lowercase()
        .replace(' ', "-");
    kept.chars()
        .filter(|c| c.is_alphanumeric() || *c == '-' || *c == '_')
        .collect()
}

#[test]
fn links_in_the_documents_lead_somewhere() {
    for name in documents() {
        let document = read(&name);
        let folder = root().join(&name).parent().unwrap().to_path_buf();
        for link in document.split("](").skip(1) {
            let link = link.split(')').next().unwrap();
            if link.starts_with("https://") {
                continue;
            }
            let (path, heading) = link.split_once('#').unwrap_or((link, ""));
            let target = if path.is_empty() {
                root().join(&name)
            } else {
                folder.join(path)
            };
            assert!(target.exists(), "{name}: {link}");
            let is_there = |text: String| {
                text.lines()
                    .any(|line| line.starts_with('#') && anchor(line) == heading)
            };
            if !heading.is_empty() {
                assert!(
                    is_there(fs::read_to_string(target).unwrap()),
                    "{name}: {link}"
                );
            }
        }
    }
}
