//! Checks what docs/PROMISES.md says about all promises together. Every public function has a
//! promise, and none has a condition. The promises that carry the demands cite only definitions of
//! `crates/format/specs`, the one folder that a reader has to believe.

use std::collections::BTreeMap;
use std::fs;
use std::path::{Path, PathBuf};

/// The folder of the crates, from this package's folder.
const CRATES: &str = concat!(env!("CARGO_MANIFEST_DIR"), "/../../crates");

/// The sources whose public functions docs/PROMISES.md names. The steps and leaves under them may
/// cite definitions that are beside them.
const DEMANDS: [&str; 7] = [
    "asdf/src/lib.rt",
    "edit/src/lib.rt",
    "file/src/index_writer.rt",
    "file/src/layout.rt",
    "listing/src/lib.rt",
    "nest/src/lib.rt",
    "outline/src/stored.rt",
];

/// A public function: its first line, and the lines of its promise.
struct Function {
    name: String,
    promise: Vec<String>,
}

/// All files below a folder whose paths end with `suffix`, but for those that were built.
fn files(folder: &Path, suffix: &str) -> Vec<PathBuf> {
    let entries = fs::read_dir(folder).unwrap().map(|e| e.unwrap().path());
    entries
        .filter(|path| !path.ends_with("out"))
        .flat_map(|path| match path.is_dir() {
            true => files(&path, suffix),
            false => vec![path],
        })
        .filter(|path| path.to_string_lossy().ends_with(suffix))
        .collect()
}

/// The public functions of a source, including methods. A promise ends where the body begins. If
/// the brace of the body is on the line of the signature, there is no promise.
fn public_functions(source: &str) -> Vec<Function> {
    let mut found = Vec::new();
    let mut lines = source.lines().map(str::trim);
    while let Some(line) = lines.next() {
        let public = ["pub fn ", "pub extern \"C\" fn "];
        if public.iter().any(|start| line.starts_with(start)) {
            let mut promise = Vec::new();
            let mut last = line;
            while !last.ends_with('{') {
                last = lines.next().expect("a function has a body");
                promise.push(last.to_string());
            }
            let name = line.to_string();
            found.push(Function { name, promise });
        }
    }
    found
}

/// The names that a source imports for its promises, each with the module that it comes from.
fn imported(source: &str) -> BTreeMap<String, String> {
    let uses = source.lines().filter_map(|l| l.strip_prefix("ghost use "));
    uses.flat_map(|item| {
        let item = item.trim_end_matches(';');
        let (module, names) = match item.split_once(".{") {
            Some((module, names)) => (module, names.trim_end_matches('}')),
            None => (item, item),
        };
        names.split(", ").map(move |name| {
            let name = name.rsplit_once(" as ").map_or(name, |(_, name)| name);
            (name.to_string(), module.to_string())
        })
    })
    .collect()
}

#[test]
fn a_function_without_a_promise_is_seen() {
    let source = "pub fn bare() -> u8 {\n}\npub fn kept() -> u8\n    ensures { fact }\n{\n}\n";
    let functions = public_functions(source);
    let promises: Vec<usize> = functions.iter().map(|f| f.promise.len()).collect();
    assert_eq!(promises, [0, 2]);
}

#[test]
fn every_public_function_has_a_promise_and_no_condition() {
    let sources = files(Path::new(CRATES), ".rt");
    let functions: Vec<Function> = sources
        .iter()
        .filter(|path| !path.ends_with("src/main.rt"))
        .flat_map(|path| public_functions(&fs::read_to_string(path).unwrap()))
        .collect();
    assert!(functions.len() > 40, "too few functions were found");
    for Function { name, promise } in functions {
        assert!(promise.iter().any(|l| l.starts_with("ensures")), "{name}");
        assert!(!promise.iter().any(|l| l.starts_with("requires")), "{name}");
    }
}

#[test]
fn the_demands_are_promised_in_one_folder() {
    for file in DEMANDS {
        let source = fs::read_to_string(Path::new(CRATES).join(file)).unwrap();
        let imported = imported(&source);
        let functions = public_functions(&source);
        assert!(!functions.is_empty(), "{file}");
        for Function { name, promise } in functions {
            let words = promise.iter().flat_map(|line| line.split([' ', '(', ')']));
            let modules: Vec<&String> = words.filter_map(|word| imported.get(word)).collect();
            assert!(!modules.is_empty(), "{name} cites nothing");
            for module in modules {
                let of_kit = module.starts_with("Rattle.std.");
                let elsewhere = module.starts_with("Rattle.") && !of_kit;
                let there = module.starts_with("Rattle.format.specs.");
                assert!(there || !elsewhere, "{name} cites {module}");
            }
        }
    }
}
