//! Checks that the three declarations of each function agree: in the proved exports, in the C
//! header and in this crate. The names have to be the same, and so do the kinds of the parameters
//! and their order.

use std::collections::BTreeMap;
use std::fs;
use std::path::Path;

/// The repository's root, from this package's folder.
const ROOT: &str = concat!(env!("CARGO_MANIFEST_DIR"), "/../..");

/// The C types of each function by its name: those of its parameters, followed by the type that it
/// returns.
type Declarations = BTreeMap<String, Vec<&'static str>>;

/// The text of a file in the repository.
fn text(path: impl AsRef<Path>) -> String {
    fs::read_to_string(Path::new(ROOT).join(path)).unwrap()
}

/// All sources of the exports, one after another.
fn export_sources() -> String {
    let folder = fs::read_dir(Path::new(ROOT).join("crates/asdf/src")).unwrap();
    folder.map(|entry| text(entry.unwrap().path())).collect()
}

/// The functions that a source declares. The words `before` precede the name of each.
fn declared(
    source: &str,
    before: &str,
    returned: impl Fn(&str) -> &'static [&'static str],
    parameter: impl Fn(&str) -> &'static [&'static str],
) -> Declarations {
    let mut found = Declarations::new();
    for declaration in source.split(before).skip(1) {
        let (name, rest) = declaration.split_once('(').unwrap();
        let (parameters, rest) = rest.split_once(')').unwrap();
        let parameters = parameters.split(',').map(str::trim);
        let named = parameters.filter(|parameter| !parameter.is_empty());
        let mut kinds: Vec<&str> = named.flat_map(&parameter).copied().collect();
        kinds.extend(returned(rest));
        found.insert(name.to_string(), kinds);
    }
    found
}

/// The type after a mark, in a parameter `name: type` or in a result `-> type`.
fn type_after<'a>(text: &'a str, mark: &str) -> &'a str {
    text.split_once(mark).unwrap().1.trim()
}

/// The C types for a type of Rattle. A slice is a pointer and a length.
fn rattle_type(name: &str) -> &'static [&'static str] {
    match name {
        "&[u8]" => &["const uint8_t *", "size_t"],
        "&mut [u8]" => &["uint8_t *", "size_t"],
        "u64" => &["uint64_t"],
        other => panic!("unknown type {other}"),
    }
}

/// The C type for a type of Rust.
fn rust_type(name: &str) -> &'static [&'static str] {
    match name {
        "*const u8" => &["const uint8_t *"],
        "*mut u8" => &["uint8_t *"],
        "usize" => &["size_t"],
        "u64" => &["uint64_t"],
        other => panic!("unknown type {other}"),
    }
}

/// The C type with which a parameter begins. The name of the parameter follows it.
fn c_type(parameter: &str) -> &'static [&'static str] {
    let known: [&'static [&'static str]; 4] = [
        &["const uint8_t *"],
        &["uint8_t *"],
        &["size_t"],
        &["uint64_t"],
    ];
    let is_type = |kind: &&&[&str]| parameter.starts_with(kind[0]);
    known.iter().find(is_type).unwrap()
}

/// The text before the first of these characters.
fn up_to<'a>(text: &'a str, ends: &[char]) -> &'a str {
    text.split(ends).next().unwrap().trim()
}

/// The proved exports.
fn exports() -> Declarations {
    declared(
        &export_sources(),
        "pub extern \"C\" fn ",
        |rest| rattle_type(up_to(type_after(rest, "->"), &['\n', '{'])),
        |parameter| rattle_type(type_after(parameter, ":")),
    )
}

#[test]
fn header_declares_what_is_exported() {
    let header = declared(
        &text("include/asdf_layout.h"),
        "\nuint64_t ",
        |_| &["uint64_t"],
        c_type,
    );
    assert_eq!(header, exports());
}

#[test]
fn this_crate_declares_what_is_exported() {
    let here = declared(
        &text("rust/asdf-sys/src/lib.rs").replace("fn asdf_", "\u{0}asdf_"),
        "\u{0}",
        |rest| rust_type(up_to(type_after(rest, "->"), &[';'])),
        |parameter| rust_type(type_after(parameter, ":")),
    );
    assert_eq!(here, exports());
}
