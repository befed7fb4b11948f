// Shared by the build scripts: links a static library of proved functions.

use std::path::Path;

/// The root of the repository, as seen from a package's folder.
const ROOT: &str = concat!(env!("CARGO_MANIFEST_DIR"), "/../..");

/// Links `crates/NAME/out/libNAME.a`, or reports how to make it.
fn link(name: &str) {
    let folder = Path::new(ROOT).join(format!("crates/{name}/out"));
    let library = folder.join(format!("lib{name}.a"));
    println!("cargo::rerun-if-changed={}", library.display());
    if library.exists() {
        println!("cargo::rustc-link-search=native={}", folder.display());
        println!("cargo::rustc-link-lib=static={name}");
    } else {
        println!("cargo::error=crates/{name}/out/lib{name}.a is missing: run `./test`, or `rt lib` in crates/{name}, first");
    }
}
