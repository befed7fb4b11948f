//! Links the proved searches that are compared and timed; asdf-sys links the library of the core.

include!("../link.rs");

fn main() {
    link("bench");
}
