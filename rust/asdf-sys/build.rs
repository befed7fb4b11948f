//! Links the proved static library of this repository.

include!("../link.rs");

fn main() {
    link("asdf");
}
