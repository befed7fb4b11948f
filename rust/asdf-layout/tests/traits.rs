//! Checks that the public types can be compared, copied, hashed and sent as users expect.

use asdf_layout::{
    Block, Inner, InnerState, Layout, LineEnd, Outline, Reason, Record, Records, Refusal, Row,
    Tree, Verdict, Version,
};
use std::fmt::Debug;
use std::hash::Hash;

fn is_value<T: Clone + Debug + Eq + Hash + Send + Sync>() {}
fn is_small_value<T: Copy + Debug + Eq + Hash + Send + Sync>() {}

#[test]
fn public_types_have_the_common_traits() {
    is_small_value::<Block>();
    is_small_value::<Inner>();
    is_small_value::<InnerState>();
    is_small_value::<Layout>();
    is_small_value::<LineEnd>();
    is_small_value::<Reason>();
    is_small_value::<Record>();
    is_small_value::<Refusal>();
    is_small_value::<Row>();
    is_small_value::<Tree>();
    is_small_value::<Verdict>();
    is_small_value::<Version>();
    is_value::<Outline>();
    is_value::<Records>();
}

#[test]
fn versions_are_ordered_by_their_numbers() {
    let version = |(major, minor, patch)| Version {
        major,
        minor,
        patch,
    };
    let rising = [
        (1, 0, 0),
        (1, 0, 2),
        (1, 0, 10),
        (1, 2, 0),
        (1, 10, 0),
        (2, 0, 0),
    ];
    assert!(rising.map(version).is_sorted_by(|a, b| a < b));
}
