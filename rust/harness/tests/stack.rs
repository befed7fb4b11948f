//! Tests how much stack the walk of files inside files takes.

use asdf_harness::run::stack::walk_with_stack;

/// 32 KiB: the stack grows with the depth of the files and not with the number of their blocks. Use
/// `asdf-harness --stack BYTES` to try other sizes. A system may give a thread more than was asked
/// for.
const STACK_BYTES: usize = 1 << 15;

#[test]
fn deepest_files_are_walked_with_a_small_stack() {
    assert_eq!(walk_with_stack(STACK_BYTES).unwrap(), Ok(()));
}
