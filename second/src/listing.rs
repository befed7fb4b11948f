//! Makes the listing, which is what the program described in the rules prints.

use crate::layout::{judge, Tree};
use crate::outline::rows_of;

/// The length of the longest input that the program accepts.
pub const PROGRAM_LIMIT: usize = 65_536;

/// Returns what the program prints for this input. The outline always fits into the program's
/// 65,536 bytes, since an input up to the limit has at most 1,213 rows.
pub fn listing(input: &[u8]) -> Vec<u8> {
    if input.len() > PROGRAM_LIMIT {
        return b"too long for this program\n".to_vec();
    }
    match judge(input) {
        Err(refusal) => format!("{refusal}\n").into_bytes(),
        Ok(judged) => {
            let tree = tree_text(judged.tree);
            let rows: String = rows_of(input, &judged)
                .iter()
                .map(|row| format!("{row}\n"))
                .collect();
            let index = judged.index_verdict(input);
            format!("{tree}{rows}index {index}\n").into_bytes()
        }
    }
}

/// Returns the line that states the tree's extent.
fn tree_text(tree: Option<Tree>) -> String {
    match tree {
        None => "tree none\n".to_string(),
        Some(tree) => format!("tree {} {}\n", tree.start.0, tree.end.0),
    }
}
