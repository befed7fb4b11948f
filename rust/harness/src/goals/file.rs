//! The goals for a file as a whole: each refusal, each verdict, and the optional parts.

use super::goal::Goal;
use super::searches::BLOCK;
use crate::answers::file::Answers;
use crate::format::text::{places_of, MARK};
use asdf_second::Verdict;

/// All verdicts on an index.
pub const VERDICTS: [Verdict; 4] = [
    Verdict::Absent,
    Verdict::Good,
    Verdict::IgnoredForm,
    Verdict::IgnoredList,
];

/// Returns all goals for a file as a whole.
pub fn goals() -> Vec<Goal> {
    [refusals(), verdicts(), parts()]
        .into_iter()
        .flatten()
        .collect()
}

/// Returns a goal for each number with which a file is refused.
fn refusals() -> Vec<Goal> {
    (1..=17)
        .map(|number| Goal::of_refusal(format!("refused {number}"), number, |_, _| true))
        .collect()
}

/// Returns a goal for each verdict on an index.
fn verdicts() -> Vec<Goal> {
    VERDICTS
        .map(|verdict| {
            Goal::of_file(format!("index {verdict}"), move |_, answers| {
                answers.verdict() == Some(verdict)
            })
        })
        .into()
}

/// Returns goals for the optional parts of a file.
fn parts() -> Vec<Goal> {
    vec![
        Goal::of_file("no comments", |_, answers| !has_comments(answers)),
        Goal::of_file("comments", |_, answers| has_comments(answers)),
        Goal::of_file("no tree", |_, answers| answers.tree().is_none()),
        Goal::of_file("tree", |_, answers| answers.tree().is_some()),
        Goal::of_file("tree without free space", |_, answers| {
            answers.tree().is_some_and(|tree| tree.end == tree.room_end)
        }),
        Goal::of_file("tree with free space", |_, answers| {
            answers.tree().is_some_and(|tree| tree.end < tree.room_end)
        }),
        Goal::of_file("free space of 64 bytes or more", |_, answers| {
            free_space(answers).is_some_and(|length| length >= BLOCK)
        }),
        Goal::of_file("first mark across a 64-byte boundary", |_, answers| {
            let over = |length: usize| length % BLOCK > BLOCK - MARK.len();
            !answers.blocks().is_empty() && free_space(answers).is_some_and(over)
        }),
        Goal::of_file("tree with a mark inside", |file, answers| {
            answers.tree().is_some_and(|tree| {
                let bytes = &file[tree.start.0 as usize..tree.end.0 as usize];
                !places_of(bytes, MARK).is_empty()
            })
        }),
    ]
}

/// Returns the length of the free space after the tree, if there is a tree.
fn free_space(answers: &Answers) -> Option<usize> {
    let tree = answers.tree()?;
    Some((tree.room_end.0 - tree.end.0) as usize)
}

/// Whether the file is accepted and has comments.
fn has_comments(answers: &Answers) -> bool {
    answers
        .layout
        .as_ref()
        .is_ok_and(|layout| layout.comments.start < layout.comments.end)
}
