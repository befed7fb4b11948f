//! The goals for searches for a mark.

use super::goal::Goal;
use crate::format::text::MARK;

/// How many bytes the search in the proved core tests together.
pub const BLOCK: usize = 64;

/// Where a search started, and what it has to find.
pub struct Search {
    pub start: usize,
    pub found: usize,
}

impl Search {
    /// Returns the distance from the start to the mark. If there is no mark, it is the distance to
    /// the end.
    fn distance(&self) -> usize {
        self.found - self.start
    }

    /// Whether there is a mark.
    fn is_found(&self, bytes: &[u8]) -> bool {
        self.found < bytes.len()
    }
}

/// Returns all goals for the searched strings.
pub fn goals() -> Vec<Goal<Search>> {
    let mut goals = vec![
        goal("search, no bytes", |bytes, _| bytes.is_empty()),
        goal("search, start past the end", |bytes, search| {
            search.start > bytes.len()
        }),
        goal("search, no mark", |bytes, search| {
            search.found >= bytes.len()
        }),
        goal("search, part of a mark at the end", |bytes, search| {
            search.found == bytes.len() && bytes.ends_with(&MARK[..3])
        }),
        goal("search, a mark at the start", |bytes, search| {
            search.is_found(bytes) && search.distance() == 0
        }),
        goal(
            "search, a mark across a 64-byte boundary",
            |bytes, search| {
                search.is_found(bytes) && search.distance() % BLOCK > BLOCK - MARK.len()
            },
        ),
        goal("search, a mark near the end", |bytes, search| {
            search.is_found(bytes) && bytes.len() - search.found < BLOCK
        }),
    ];
    goals.extend((0..MARK.len()).map(|place| {
        goal(
            format!("search, a mark at byte {place} of a group of four"),
            move |bytes, search| {
                search.is_found(bytes)
                    && search.distance() >= BLOCK
                    && search.distance() % MARK.len() == place
            },
        )
    }));
    goals
}

/// Makes a goal that a search reaches. The place is the distance from the start to what is found.
fn goal(
    name: impl Into<String>,
    reached: impl Fn(&[u8], &Search) -> bool + 'static,
) -> Goal<Search> {
    Goal::new(name, move |bytes, search: &Search| {
        let distance = search.distance();
        reached(bytes, search)
            .then_some(distance)
            .into_iter()
            .collect()
    })
}
