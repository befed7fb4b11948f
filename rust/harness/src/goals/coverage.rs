//! Counts how often the files of a run reach each goal.

use super::goal::Goal;
use crate::answers::file::Answers;
use std::collections::HashSet;
use std::fmt;

/// A goal, how often it was reached, and at which places.
struct Reached<A> {
    goal: Goal<A>,
    times: u64,
    places: HashSet<usize>,
}

/// What the files of a run have reached so far.
pub struct Coverage<A = Answers> {
    reached: Vec<Reached<A>>,
}

impl<A> Coverage<A> {
    /// Starts with no goal reached.
    pub fn new(goals: Vec<Goal<A>>) -> Coverage<A> {
        let reached = goals.into_iter().map(|goal| Reached {
            goal,
            times: 0,
            places: HashSet::new(),
        });
        Coverage {
            reached: reached.collect(),
        }
    }

    /// Counts the goals that one file reaches.
    pub fn count(&mut self, file: &[u8], answers: &A) {
        for reached in &mut self.reached {
            let places = (reached.goal.places)(file, answers);
            reached.times += places.len() as u64;
            reached.places.extend(places);
        }
    }

    /// Returns the names of the goals that were never reached.
    pub fn missing(&self) -> Vec<String> {
        self.reached
            .iter()
            .filter(|reached| reached.times == 0)
            .map(|reached| reached.goal.name.clone())
            .collect()
    }
}

impl<A> fmt::Display for Coverage<A> {
    /// Writes a table with one line for each goal.
    fn fmt(&self, f: &mut fmt::Formatter<'_>) -> fmt::Result {
        writeln!(f, "{:<52}{:>10}{:>10}", "goal", "times", "places")?;
        for reached in &self.reached {
            writeln!(
                f,
                "{:<52}{:>10}{:>10}",
                reached.goal.name,
                reached.times,
                reached.places.len()
            )?;
        }
        Ok(())
    }
}

#[cfg(test)]
mod tests {
    use super::super::{edits, of_files, stored};
    use super::*;

    #[test]
    fn reached_goals_are_no_longer_missing() {
        let mut coverage = Coverage::new(of_files());
        let all = coverage.missing().len();
        let file = b"#ASDF 2.0.0\n";
        coverage.count(file, &Answers::to(file));
        assert_eq!(coverage.missing().len(), all - 1);
        assert!(!coverage.missing().contains(&"refused 4".to_string()));
    }

    #[test]
    fn no_two_goals_have_the_same_name() {
        let files = Coverage::new(of_files()).missing();
        let stored = Coverage::new(stored::goals()).missing();
        let names = [files, stored, Coverage::new(edits::goals()).missing()].concat();
        let different: HashSet<&String> = names.iter().collect();
        assert_eq!(different.len(), names.len());
    }
}
