//! A goal: something that a run has to reach.

use crate::answers::file::Answers;
use asdf_second::{Block, Record};

/// A function that finds the places at which a file reaches a goal, given the answers to this file.
type Places<A> = dyn Fn(&[u8], &A) -> Vec<usize>;

/// Something that a run has to reach at least once.
pub struct Goal<A = Answers> {
    pub name: String,
    pub places: Box<Places<A>>,
}

impl<A> Goal<A> {
    /// Makes a goal that is reached at these places.
    pub fn new(
        name: impl Into<String>,
        places: impl Fn(&[u8], &A) -> Vec<usize> + 'static,
    ) -> Goal<A> {
        Goal {
            name: name.into(),
            places: Box::new(places),
        }
    }
}

impl Goal {
    /// Makes a goal that a file reaches at these places.
    pub fn at(
        name: impl Into<String>,
        places: impl Fn(&[u8], &Answers) -> Vec<usize> + 'static,
    ) -> Goal {
        Goal::new(name, places)
    }

    /// Makes a goal that an accepted file reaches as a whole. Its place is 0.
    pub fn of_file(
        name: impl Into<String>,
        reached: impl Fn(&[u8], &Answers) -> bool + 'static,
    ) -> Goal {
        Goal::at(name, move |file, answers| {
            let reached = answers.layout.is_ok() && reached(file, answers);
            reached.then_some(0).into_iter().collect()
        })
    }

    /// Makes a goal that a file reaches if it is refused with this number and `reached` holds for
    /// the refusal's place.
    pub fn of_refusal(
        name: impl Into<String>,
        number: u8,
        reached: impl Fn(&[u8], usize) -> bool + 'static,
    ) -> Goal {
        Goal::at(name, move |file, answers| {
            let place = answers.refused_with(number);
            place
                .filter(|&place| reached(file, place))
                .into_iter()
                .collect()
        })
    }

    /// Makes a goal that records reach.
    pub fn of_record(name: impl Into<String>, reached: impl Fn(&Record) -> bool + 'static) -> Goal {
        Goal::of_record_in(name, move |_, record| reached(record))
    }

    /// Makes a goal that records reach. `reached` also gets the bytes of the outermost file.
    pub fn of_record_in(
        name: impl Into<String>,
        reached: impl Fn(&[u8], &Record) -> bool + 'static,
    ) -> Goal {
        Goal::at(name, move |file, answers| {
            let records = answers.records().iter();
            let reached = records.filter(|record| reached(file, record));
            reached.map(|record| record.offset.0 as usize).collect()
        })
    }

    /// Makes a goal that blocks of the file itself reach, not those of inner files.
    pub fn of_block(
        name: impl Into<String>,
        reached: impl Fn(&[u8], &Block) -> bool + 'static,
    ) -> Goal {
        Goal::at(name, move |file, answers| {
            let reached = answers.blocks().iter().filter(|block| reached(file, block));
            reached.map(|block| block.offset.0 as usize).collect()
        })
    }
}
