//! The goals for edits.

use super::file::VERDICTS;
use super::goal::Goal;
use super::index::{has_dashes, index};
use super::line_ends::{line_end, line_ends_in};
use crate::answers::edit::{is_one_tree, EditAnswers};
use crate::answers::gaps::gaps;
use crate::format::refusals::{
    EDIT_WITHOUT_TREE, NEITHER_TREE_NOR_BLOCK, SECOND_START_LINE, TEXT_LONGER_THAN_ROOM,
    TEXT_NOT_ONE_TREE, TREE_NOT_ENDED, WRONG_LINE_BEFORE_START,
};
use crate::format::text::{after_first_line, places_of, MARK, YAML_LINE};
use asdf_second::{Block, Inner, LineEnd, Record, Verdict};

/// A goal that an edit can reach.
type EditGoal = Goal<EditAnswers>;

/// Returns all goals for edits.
pub fn goals() -> Vec<EditGoal> {
    [
        refusals(),
        orders(),
        lengths(),
        rooms(),
        texts(),
        files(),
        verdicts(),
        beginnings(),
        ends(),
        lines(),
    ]
    .into_iter()
    .flatten()
    .collect()
}

/// An edit: the bytes of the file, the offsets of its tree and room, and the answers to the edit.
struct Seen<'a> {
    bytes: &'a [u8],
    start: usize,
    end: usize,
    room_end: usize,
    answers: &'a EditAnswers,
}

impl<'a> Seen<'a> {
    /// Takes the offsets from the tree of the file. They are 0 if there is no tree.
    fn new(bytes: &'a [u8], answers: &'a EditAnswers) -> Seen<'a> {
        let places = answers.file.tree().map_or([0; 3], |tree| {
            [tree.start, tree.end, tree.room_end].map(|at| at.0 as usize)
        });
        let [start, end, room_end] = places;
        Seen {
            bytes,
            start,
            end,
            room_end,
            answers,
        }
    }

    /// Returns the text that is to replace the tree.
    fn text(&self) -> &[u8] {
        &self.answers.text
    }

    /// Returns the old tree.
    fn old(&self) -> &[u8] {
        &self.bytes[self.start..self.end]
    }

    /// Returns the free space after the old tree.
    fn free_space(&self) -> &[u8] {
        &self.bytes[self.end..self.room_end]
    }

    /// Returns the length of the room.
    fn room(&self) -> usize {
        self.room_end - self.start
    }

    /// Whether every line of the text has this line end.
    fn ends_only_with(&self, kind: LineEnd) -> bool {
        line_ends_in(self.text()).iter().all(|&end| end == kind)
    }

    /// Whether the header line of the file has this line end.
    fn header_ends_with(&self, kind: LineEnd) -> bool {
        line_end(&self.answers.file) == Some(kind)
    }

    /// Whether the file has an index with dashes.
    fn has_dashes(&self) -> bool {
        index(self.bytes, &self.answers.file).is_some_and(has_dashes)
    }

    /// Whether the room reaches to the end of the file.
    fn is_last(&self) -> bool {
        self.answers.file.blocks().is_empty()
    }

    /// Whether there is a gap between two blocks at a depth that is `wanted`.
    fn has_gap(&self, wanted: impl Fn(u8) -> bool) -> bool {
        let gaps = gaps(self.bytes, &self.answers.file);
        gaps.iter().any(|gap| wanted(gap.after.depth))
    }

    /// Whether a block of the file or of an inner file is `wanted`.
    fn has_record(&self, wanted: impl Fn(&Record) -> bool) -> bool {
        self.answers.file.records().iter().any(wanted)
    }
}

/// Makes a goal that an edit reaches at the start of its tree.
fn goal(name: impl Into<String>, reached: impl Fn(&Seen) -> bool + 'static) -> EditGoal {
    EditGoal::new(name, move |bytes, answers| {
        let seen = Seen::new(bytes, answers);
        let place = reached(&seen).then_some(seen.start);
        place.into_iter().collect()
    })
}

/// Makes a goal that only an accepted edit reaches.
fn edited(name: impl Into<String>, reached: impl Fn(&Seen) -> bool + 'static) -> EditGoal {
    goal(name, move |seen| {
        seen.answers.outcome.is_ok() && reached(seen)
    })
}

/// Makes a goal that only an edit refused with this number reaches.
fn refused(name: &str, number: u8, reached: impl Fn(&Seen) -> bool + 'static) -> EditGoal {
    goal(format!("edit, {name} ({number})"), move |seen| {
        seen.answers.refused_with(number).is_some() && reached(seen)
    })
}

/// Returns a goal for each number with which an edit is refused.
fn refusals() -> Vec<EditGoal> {
    (1..=TEXT_LONGER_THAN_ROOM)
        .map(|number| {
            EditGoal::new(format!("edit refused {number}"), move |_, answers| {
                answers.refused_with(number).into_iter().collect()
            })
        })
        .collect()
}

/// Returns goals for edits that could be refused for two reasons. The first reason counts.
fn orders() -> Vec<EditGoal> {
    vec![
        goal("edit, file refused, text is no tree", |seen| {
            seen.answers.file.layout.is_err() && !is_one_tree(seen.text())
        }),
        goal("edit, file refused, text is a tree", |seen| {
            seen.answers.file.layout.is_err() && is_one_tree(seen.text())
        }),
        refused(
            "file has no tree, text is no tree",
            EDIT_WITHOUT_TREE,
            |seen| !is_one_tree(seen.text()),
        ),
        refused(
            "file has no tree, text is a tree",
            EDIT_WITHOUT_TREE,
            |seen| is_one_tree(seen.text()),
        ),
        refused("text wrong and too long", TEXT_NOT_ONE_TREE, |seen| {
            seen.text().len() > seen.room()
        }),
        refused("text wrong, but short enough", TEXT_NOT_ONE_TREE, |seen| {
            seen.text().len() <= seen.room()
        }),
    ]
}

/// Returns goals for texts as long as the room or the old tree, and texts that are shorter or
/// longer.
fn lengths() -> Vec<EditGoal> {
    let too_long = TEXT_LONGER_THAN_ROOM;
    vec![
        edited("edited, no space left", |seen| {
            seen.text().len() == seen.room()
        }),
        edited("edited, one space left", |seen| {
            seen.text().len() + 1 == seen.room()
        }),
        edited("edited, spaces left", |seen| {
            seen.text().len() < seen.room()
        }),
        edited("edited, text longer than the tree", |seen| {
            seen.text().len() > seen.old().len()
        }),
        edited("edited, text shorter than the tree", |seen| {
            seen.text().len() < seen.old().len()
        }),
        refused("text one byte too long", too_long, |seen| {
            seen.text().len() == seen.room() + 1
        }),
        refused("text two or more bytes too long", too_long, |seen| {
            seen.text().len() > seen.room() + 1
        }),
    ]
}

/// Returns goals for rooms without free space, and rooms that reach to the end of the file.
fn rooms() -> Vec<EditGoal> {
    let too_long = TEXT_LONGER_THAN_ROOM;
    vec![
        edited("edited, no free space after the old tree", |seen| {
            seen.free_space().is_empty()
        }),
        edited("edited, no free space, and no space left", |seen| {
            seen.free_space().is_empty() && seen.text().len() == seen.room()
        }),
        refused("no free space, text one byte too long", too_long, |seen| {
            seen.free_space().is_empty() && seen.text().len() == seen.room() + 1
        }),
        edited("edited, room to the end of the file", |seen| seen.is_last()),
        edited("edited, room to the end, no space left", |seen| {
            seen.is_last() && seen.text().len() == seen.room()
        }),
        refused(
            "room to the end, text one byte too long",
            too_long,
            |seen| seen.is_last() && seen.text().len() == seen.room() + 1,
        ),
        edited("edited, free space before a block", |seen| {
            !seen.is_last() && !seen.free_space().is_empty()
        }),
        edited("edited, part of a mark in the free space", |seen| {
            seen.free_space().contains(&MARK[0])
        }),
    ]
}

/// Returns goals for the kinds of texts that are accepted.
fn texts() -> Vec<EditGoal> {
    vec![
        edited("edited, equal text", |seen| seen.text() == seen.old()),
        edited("edited, equal text, free space not all spaces", |seen| {
            seen.text() == seen.old() && seen.free_space().iter().any(|&byte| byte != b' ')
        }),
        edited("edited, other text as long as the tree", |seen| {
            seen.text() != seen.old() && seen.text().len() == seen.old().len()
        }),
        edited("edited, mark in the text", |seen| has_mark(seen.text())),
        edited("edited, mark in the old tree", |seen| has_mark(seen.old())),
        edited("edited, only 0A line ends", |seen| {
            !seen.text().contains(&b'\r')
        }),
        edited("edited, only 0D 0A line ends", |seen| {
            seen.ends_only_with(LineEnd::Crlf)
        }),
        edited("edited, both line ends", |seen| {
            let ends = line_ends_in(seen.text());
            ends.contains(&LineEnd::Lf) && ends.contains(&LineEnd::Crlf)
        }),
    ]
}

/// Whether a text contains a mark.
fn has_mark(text: &[u8]) -> bool {
    !places_of(text, MARK).is_empty()
}

/// Returns goals for the kinds of files that are edited.
fn files() -> Vec<EditGoal> {
    vec![
        edited("edited, comments", |seen| {
            let layout = seen.answers.file.layout.as_ref();
            layout.is_ok_and(|layout| layout.comments.start < layout.comments.end)
        }),
        edited("edited, header ended by 0A, text by 0D 0A", |seen| {
            seen.header_ends_with(LineEnd::Lf) && seen.ends_only_with(LineEnd::Crlf)
        }),
        edited("edited, header ended by 0D 0A, text by 0A", |seen| {
            seen.header_ends_with(LineEnd::Crlf) && seen.ends_only_with(LineEnd::Lf)
        }),
        edited("edited, header and text ended by 0D 0A", |seen| {
            seen.header_ends_with(LineEnd::Crlf) && seen.ends_only_with(LineEnd::Crlf)
        }),
        edited("edited, 64 blocks", |seen| {
            seen.answers.file.blocks().len() == 64
        }),
        edited("edited, streamed block", |seen| {
            seen.answers.file.blocks().iter().any(Block::is_streamed)
        }),
        edited("edited, gap between blocks", |seen| {
            seen.has_gap(|depth| depth == 0)
        }),
        edited("edited, gap in an inner file", |seen| {
            seen.has_gap(|depth| depth > 0)
        }),
        edited("edited, good index after gaps", |seen| {
            seen.has_gap(|depth| depth == 0) && seen.answers.file.verdict() == Some(Verdict::Good)
        }),
        edited("edited, opened inner file", |seen| {
            seen.has_record(|record| record.inner == Inner::Opened)
        }),
        edited("edited, refused inner file", |seen| {
            seen.has_record(|record| matches!(record.inner, Inner::Refused(_)))
        }),
        edited("edited, inner file that is too deep", |seen| {
            seen.has_record(|record| record.inner == Inner::TooDeep)
        }),
    ]
}

/// Returns a goal for each verdict on the index of an edited file, and for each verdict on an index
/// with dashes.
fn verdicts() -> Vec<EditGoal> {
    let any = VERDICTS.map(|verdict| {
        edited(format!("edited, index {verdict}"), move |seen| {
            seen.answers.file.verdict() == Some(verdict)
        })
    });
    let with_dashes = VERDICTS
        .into_iter()
        .filter(|&verdict| verdict != Verdict::Absent);
    let with_dashes = with_dashes.map(|verdict| {
        edited(
            format!("edited, index with dashes {verdict}"),
            move |seen| seen.answers.file.verdict() == Some(verdict) && seen.has_dashes(),
        )
    });
    any.into_iter().chain(with_dashes).collect()
}

/// Makes a goal that is reached only by an edit whose text is not exactly one tree.
fn wrong_text(name: &str, reached: impl Fn(&[u8], &EditAnswers) -> bool + 'static) -> EditGoal {
    refused(name, TEXT_NOT_ONE_TREE, move |seen| {
        reached(seen.text(), seen.answers)
    })
}

/// Returns goals for texts that do not begin with the first line of a tree.
fn beginnings() -> Vec<EditGoal> {
    vec![
        wrong_text("empty text", |text, _| text.is_empty()),
        wrong_text("other first line", |_, answers| {
            answers.text_refused_with(NEITHER_TREE_NOR_BLOCK).is_some()
        }),
        wrong_text("comment before the tree", |text, _| {
            text.starts_with(b"#") && is_one_tree(after_first_line(text))
        }),
        wrong_text("header line before the tree", |text, _| {
            text.starts_with(b"#ASDF 1.0.0\n") && is_one_tree(after_first_line(text))
        }),
        wrong_text("blank line before the tree", |text, _| {
            text.starts_with(b"\n") && is_one_tree(&text[1..])
        }),
        wrong_text("space before the tree", |text, _| {
            text.starts_with(b" ") && is_one_tree(&text[1..])
        }),
    ]
}

/// Returns goals for texts that continue after a tree, or end too early.
fn ends() -> Vec<EditGoal> {
    vec![
        wrong_text("last 0A missing", |text, _| {
            is_one_tree(&[text, b"\n"].concat())
        }),
        wrong_text("blank line after the tree", |_, answers| {
            answers.after_tree() == Some(b"\n")
        }),
        wrong_text("space after the tree", |_, answers| {
            answers.after_tree() == Some(b" ")
        }),
        wrong_text("zero after the tree", |_, answers| {
            answers.after_tree() == Some(b"\0")
        }),
        wrong_text("another tree after the tree", |_, answers| {
            answers.after_tree().is_some_and(is_one_tree)
        }),
        wrong_text("mark after the tree", |text, _| {
            text.strip_suffix(MARK).is_some_and(is_one_tree)
        }),
        refused("tree with its free space", TEXT_NOT_ONE_TREE, |seen| {
            seen.text() == &seen.bytes[seen.start..seen.room_end]
        }),
        wrong_text("unterminated line", |text, answers| {
            let place = answers.text_refused_with(TREE_NOT_ENDED);
            place.is_some_and(|place| place < text.len())
        }),
        wrong_text("missing line", |text, answers| {
            answers.text_refused_with(TREE_NOT_ENDED) == Some(text.len())
        }),
    ]
}

/// Returns goals for texts with a wrong line, or without a line that they need.
fn lines() -> Vec<EditGoal> {
    vec![
        wrong_text("wrong line before the start line", |_, answers| {
            answers.text_refused_with(WRONG_LINE_BEFORE_START).is_some()
        }),
        wrong_text("`...` before the start line", |text, answers| {
            let place = answers.text_refused_with(WRONG_LINE_BEFORE_START);
            place.is_some_and(|place| text[place..].starts_with(b"...\n"))
        }),
        wrong_text("no start line", |text, answers| {
            let begins = text.starts_with(YAML_LINE)
                && answers.text_refused_with(NEITHER_TREE_NOR_BLOCK).is_none();
            begins && !text.split(|&byte| byte == b'\n').any(is_start)
        }),
        wrong_text("second start line", |_, answers| {
            answers.text_refused_with(SECOND_START_LINE).is_some()
        }),
    ]
}

/// Whether a line is a start line. The line is given without its 0A.
fn is_start(line: &[u8]) -> bool {
    line == b"---" || line == b"---\r" || line.starts_with(b"--- ")
}
