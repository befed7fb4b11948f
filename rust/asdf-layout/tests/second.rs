//! Compares this crate with the second program, on every real file: both have to report the same.

use asdf_layout::{
    edit, index_text, row_count, Block, Inner, InnerState, Layout, LineEnd, Outline, Record,
    Records, Refusal, Row, Tree, Verdict, Version,
};
use asdf_second as second;
use std::fs;

/// The folder of the real files.
const DATA: &str = concat!(env!("CARGO_MANIFEST_DIR"), "/../../tests/data");
/// How many real files there are at least. More may be added, but none may get lost.
const AT_LEAST: usize = 18;

/// Calls `check` with the bytes of every real file.
fn each_real_file(check: impl Fn(&[u8])) {
    let mut checked = 0;
    for entry in fs::read_dir(DATA).unwrap() {
        let path = entry.unwrap().path();
        if path.extension().is_some_and(|found| found == "asdf") {
            println!("{}", path.display());
            check(&fs::read(path).unwrap());
            checked += 1;
        }
    }
    assert!(checked >= AT_LEAST, "only {checked} files were checked");
}

/// The second program's refusal, as a refusal of this crate.
fn refusal(refusal: second::Refusal) -> Refusal {
    let second::Refusal { number, place } = refusal;
    Refusal { number, place }
}

fn layout(layout: &second::Layout) -> Layout {
    let version = layout.version;
    Layout {
        version: Version {
            major: version.major,
            minor: version.minor,
            patch: version.patch,
        },
        header_end: layout.header_end.0 as usize,
        line_end: match layout.line_end {
            second::LineEnd::Lf => LineEnd::Lf,
            second::LineEnd::Crlf => LineEnd::Crlf,
        },
        comments_end: layout.comments.end.0 as usize,
        tree: layout.tree.map(|tree| Tree {
            start: tree.start.0 as usize,
            end: tree.end.0 as usize,
            room_end: tree.room_end.0 as usize,
        }),
        blocks: layout.blocks.len() as u8,
        index: match layout.index {
            second::Verdict::Absent => Verdict::Absent,
            second::Verdict::Good => Verdict::Good,
            second::Verdict::IgnoredForm => Verdict::IgnoredForm,
            second::Verdict::IgnoredList => Verdict::IgnoredList,
        },
    }
}

fn block(block: &second::Block) -> Block {
    Block {
        ordinal: block.ordinal,
        at: block.offset.0 as usize,
        header_size: block.header_size,
        flags: block.flags,
        compression: block.compression,
        allocated: block.allocated as usize,
        used: block.used as usize,
        data_size: block.data_size,
        checksum: block.checksum,
    }
}

fn record(record: &second::Record) -> Record {
    Record {
        depth: record.depth,
        offset: record.offset.0 as usize,
        inner: match record.inner {
            second::Inner::Plain => Inner::Plain,
            second::Inner::Opened => Inner::Opened,
            second::Inner::Refused(inner) => Inner::Refused(refusal(inner)),
            second::Inner::TooDeep => Inner::TooDeep,
        },
        block: block(&record.block),
    }
}

fn row(row: &second::Row) -> Row {
    Row {
        depth: row.depth,
        ordinal: row.ordinal,
        offset: row.offset.0 as usize,
        header_size: row.header_size,
        allocated: row.allocated as usize,
        used: row.used as usize,
        streamed: row.streamed,
        compressed: row.compressed,
        checksum: row.checksum,
        inner: match row.inner {
            second::InnerKind::Plain => InnerState::Plain,
            second::InnerKind::Opened => InnerState::Opened,
            second::InnerKind::Refused => InnerState::Refused,
            second::InnerKind::TooDeep => InnerState::TooDeep,
        },
    }
}

#[test]
fn layouts_and_blocks_are_the_same() {
    each_real_file(|file| {
        let expected = second::read(file);
        let told = expected
            .as_ref()
            .map(layout)
            .map_err(|&found| refusal(found));
        assert_eq!(Layout::read(file), told);
        let Ok(expected) = expected else { return };
        for ordinal in 0..=expected.blocks.len() {
            let told = expected.blocks.get(ordinal).map(block);
            assert_eq!(Block::read(file, ordinal as u64), Ok(told));
        }
        let blocks: Vec<Block> = Records::read(file).unwrap().blocks().collect();
        assert_eq!(
            blocks,
            expected.blocks.iter().map(block).collect::<Vec<_>>()
        );
    });
}

#[test]
fn records_are_the_same() {
    each_real_file(|file| {
        let expected = second::records(file).map_err(refusal);
        let told = expected.map(|records| records.iter().map(record).collect::<Vec<_>>());
        let found = Records::read(file).map(|records| records.iter().collect::<Vec<_>>());
        assert_eq!(found, told);
        assert_eq!(
            row_count(file),
            told.clone().map(|records| records.len() as u64)
        );
        let Ok(told) = told else { return };
        for number in 0..=told.len() {
            let record = told.get(number).copied();
            assert_eq!(Record::read(file, number as u64), Ok(record));
        }
    });
}

#[test]
fn records_are_counted_and_read_from_both_ends() {
    each_real_file(|file| {
        let Ok(told) = second::records(file) else {
            return;
        };
        let told: Vec<Record> = told.iter().map(record).collect();
        let records = Records::read(file).unwrap();
        assert_eq!(records.len(), told.len());
        assert_eq!(records.is_empty(), told.is_empty());
        assert!(records.iter().rev().eq(told.iter().rev().copied()));
        let mut rest = records.iter();
        for left in (0..told.len()).rev() {
            rest.next();
            assert_eq!(rest.len(), left);
        }
    });
}

#[test]
fn outlines_and_their_rows_are_the_same() {
    each_real_file(|file| {
        let expected = second::rows(file).map_err(refusal);
        let told = expected.map(|rows| rows.iter().map(row).collect::<Vec<_>>());
        let outline = Outline::of_file(file);
        let found = outline
            .clone()
            .map(|outline| outline.rows().collect::<Vec<_>>());
        assert_eq!(found, told);
        let Ok(outline) = outline else { return };
        let told = told.unwrap();
        assert_eq!(outline.rows().len(), told.len());
        assert!(outline.rows().rev().eq(told.into_iter().rev()));
        assert_eq!(outline.clone().into_bytes(), outline.as_bytes());
        let stored = Outline::read(outline.as_bytes());
        assert_eq!(
            stored.clone().map(Outline::into_bytes),
            Ok(outline.as_bytes().to_vec())
        );
        assert_eq!(stored, Ok(outline.clone()));
        assert_eq!(
            stored.and_then(|stored| stored.rewritten()),
            Ok(outline.clone())
        );
    });
}

#[test]
fn indexes_and_edits_are_the_same() {
    let text = b"%YAML 1.1\n---\n{}\n...\n";
    each_real_file(|file| {
        let mut index = [0; second::LONGEST_INDEX];
        let length = second::write_index(file, &mut index).map_err(refusal);
        assert_eq!(
            index_text(file),
            length.map(|length| index[..length].to_vec())
        );

        let (mut found, mut expected) = (file.to_vec(), file.to_vec());
        let told = second::edit(&mut expected, text).map_err(refusal);
        assert_eq!(edit(&mut found, text), told);
        assert!(found == expected);
    });
}

#[test]
fn content_of_an_opened_block_is_a_file() {
    each_real_file(|file| {
        for record in Records::read(file).iter().flatten() {
            let content = &file[record.content()];
            let is_file = matches!(record.inner, Inner::Opened | Inner::TooDeep);
            assert_eq!(Layout::read(content).is_ok(), is_file);
        }
    });
}

#[test]
fn content_is_the_same_in_the_outermost_and_in_its_own_file() {
    each_real_file(|file| {
        let Ok(records) = Records::read(file) else {
            return;
        };
        // The offset of each file that is being walked, the outermost first.
        let mut files = vec![0];
        for record in &records {
            files.truncate(usize::from(record.depth) + 1);
            let start = files[usize::from(record.depth)];
            let (found, own) = (record.content(), record.block.content());
            assert_eq!(found, start + own.start..start + own.end);
            files.push(found.start);
        }
    });
}

#[test]
fn index_is_good_at_the_end_of_the_last_block() {
    each_real_file(|file| {
        let Ok(index) = index_text(file) else { return };
        let last = Records::read(file).unwrap().blocks().last().unwrap();
        let mut file = file[..last.end()].to_vec();
        file.extend(index);
        assert_eq!(Layout::read(&file).unwrap().index, Verdict::Good);
    });
}
