//! Tests the worked examples P1 to P13.

mod common;

use asdf_second::*;
use common::*;

fn outline_of(file: &[u8]) -> Vec<u8> {
    let mut out = vec![0; row_count(file).unwrap() * 16];
    assert_eq!(outline(file, &mut out), Ok(out.len()));
    out
}

#[test]
fn p1_empty_is_refused_with_2() {
    assert_eq!(read(b""), Err(refusal(2, 0)));
}

#[test]
fn p2_header_alone_is_accepted() {
    let layout = read(A).unwrap();
    assert_eq!(
        layout.version,
        Version {
            major: 1,
            minor: 0,
            patch: 0
        }
    );
    assert_eq!(layout.line_end, LineEnd::Lf);
    assert_eq!(layout.header_end, InFile(12));
    assert_eq!(
        layout.comments,
        Stretch {
            start: InFile(12),
            end: InFile(12)
        }
    );
    assert_eq!(layout.tree, None);
    assert_eq!(layout.blocks, []);
    assert_eq!(layout.index, Verdict::Absent);
}

#[test]
fn p3_header_without_line_end_is_refused_with_3() {
    assert_eq!(read(&A[..11]), Err(refusal(3, 6)));
}

#[test]
fn p4_one_block_and_its_outline() {
    let file = b();
    assert_eq!(file.len(), 66);
    let layout = read(&file).unwrap();
    assert_eq!(layout.blocks.len(), 1);
    assert_eq!(layout.blocks[0].offset, InFile(12));
    assert_eq!(
        outline_of(&file),
        [0, 0, 0, 0x30, 0, 0, 0, 0x0C, 0, 0, 0, 0, 0, 0, 0, 0]
    );
}

#[test]
fn p5_index_of_one_block_is_good_after_it() {
    let file = b();
    let mut out = [0; 41];
    assert_eq!(write_index(&file, &mut out), Ok(41));
    assert_eq!(&out, b"#ASDF BLOCK INDEX\n%YAML 1.1\n--- [12]\n...\n");
    assert_eq!(read(&join(&[&file, &out])).unwrap().index, Verdict::Good);
}

#[test]
fn p6_leading_zero_is_ignored_form() {
    assert_eq!(
        read(&join(&[&b(), &index_of("012")])).unwrap().index,
        Verdict::IgnoredForm
    );
}

#[test]
fn p7_another_number_is_ignored_list() {
    assert_eq!(
        read(&join(&[&b(), &index_of("13")])).unwrap().index,
        Verdict::IgnoredList
    );
}

#[test]
fn p8_header_size_47_is_refused_with_12() {
    assert_eq!(
        read(&file_with(block().header_size(47))),
        Err(refusal(12, 12))
    );
}

#[test]
fn p9_header_without_its_last_byte_is_refused_with_11() {
    assert_eq!(read(&b()[..65]), Err(refusal(11, 12)));
}

#[test]
fn p10_file_in_a_block_gives_two_rows() {
    let file = file_with(block_of(&b()));
    let first = [1, 0, 0, 0x30, 0, 0, 0, 0x0C, 0, 0, 0, 0x42, 0, 0, 0, 0x42];
    let second = [0x20, 0, 0, 0x30, 0, 0, 0, 0x4E, 0, 0, 0, 0, 0, 0, 0, 0];
    assert_eq!(outline_of(&file), [first, second].concat());
}

#[test]
fn p11_tree_and_block_after_free_space() {
    let layout = read(&t()).unwrap();
    let tree = Tree {
        start: InFile(12),
        end: InFile(30),
        room_end: InFile(40),
    };
    assert_eq!(layout.tree, Some(tree));
    assert_eq!(layout.blocks[0].offset, InFile(40));
}

#[test]
fn p12_edit_that_fills_the_room() {
    let mut file = t();
    let text = tree_of("xxxxxxxxx\n");
    assert_eq!(text.len(), 28);
    assert_eq!(edit(&mut file, &text), Ok(()));
    assert_eq!(file, join(&[A, &text, &block().bytes()]));
}

#[test]
fn p13_edit_one_byte_too_long_is_refused_with_20() {
    let mut file = t();
    assert_eq!(
        edit(&mut file, &tree_of("xxxxxxxxxx\n")),
        Err(refusal(20, 0))
    );
    assert_eq!(file, t());
}
