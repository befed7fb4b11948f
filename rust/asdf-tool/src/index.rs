//! The block index of a file.

use crate::failure;
use crate::output::{Output, Stop};
use crate::source::Source;
use crate::store::Out;
use crate::words;
use asdf_layout::{index_text, Block, Layout, Refusal, Verdict};
use std::path::Path;

/// Prints the verdict on the index.
pub fn print_verdict(file: &Path) -> Result<(), Stop> {
    let source = Source::file(file)?;
    let layout = source.accepted(Layout::read(&source))?;
    // The file can be edited while somebody reads the verdict.
    drop(source);
    let verdict = words::verdict(layout.index);
    Output::print(format!("{verdict}\n").as_bytes())
}

/// Stores the text of the correct index for a file, and says where it belongs.
pub fn write(file: &Path, out: &Out) -> Result<(), Stop> {
    let source = Source::file(file)?;
    let text = source.accepted(index_text(&source))?;
    let sentence = source.accepted(where_it_belongs(&text, &source))?;
    out.check_is_not(file, &source)?;
    // The file can be edited while somebody reads the text.
    drop(source);
    out.store(&text)?;
    failure::note(sentence);
    Ok(())
}

/// Says where the text of the index belongs, and what is there now. The file has a last block, because it can have an index.
fn where_it_belongs(text: &[u8], source: &Source) -> Result<String, Refusal> {
    let layout = Layout::read(source)?;
    let last = Block::read(source, u64::from(layout.blocks) - 1)?;
    let offset = last.expect("a file with an index has a last block").end();
    let (name, rest) = (source.name(), &source[offset..]);
    let bytes = match rest.len() {
        1 => "the byte that follows there now has".to_string(),
        length => format!("the {length} bytes that follow there now have"),
    };
    let belongs =
        format!("this text belongs at offset {offset} of {name}, directly after the last block");
    Ok(match layout.index {
        _ if rest == text => format!("this text is already at offset {offset} of {name}"),
        _ if rest.is_empty() => belongs,
        Verdict::Good => {
            format!("{name} has a good index already; {belongs}; {bytes} to be removed first")
        }
        _ => format!("{belongs}; {bytes} to be removed first"),
    })
}
