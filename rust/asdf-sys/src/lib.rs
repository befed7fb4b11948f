//! The boundary to the proved functions of `libasdf.a`.
//!
//! Each function lends slices to a proved function and passes on the number that it returns. This
//! number is how many bytes were written at the start of `out`, or the count that was asked for, or
//! a refusal: [`answer`] tells them apart. A refusal changes no byte. The bytes of `out` after a
//! result are unchanged. A buffer that is too short is refused with 21.
//!
//! Every call fulfils the duties about pointers and buffers that `include/asdf_layout.h` lists: a
//! slice is no longer than `isize::MAX` and is never null, and a slice that can be changed overlaps
//! no other. Whoever makes a slice of a mapped file has to make sure that nobody changes the file
//! during a call.

/// The bytes of one number in a buffer, the most significant first.
pub const NUMBER_BYTES: usize = 8;
/// How many numbers a layout has.
pub const LAYOUT_NUMBERS: usize = 12;
/// How many numbers a block has.
pub const BLOCK_NUMBERS: usize = 10;
/// How many numbers a record has: five, and those of its block.
pub const RECORD_NUMBERS: usize = 15;
/// How many numbers a row of a stored outline has.
pub const ROW_NUMBERS: usize = 10;
/// How many bytes a row of an outline has.
pub const ROW_BYTES: usize = 16;
/// The smallest block has this many bytes, so a file has at most one row for each 54 bytes.
pub const LEAST_BLOCK: usize = 54;
/// The maximum length of an index that is written, in bytes. An index that is read may be longer.
pub const LONGEST_INDEX: usize = 809;
/// How many low bits of a returned number hold the place of a refusal. The bits above hold the
/// refusal's number.
pub const PLACE_BITS: u32 = 56;

extern "C" {
    fn asdf_read(file: *const u8, file_length: usize, out: *mut u8, out_length: usize) -> u64;
    fn asdf_block(
        file: *const u8,
        file_length: usize,
        ordinal: u64,
        out: *mut u8,
        out_length: usize,
    ) -> u64;
    fn asdf_count(file: *const u8, file_length: usize) -> u64;
    fn asdf_outline(file: *const u8, file_length: usize, out: *mut u8, out_length: usize) -> u64;
    fn asdf_record(
        file: *const u8,
        file_length: usize,
        k: u64,
        out: *mut u8,
        out_length: usize,
    ) -> u64;
    fn asdf_records(file: *const u8, file_length: usize, out: *mut u8, out_length: usize) -> u64;
    fn asdf_index(file: *const u8, file_length: usize, out: *mut u8, out_length: usize) -> u64;
    fn asdf_stored_count(stored: *const u8, stored_length: usize) -> u64;
    fn asdf_stored_row(
        stored: *const u8,
        stored_length: usize,
        k: u64,
        out: *mut u8,
        out_length: usize,
    ) -> u64;
    fn asdf_stored_rows(
        stored: *const u8,
        stored_length: usize,
        out: *mut u8,
        out_length: usize,
    ) -> u64;
    fn asdf_rewrite(
        stored: *const u8,
        stored_length: usize,
        out: *mut u8,
        out_length: usize,
    ) -> u64;
    fn asdf_edit(file: *mut u8, file_length: usize, text: *const u8, text_length: usize) -> u64;
}

/// A proved function that only counts.
type Counter = unsafe extern "C" fn(*const u8, usize) -> u64;
/// A proved function that writes a result.
type Writer = unsafe extern "C" fn(*const u8, usize, *mut u8, usize) -> u64;
/// A proved function that writes the one item with a given number.
type NumberedWriter = unsafe extern "C" fn(*const u8, usize, u64, *mut u8, usize) -> u64;

/// Reads a returned number: as a count, or as the number and the place of a refusal.
pub fn answer(word: u64) -> Result<u64, (u8, u64)> {
    let number = (word >> PLACE_BITS) as u8;
    let rest = word & ((1 << PLACE_BITS) - 1);
    match number {
        0 => Ok(rest),
        _ => Err((number, rest)),
    }
}

/// Writes the layout of a file.
pub fn read(file: &[u8], out: &mut [u8]) -> u64 {
    written(asdf_read, file, out)
}

/// Writes the block with this ordinal. If there is no such block, no bytes are written.
pub fn block(file: &[u8], ordinal: u64, out: &mut [u8]) -> u64 {
    written_at(asdf_block, file, ordinal, out)
}

/// Returns how many rows a file has: one for each of its blocks, and for each block of the files
/// inside.
pub fn count(file: &[u8]) -> u64 {
    counted(asdf_count, file)
}

/// Writes the outline of a file.
pub fn outline(file: &[u8], out: &mut [u8]) -> u64 {
    written(asdf_outline, file, out)
}

/// Writes the record with this number in walking order. If there is no such record, no bytes are
/// written.
pub fn record(file: &[u8], number: u64, out: &mut [u8]) -> u64 {
    written_at(asdf_record, file, number, out)
}

/// Writes all records of a file, in walking order.
pub fn records(file: &[u8], out: &mut [u8]) -> u64 {
    written(asdf_records, file, out)
}

/// Writes the text of a block index for a file.
pub fn index(file: &[u8], out: &mut [u8]) -> u64 {
    written(asdf_index, file, out)
}

/// Returns how many rows a stored outline has.
pub fn stored_count(stored: &[u8]) -> u64 {
    counted(asdf_stored_count, stored)
}

/// Writes the numbers of one row of a stored outline. If there is no row with this number, no bytes
/// are written.
pub fn stored_row(stored: &[u8], number: u64, out: &mut [u8]) -> u64 {
    written_at(asdf_stored_row, stored, number, out)
}

/// Writes the numbers of all rows of a stored outline.
pub fn stored_rows(stored: &[u8], out: &mut [u8]) -> u64 {
    written(asdf_stored_rows, stored, out)
}

/// Reads a stored outline and writes it again.
pub fn rewrite(stored: &[u8], out: &mut [u8]) -> u64 {
    written(asdf_rewrite, stored, out)
}

/// Replaces the tree of a file by a text, and returns 0 if that is done.
pub fn edit(file: &mut [u8], text: &[u8]) -> u64 {
    // SAFETY: both pointers come from slices with these lengths, which live through the call and do
    // not overlap.
    unsafe { asdf_edit(file.as_mut_ptr(), file.len(), text.as_ptr(), text.len()) }
}

/// Calls a function that only counts.
fn counted(counter: Counter, bytes: &[u8]) -> u64 {
    // SAFETY: the pointer comes from a slice with this length, which lives through the call.
    unsafe { counter(bytes.as_ptr(), bytes.len()) }
}

/// Calls a function that writes a result.
fn written(writer: Writer, bytes: &[u8], out: &mut [u8]) -> u64 {
    // SAFETY: both pointers come from slices with these lengths, which live through the call and do
    // not overlap.
    unsafe { writer(bytes.as_ptr(), bytes.len(), out.as_mut_ptr(), out.len()) }
}

/// Calls a function that writes the one item with this number.
fn written_at(writer: NumberedWriter, bytes: &[u8], number: u64, out: &mut [u8]) -> u64 {
    let (start, length) = (bytes.as_ptr(), bytes.len());
    // SAFETY: both pointers come from slices with these lengths, which live through the call and do
    // not overlap.
    unsafe { writer(start, length, number, out.as_mut_ptr(), out.len()) }
}
