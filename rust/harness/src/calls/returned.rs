//! Turns what a proved function returns into a result.

use asdf_second::Refusal;

/// What a function puts into a buffer that is long enough, or its refusal.
pub type Expected = Result<Vec<u8>, Refusal>;

/// What a returned number means: a count or a refusal.
pub fn result_of(word: u64) -> Result<u64, Refusal> {
    asdf_sys::answer(word).map_err(|(number, place)| Refusal { number, place })
}

/// What a function writes into a buffer of `most` bytes.
pub fn result_in(most: usize, ask: impl Fn(&mut [u8]) -> u64) -> Expected {
    let mut out = vec![0; most];
    let length = result_of(ask(&mut out))?;
    out.truncate(length as usize);
    Ok(out)
}
