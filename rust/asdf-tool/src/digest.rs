//! The digest SHA-256, as FIPS 180-4 defines it. What is kept of an edit holds such digests, so their kind must not change
//! with the tool or with Rust.

use std::fmt::Write;

/// How many bytes are taken at once.
const BLOCK: usize = 64;

/// The state before the first block: the first 32 bits of the fractional parts of the square roots of the first 8 primes.
const START: [u32; 8] = [
    0x6a09e667, 0xbb67ae85, 0x3c6ef372, 0xa54ff53a, 0x510e527f, 0x9b05688c, 0x1f83d9ab, 0x5be0cd19,
];

/// The first 32 bits of the fractional parts of the cube roots of the first 64 primes.
const ROUNDS: [u32; 64] = [
    0x428a2f98, 0x71374491, 0xb5c0fbcf, 0xe9b5dba5, 0x3956c25b, 0x59f111f1, 0x923f82a4, 0xab1c5ed5,
    0xd807aa98, 0x12835b01, 0x243185be, 0x550c7dc3, 0x72be5d74, 0x80deb1fe, 0x9bdc06a7, 0xc19bf174,
    0xe49b69c1, 0xefbe4786, 0x0fc19dc6, 0x240ca1cc, 0x2de92c6f, 0x4a7484aa, 0x5cb0a9dc, 0x76f988da,
    0x983e5152, 0xa831c66d, 0xb00327c8, 0xbf597fc7, 0xc6e00bf3, 0xd5a79147, 0x06ca6351, 0x14292967,
    0x27b70a85, 0x2e1b2138, 0x4d2c6dfc, 0x53380d13, 0x650a7354, 0x766a0abb, 0x81c2c92e, 0x92722c85,
    0xa2bfe8a1, 0xa81a664b, 0xc24b8b70, 0xc76c51a3, 0xd192e819, 0xd6990624, 0xf40e3585, 0x106aa070,
    0x19a4c116, 0x1e376c08, 0x2748774c, 0x34b0bcb5, 0x391c0cb3, 0x4ed8aa4a, 0x5b9cca4f, 0x682e6ff3,
    0x748f82ee, 0x78a5636f, 0x84c87814, 0x8cc70208, 0x90befffa, 0xa4506ceb, 0xbef9a3f7, 0xc67178f2,
];

/// A digest of the bytes that came so far.
pub struct Digest {
    state: [u32; 8],
    /// How many bytes came.
    length: u64,
    /// The bytes that do not fill a block yet.
    rest: Vec<u8>,
}

impl Digest {
    /// Begins with no bytes.
    pub fn new() -> Digest {
        Digest {
            state: START,
            length: 0,
            rest: Vec::with_capacity(2 * BLOCK),
        }
    }

    /// Returns the digest of parts that follow one another.
    pub fn of(parts: &[&[u8]]) -> String {
        let mut digest = Digest::new();
        parts.iter().for_each(|part| digest.take(part));
        digest.finish()
    }

    /// Takes more bytes.
    pub fn take(&mut self, mut bytes: &[u8]) {
        self.length += bytes.len() as u64;
        if !self.rest.is_empty() {
            let missing = bytes.len().min(BLOCK - self.rest.len());
            self.rest.extend(&bytes[..missing]);
            bytes = &bytes[missing..];
            if self.rest.len() < BLOCK {
                return;
            }
            self.state = after_blocks(self.state, &self.rest);
            self.rest.clear();
        }
        let whole = bytes.len() / BLOCK * BLOCK;
        self.state = after_blocks(self.state, &bytes[..whole]);
        self.rest.extend(&bytes[whole..]);
    }

    /// Returns the digest of all bytes, in hexadecimal.
    pub fn finish(mut self) -> String {
        let bits = self.length * 8;
        self.rest.push(0x80);
        let filled = (self.rest.len() + 8).next_multiple_of(BLOCK) - 8;
        self.rest.resize(filled, 0);
        self.rest.extend(bits.to_be_bytes());
        let state = after_blocks(self.state, &self.rest);
        state.iter().fold(String::new(), |mut text, word| {
            write!(text, "{word:08x}").expect("a string takes every text");
            text
        })
    }
}

/// Returns the state after whole blocks.
fn after_blocks(state: [u32; 8], blocks: &[u8]) -> [u32; 8] {
    let (blocks, _) = blocks.as_chunks::<BLOCK>();
    blocks.iter().fold(state, after_block)
}

/// Returns the state after one block.
fn after_block(state: [u32; 8], block: &[u8; BLOCK]) -> [u32; 8] {
    let words = schedule(block);
    let [mut a, mut b, mut c, mut d, mut e, mut f, mut g, mut h] = state;
    for (word, constant) in words.into_iter().zip(ROUNDS) {
        let sum = e.rotate_right(6) ^ e.rotate_right(11) ^ e.rotate_right(25);
        let choice = (e & f) ^ (!e & g);
        let first = h
            .wrapping_add(sum)
            .wrapping_add(choice)
            .wrapping_add(constant)
            .wrapping_add(word);
        let sum = a.rotate_right(2) ^ a.rotate_right(13) ^ a.rotate_right(22);
        let majority = (a & b) ^ (a & c) ^ (b & c);
        (h, g, f, e) = (g, f, e, d.wrapping_add(first));
        (d, c, b, a) = (c, b, a, first.wrapping_add(sum).wrapping_add(majority));
    }
    let changes = [a, b, c, d, e, f, g, h];
    std::array::from_fn(|k| state[k].wrapping_add(changes[k]))
}

/// Returns the 64 words that a block is stretched to.
fn schedule(block: &[u8; BLOCK]) -> [u32; 64] {
    let mut words = [0; 64];
    let (bytes, _) = block.as_chunks();
    for (word, bytes) in words.iter_mut().zip(bytes) {
        *word = u32::from_be_bytes(*bytes);
    }
    for k in 16..64 {
        let (early, late) = (words[k - 15], words[k - 2]);
        let first: u32 = early.rotate_right(7) ^ early.rotate_right(18) ^ (early >> 3);
        let second: u32 = late.rotate_right(17) ^ late.rotate_right(19) ^ (late >> 10);
        words[k] = first
            .wrapping_add(second)
            .wrapping_add(words[k - 16])
            .wrapping_add(words[k - 7]);
    }
    words
}

#[cfg(test)]
mod tests {
    use super::*;

    /// Returns the digest of bytes that come in parts of this length.
    fn digest(bytes: &[u8], part: usize) -> String {
        Digest::of(&bytes.chunks(part).collect::<Vec<_>>())
    }

    /// The examples that NIST gives for FIPS 180-4, and the digest of no bytes.
    #[test]
    fn digests_are_those_of_the_standard() {
        let long = vec![b'a'; 1_000_000];
        let examples: [(&[u8], &str); 4] = [
            (
                b"",
                "e3b0c44298fc1c149afbf4c8996fb92427ae41e4649b934ca495991b7852b855",
            ),
            (
                b"abc",
                "ba7816bf8f01cfea414140de5dae2223b00361a396177a9cb410ff61f20015ad",
            ),
            (
                b"abcdbcdecdefdefgefghfghighijhijkijkljklmklmnlmnomnopnopq",
                "248d6a61d20638b8e5c026930c3e6039a33ce45964ff2167f6ecedd419db06c1",
            ),
            (
                &long,
                "cdc76e5c9914fb9281a1c7e284d73e67f1809a48a497200e046d39ccc7112cd0",
            ),
        ];
        for (bytes, expected) in examples {
            assert_eq!(digest(bytes, 1 << 20), expected);
        }
    }

    #[test]
    fn parts_do_not_matter() {
        let bytes: Vec<u8> = (0..1_000u32).map(|k| (k * k) as u8).collect();
        let whole = digest(&bytes, 1_000);
        assert!((1..200).all(|part| digest(&bytes, part) == whole));
    }
}
