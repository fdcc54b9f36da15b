//! Words of 32 bits and their bytes, the least byte first.

use crate::numbers::WORD_BYTES;

/// The whole words that these bytes have; a rest of 1 to 3 bytes is left out.
pub fn whole_words(bytes: &[u8]) -> Vec<u32> {
    bytes
        .chunks_exact(WORD_BYTES)
        .map(|four| u32::from_le_bytes([four[0], four[1], four[2], four[3]]))
        .collect()
}

pub fn to_bytes(words: &[u32]) -> Vec<u8> {
    words.iter().flat_map(|word| word.to_le_bytes()).collect()
}
