//! Batches whose samples are still judged by half the limit of a below reading.

use super::amounts::with_halves;
use crate::answers;
use crate::numbers::{MOST_BYTES, RECORD_WORDS, WORD_BYTES};
use reference::words::{to_bytes, whole_words};

/// The batch with every below reading of its samples measured as half its limit.
pub fn samples_by_halves(words: &[u32], samples: u32) -> Vec<u32> {
    let first = words.len() - samples as usize * RECORD_WORDS;
    let (before, records) = words.split_at(first);
    let halves = records.chunks(RECORD_WORDS).flat_map(with_halves);
    before.iter().copied().chain(halves).collect()
}

/// Its text, where it is a batch.
pub fn text_by_halves(bytes: &[u8]) -> Vec<u8> {
    let words = whole_words(bytes);
    let is_whole = bytes.len() % WORD_BYTES == 0 && bytes.len() <= MOST_BYTES;
    match answers::batch(&words) {
        Ok(rows) if is_whole => answers::list(&to_bytes(&samples_by_halves(&words, rows[0]))),
        _ => answers::list(bytes),
    }
}
