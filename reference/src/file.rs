//! A batch as a file: "little-endian words", as a program reads them.

use crate::numbers::{MOST_BYTES, WORD_BYTES};
use crate::refusals::{require, Refusal, BATCH_LENGTH};
use crate::words::whole_words;

/// The tests on bytes: "not a multiple of 4, or over" their limit, "give 8 before
/// any other test", and the limit "becomes 46,848" (document 02 (ii)).
pub fn words(bytes: &[u8]) -> Result<Vec<u32>, Refusal> {
    require(bytes.len() % WORD_BYTES == 0, BATCH_LENGTH)?;
    require(bytes.len() <= MOST_BYTES, BATCH_LENGTH)?;
    Ok(whole_words(bytes))
}

#[cfg(test)]
mod tests {
    use super::*;

    #[test]
    fn whole_words_up_to_the_limit() {
        assert_eq!(words(&[]), Ok(vec![]));
        assert_eq!(words(&[1, 2, 3, 4, 5, 0, 0, 0]), Ok(vec![0x0403_0201, 5]));
        let many = vec![0; 46_856];
        for length in (0..=46_856).filter(|length| length % 4 < 2) {
            let fits = length % 4 == 0 && length <= 46_848;
            let expected = if fits { Ok(length / 4) } else { Err(8) };
            assert_eq!(words(&many[..length]).map(|words| words.len()), expected);
        }
    }
}
