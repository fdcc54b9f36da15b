//! Answers into words or bytes that are lent.

use crate::refusals::{Refusal, OUTPUT};

/// The answer into the first places of what is lent, and how long it is; "13
/// output shorter than the answer." What is beyond the answer stays, and all of
/// it after a refusal: "nothing else changes".
pub fn write<T: Copy>(answer: &[T], lent: &mut [T]) -> Result<usize, Refusal> {
    let place = lent.get_mut(..answer.len()).ok_or(OUTPUT)?;
    place.copy_from_slice(answer);
    Ok(answer.len())
}

#[cfg(test)]
mod tests {
    use super::*;

    #[test]
    fn only_an_answer_that_fits_is_written() {
        let mut lent = [7; 4];
        assert_eq!(write(&[1, 2, 3, 4, 5], &mut lent), Err(13));
        assert_eq!(lent, [7; 4]);
        assert_eq!(write(&[1, 2, 3], &mut lent), Ok(3));
        assert_eq!(lent, [1, 2, 3, 7]);
        assert_eq!(write(&[4, 3, 2, 1], &mut lent), Ok(4));
        assert_eq!(lent, [4, 3, 2, 1]);
        assert_eq!(write(&[], &mut lent), Ok(0));
        assert_eq!(lent, [4, 3, 2, 1]);
        assert_eq!(write::<u8>(&[], &mut []), Ok(0));
    }
}
