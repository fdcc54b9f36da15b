//! The library's stand-in: the other implementation behind the same eight
//! functions, so that the comparison can be tried without the library.

use crate::answers;
use crate::library::Library;
use crate::numbers::DOCKET_WORDS;
use reference::refusals::{Refusal, OUTPUT};

pub struct StandIn;

/// Writes an answer into a lent slice, or leaves that as it is.
pub fn write<T: Copy>(answer: Result<impl AsRef<[T]>, Refusal>, lent: &mut [T]) -> u32 {
    write_telling(answer, lent, &mut 0)
}

/// Writes an answer and tells its length, or leaves both as they are.
pub fn write_telling<T: Copy>(
    answer: Result<impl AsRef<[T]>, Refusal>,
    lent: &mut [T],
    size: &mut usize,
) -> u32 {
    let answer = match answer {
        Ok(answer) => answer,
        Err(refusal) => return refusal,
    };
    let answer = answer.as_ref();
    let Some(place) = lent.get_mut(..answer.len()) else {
        return OUTPUT;
    };
    place.copy_from_slice(answer);
    *size = answer.len();
    0
}

impl Library for StandIn {
    fn judge(&self, words: &[u32], verdicts: &mut [u32]) -> u32 {
        write(answers::judge(words), verdicts)
    }

    fn reading(&self, value: f32, limit: f32, words: &mut [u32]) -> u32 {
        write(answers::reading(value.to_bits(), limit.to_bits()), words)
    }

    fn fresh(&self, docket: &mut [u32]) -> u32 {
        write(Ok([0; DOCKET_WORDS]), docket)
    }

    fn offer(&self, docket: &mut [u32], words: &[u32]) -> u32 {
        write(answers::offer(docket, words), docket)
    }

    fn signals(&self, setup: &[u32], later: &[u32], signals: &mut [u32]) -> u32 {
        write(answers::signals(setup, later), signals)
    }

    fn batch(&self, words: &[u32], answer: &mut [u32]) -> u32 {
        write(answers::batch(words), answer)
    }

    fn join(&self, first: &[u32], second: &[u32], joined: &mut [u32], size: &mut usize) -> u32 {
        write_telling(answers::join(first, second), joined, size)
    }

    fn list(&self, bytes: &[u8], text: &mut [u8], size: &mut usize) -> u32 {
        write_telling(Ok(answers::list(bytes)), text, size)
    }
}
