//! The program `follow`: records offered in turn to a fresh docket.

use crate::docket::PlainDocket;
use crate::numbers::{RECORD_WORDS, WORD_BYTES};
use crate::words::whole_words;

/// A line `ANSWER STATE COUNT` for each offer. A rest that is no whole record
/// is offered as it is, with as many whole words as it has.
pub fn text(bytes: &[u8]) -> String {
    let mut docket = PlainDocket::new();
    bytes
        .chunks(WORD_BYTES * RECORD_WORDS)
        .map(|offer| line(&mut docket, &whole_words(offer)))
        .collect()
}

fn line(docket: &mut PlainDocket, offer: &[u32]) -> String {
    let answer = match docket.offer(offer) {
        Ok(()) => "taken".to_string(),
        Err(refusal) => format!("refused {refusal}"),
    };
    format!("{answer} {} {}\n", docket.state().name(), docket.count())
}

#[cfg(test)]
mod tests {
    use super::*;
    use crate::cases::bottle::Bottle;
    use crate::words::to_bytes;

    #[test]
    fn a_rest_is_offered_as_it_is() {
        assert_eq!(text(&[]), "");
        assert_eq!(text(&[0]), "refused 1 open 0\n");
        let mut bytes = to_bytes(Bottle::printed().words());
        assert_eq!(text(&bytes), "taken consistent 1\n");
        bytes.extend([0; 7]);
        assert_eq!(text(&bytes), "taken consistent 1\nrefused 1 consistent 1\n");
    }
}
