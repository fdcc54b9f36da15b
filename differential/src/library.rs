//! The eight functions that the comparison asks.

/// Each answers 0 or the refusal's number. A refusal leaves every lent slice and
/// every `size` as it was; otherwise the answer stands in the first words of the
/// last slice and the old content beyond, and `size` is the answer's length.
pub trait Library {
    /// Four verdicts of a record.
    fn judge(&self, words: &[u32], verdicts: &mut [u32]) -> u32;

    /// The mark and the bits of a reading, from the analyser's two floats.
    fn reading(&self, value: f32, limit: f32, words: &mut [u32]) -> u32;

    /// A fresh docket: state, count, last record.
    fn fresh(&self, docket: &mut [u32]) -> u32;

    /// An offer to a docket, which changes in place.
    fn offer(&self, docket: &mut [u32], words: &[u32]) -> u32;

    /// A signal word for each later value of a chart.
    fn signals(&self, setup: &[u32], later: &[u32], signals: &mut [u32]) -> u32;

    /// The sample count and a row for each sample.
    fn batch(&self, words: &[u32], answer: &mut [u32]) -> u32;

    /// Two batches as one, in a batch's own layout.
    fn join(&self, first: &[u32], second: &[u32], joined: &mut [u32], size: &mut usize) -> u32;

    /// The listing program's text.
    fn list(&self, bytes: &[u8], text: &mut [u8], size: &mut usize) -> u32;
}
