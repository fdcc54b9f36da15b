//! Lent slices: parts of a larger buffer with canaries before and after them.

use crate::numbers::MARGIN;

/// A word or a byte that can be lent.
pub trait Cell: Copy + PartialEq {
    /// What stands outside the lent slice.
    fn canary(place: usize) -> Self;

    /// What stands in a lent slice before the call: another value at each
    /// place, so that moved content shows, and hardly ever one that is an
    /// answer: of a row's words only the number's low part can be as great.
    fn old(place: usize) -> Self;
}

impl Cell for u32 {
    fn canary(place: usize) -> u32 {
        0xCAFE_0000 + place as u32
    }

    fn old(place: usize) -> u32 {
        900_000_000 + place as u32
    }
}

impl Cell for u8 {
    fn canary(place: usize) -> u8 {
        0xC0 + place as u8 % 64
    }

    fn old(place: usize) -> u8 {
        b'a' + (place % 26) as u8
    }
}

/// A slice to be lent, among its canaries.
pub struct Lent<T> {
    buffer: Vec<T>,
    length: usize,
}

impl<T: Cell> Lent<T> {
    /// A slice that holds this content.
    pub fn holding(content: &[T]) -> Lent<T> {
        let length = content.len();
        let mut buffer: Vec<T> = (0..length + 2 * MARGIN).map(T::canary).collect();
        buffer[MARGIN..MARGIN + length].copy_from_slice(content);
        Lent { buffer, length }
    }

    /// A slice of this length with old content.
    pub fn of_length(length: usize) -> Lent<T> {
        let old: Vec<T> = (0..length).map(T::old).collect();
        Lent::holding(&old)
    }

    pub fn slice(&mut self) -> &mut [T] {
        &mut self.buffer[MARGIN..MARGIN + self.length]
    }

    pub fn content(&self) -> &[T] {
        &self.buffer[MARGIN..MARGIN + self.length]
    }

    pub fn canaries_stand(&self) -> bool {
        let stands = |place: &usize| self.buffer[*place] == T::canary(*place);
        let before = 0..MARGIN;
        let after = MARGIN + self.length..self.buffer.len();
        before.chain(after).all(|place| stands(&place))
    }
}

#[cfg(test)]
mod tests {
    use super::*;

    #[test]
    fn writing_inside_leaves_the_canaries() {
        let mut lent = Lent::<u32>::of_length(3);
        lent.slice().fill(0);
        assert!(lent.canaries_stand());
        assert_eq!(lent.content(), [0, 0, 0]);
    }

    #[test]
    fn writing_beside_is_seen() {
        for place in [MARGIN - 1, MARGIN + 3] {
            let mut lent = Lent::<u32>::of_length(3);
            lent.buffer[place] = 0;
            assert!(!lent.canaries_stand());
        }
    }
}
