//! Whole numbers of any size, just enough for hundredth and thousandth powers.

use std::cmp::Ordering;

/// A whole number that isn't negative: digits of 32 bits, the least first.
/// The last digit is never 0, so that 0 has no digits and equal numbers have
/// equal digits.
#[derive(Clone, Debug, PartialEq, Eq)]
pub struct Big {
    digits: Vec<u32>,
}

impl Big {
    pub fn new(value: u128) -> Big {
        let digits = (0..4).map(|place| (value >> (32 * place)) as u32).collect();
        Big::trimmed(digits)
    }

    fn trimmed(mut digits: Vec<u32>) -> Big {
        while digits.last() == Some(&0) {
            digits.pop();
        }
        Big { digits }
    }

    /// The product, digit by digit as on paper.
    pub fn times(&self, other: &Big) -> Big {
        let mut product = vec![0u32; self.digits.len() + other.digits.len()];
        for (shift, &digit) in self.digits.iter().enumerate() {
            let mut carry = 0u64;
            for (place, &factor) in other.digits.iter().enumerate() {
                // (2^32 − 1)^2 + 2 × (2^32 − 1) is 2^64 − 1: it just fits.
                let sum = u64::from(digit) * u64::from(factor)
                    + u64::from(product[shift + place])
                    + carry;
                product[shift + place] = sum as u32;
                carry = sum >> 32;
            }
            product[shift + other.digits.len()] = carry as u32;
        }
        Big::trimmed(product)
    }

    /// The power by repeated squaring.
    pub fn power(&self, exponent: u32) -> Big {
        if exponent == 0 {
            return Big::new(1);
        }
        let half = self.power(exponent / 2);
        let square = half.times(&half);
        if exponent % 2 == 0 {
            square
        } else {
            square.times(self)
        }
    }

    /// The greatest whole number below `too_great` whose power is at most this
    /// number: halving what is left between a number that is small enough and
    /// one that is too great.
    pub fn root(&self, exponent: u32, too_great: u64) -> u64 {
        let (mut small_enough, mut too_great) = (0, too_great);
        while too_great - small_enough > 1 {
            let middle = small_enough + (too_great - small_enough) / 2;
            if Big::new(u128::from(middle)).power(exponent) <= *self {
                small_enough = middle;
            } else {
                too_great = middle;
            }
        }
        small_enough
    }
}

impl Ord for Big {
    /// The number with more digits is the greater; among equals the highest
    /// digit that differs decides.
    fn cmp(&self, other: &Big) -> Ordering {
        let by_length = self.digits.len().cmp(&other.digits.len());
        by_length.then_with(|| self.digits.iter().rev().cmp(other.digits.iter().rev()))
    }
}

impl PartialOrd for Big {
    fn partial_cmp(&self, other: &Big) -> Option<Ordering> {
        Some(self.cmp(other))
    }
}

#[cfg(test)]
mod tests {
    use super::*;

    #[test]
    fn products_agree_with_u128() {
        for a in [0u64, 1, 2, 0xFFFF_FFFF, 0x1_0000_0000, u64::MAX] {
            for b in [0u64, 1, 3, 0xFFFF_FFFF, 0x1_0000_0001, u64::MAX] {
                let product = Big::new(u128::from(a)).times(&Big::new(u128::from(b)));
                assert_eq!(product, Big::new(u128::from(a) * u128::from(b)));
            }
        }
    }

    #[test]
    fn powers_agree_with_u128() {
        for base in [0u128, 1, 2, 3, 7, 10] {
            for exponent in 0..=38 {
                assert_eq!(Big::new(base).power(exponent), Big::new(base.pow(exponent)));
            }
        }
    }

    #[test]
    fn roots_are_the_greatest_that_are_small_enough() {
        for (number, exponent, root) in [(0, 2, 0), (8, 3, 2), (26, 3, 2), (27, 3, 3), (99, 2, 9)] {
            assert_eq!(Big::new(number).root(exponent, 100), root);
        }
        assert_eq!(Big::new(10_000).root(2, 100), 99);
    }

    #[test]
    fn a_power_of_a_power_is_a_power() {
        let ten = Big::new(10);
        assert_eq!(ten.power(13).power(100), ten.power(1300));
        assert!(Big::new(10_000_000_000_001).power(100) > ten.power(1300));
        assert!(Big::new(9_999_999_999_999).power(100) < ten.power(1300));
    }
}
