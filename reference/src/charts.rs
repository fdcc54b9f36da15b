//! "Charts": control charts of values in tenths of a µg/L.

use crate::numbers::{LEAST_SETUP, MOST_LATER, MOST_SETUP, MOST_VALUE};
use crate::refusals::{require, Refusal, CHART, COUNT, OUTPUT};
use std::cmp::Ordering;

/// "1: beyond 3."
pub const BEYOND_THREE: u32 = 1;
/// "2: it, and at least one of the later values one or two places before it,
/// are beyond 2 on the same side."
pub const TWICE_BEYOND_TWO: u32 = 2;
/// "4: it and the six later values before it all above, or all below, the mean."
pub const SEVEN_ON_ONE_SIDE: u32 = 4;
/// "8: these seven strictly rising, or strictly falling."
pub const SEVEN_IN_ONE_DIRECTION: u32 = 8;

/// "10 to 64 setup values, then 0 to 64 later ones": else 9.
pub fn test_counts(setup: usize, later: usize) -> Result<(), Refusal> {
    let setup_fits = (LEAST_SETUP..=MOST_SETUP).contains(&setup);
    require(setup_fits && later <= MOST_LATER, COUNT)
}

/// "Chart values are in tenths too, 0 to 2,000,000" (document 02 (i)): else 10.
pub fn test_values(values: &[u32]) -> Result<(), Refusal> {
    require(values.iter().all(|&value| value <= MOST_VALUE), CHART)
}

/// "With n setup values, sum S and sum of squares Q".
///
/// n is at most 64 and a value at most 2,000,000: n × v and S are below
/// 2 × 10^8 and the products of the rule below 10^19, far within an i128.
struct Setup {
    n: i128,
    sum: i128,
    squares: i128,
}

impl Setup {
    fn of(values: &[u32]) -> Setup {
        let values = || values.iter().map(|&value| i128::from(value));
        Setup {
            n: values().count() as i128,
            sum: values().sum(),
            squares: values().map(|value| value * value).sum(),
        }
    }

    /// "a value v is beyond k deviations when (n×v − S)² × (n − 1) is greater
    /// than k² × n × (n×Q − S²)."
    fn is_beyond(&self, value: u32, k: i128) -> bool {
        let (n, s, q) = (self.n, self.sum, self.squares);
        let difference = n * i128::from(value) - s;
        difference * difference * (n - 1) > k * k * n * (n * q - s * s)
    }

    /// "The mean is S/n; a value's side is above or below it." A value on the
    /// mean has no side; here that is `Equal`.
    fn side(&self, value: u32) -> Ordering {
        (self.n * i128::from(value)).cmp(&self.sum)
    }

    /// The signal word of the last of these later values.
    fn signal(&self, later: &[u32]) -> u32 {
        let mut signal = 0;
        let rules = [
            (self.last_beyond_three(later), BEYOND_THREE),
            (self.twice_beyond_two(later), TWICE_BEYOND_TWO),
            (self.seven_on_one_side(later), SEVEN_ON_ONE_SIDE),
            (seven_in_one_direction(later), SEVEN_IN_ONE_DIRECTION),
        ];
        for (rule_holds, number) in rules {
            if rule_holds {
                signal += number;
            }
        }
        signal
    }

    fn last_beyond_three(&self, later: &[u32]) -> bool {
        later.last().is_some_and(|&last| self.is_beyond(last, 3))
    }

    /// "(the second later value has one place before it, the first none)"
    fn twice_beyond_two(&self, later: &[u32]) -> bool {
        let Some((&last, before)) = later.split_last() else {
            return false;
        };
        let one_or_two_before = before.iter().rev().take(2);
        let on_the_same_side = |&&value: &&u32| self.side(value) == self.side(last);
        self.is_beyond(last, 2)
            && one_or_two_before
                .filter(on_the_same_side)
                .any(|&value| self.is_beyond(value, 2))
    }

    fn seven_on_one_side(&self, later: &[u32]) -> bool {
        last_seven(later).is_some_and(|seven| {
            let all_on = |side| seven.iter().all(|&value| self.side(value) == side);
            all_on(Ordering::Greater) || all_on(Ordering::Less)
        })
    }
}

/// "a rule that needs more earlier later values than there are adds nothing"
fn last_seven(later: &[u32]) -> Option<&[u32]> {
    later.len().checked_sub(7).map(|start| &later[start..])
}

fn seven_in_one_direction(later: &[u32]) -> bool {
    last_seven(later).is_some_and(|seven| {
        let rising = seven.windows(2).all(|pair| pair[0] < pair[1]);
        let falling = seven.windows(2).all(|pair| pair[0] > pair[1]);
        rising || falling
    })
}

/// The signals of a chart alone. "One output word per later value"; "a chart
/// alone, two slices without an element, 9, 10, 13."
pub fn signals(setup: &[u32], later: &[u32], output: &mut [u32]) -> Result<usize, Refusal> {
    test_counts(setup.len(), later.len())?;
    test_values(setup)?;
    test_values(later)?;
    require(output.len() >= later.len(), OUTPUT)?;
    let setup = Setup::of(setup);
    for place in 0..later.len() {
        output[place] = setup.signal(&later[..=place]);
    }
    Ok(later.len())
}

/// The signal word of the last later value. "A chart without later values has
/// no signal": 0.
pub fn last_signal(setup: &[u32], later: &[u32]) -> Result<u32, Refusal> {
    test_counts(setup.len(), later.len())?;
    test_values(setup)?;
    test_values(later)?;
    Ok(Setup::of(setup).signal(later))
}

#[cfg(test)]
mod tests {
    use super::*;
    use crate::cases::charts::{every_sum, moved_up, Worked, WIDE};
    use crate::cases::charts::{PAIRS_BEYOND_TWO, RISING_THROUGH_THE_LIMITS, WITHOUT_VARIANCE};

    /// Mean 1,000; two deviations are 4 exactly, three are 6 exactly.
    const SETUP: [u32; LEAST_SETUP] = [1003, 997, 1003, 997, 1000, 1000, 1000, 1000, 1000, 1000];

    fn words(later: &[u32]) -> Vec<u32> {
        words_by(&SETUP, later)
    }

    fn words_by(setup: &[u32], later: &[u32]) -> Vec<u32> {
        let mut output = vec![99; later.len()];
        assert_eq!(signals(setup, later, &mut output), Ok(later.len()));
        output
    }

    fn assert_worked((setup, later, expected): Worked) {
        assert_eq!(words_by(&setup, later), expected);
        assert_eq!(last_signal(&setup, later).ok().as_ref(), expected.last());
    }

    #[test]
    fn rising_through_the_limits() {
        assert_worked(RISING_THROUGH_THE_LIMITS);
    }

    #[test]
    fn pairs_beyond_two() {
        assert_worked(PAIRS_BEYOND_TWO);
    }

    #[test]
    fn beyond_three_is_strict() {
        assert_eq!(words(&[1006]), [0]);
        assert_eq!(words(&[1007]), [1]);
        assert_eq!(words(&[994]), [0]);
        assert_eq!(words(&[993]), [1]);
    }

    #[test]
    fn beyond_two_twice_on_one_side() {
        assert_eq!(words(&[1005, 1005]), [0, 2]);
        assert_eq!(words(&[1005, 1004]), [0, 0]);
        assert_eq!(words(&[1005, 1000, 1005]), [0, 0, 2]);
        assert_eq!(words(&[1005, 1000, 1000, 1005]), [0, 0, 0, 0]);
        assert_eq!(words(&[1005, 995]), [0, 0]);
        assert_eq!(words(&[995, 1005, 995]), [0, 0, 2]);
        assert_eq!(words(&[1005, 1007]), [0, 3]);
    }

    #[test]
    fn seven_above_or_below() {
        assert_eq!(words(&[1001, 1002, 1001, 1002, 1001, 1002, 1001])[6], 4);
        assert_eq!(words(&[999, 998, 999, 998, 999, 998, 999])[6], 4);
        assert_eq!(words(&[1001, 1002, 1001, 1002, 1001, 1000, 1001])[6], 0);
        assert_eq!(words(&[1001, 1002, 1001, 1002, 1001, 1002])[5], 0);
    }

    #[test]
    fn seven_rising_or_falling() {
        assert_eq!(words(&[997, 998, 999, 1000, 1001, 1002, 1003])[6], 8);
        assert_eq!(words(&[1003, 1002, 1001, 1000, 999, 998, 997])[6], 8);
        assert_eq!(words(&[997, 998, 999, 999, 1001, 1002, 1003])[6], 0);
        assert_eq!(words(&[1001, 1002, 1003, 1004, 1005, 1006, 1007])[6], 15);
    }

    #[test]
    fn every_sum_of_signals() {
        for (sum, later) in every_sum() {
            assert_eq!(last_signal(&WIDE, &later), Ok(sum));
            assert_eq!(last_signal(&moved_up(&WIDE), &moved_up(&later)), Ok(sum));
        }
    }

    #[test]
    fn without_variance_every_value_off_the_mean_is_beyond() {
        let mut output = [99; 3];
        let answer = signals(&[5; LEAST_SETUP], &[5, 6, 4], &mut output);
        assert_eq!((answer, output), (Ok(3), [0, 1, 1]));
        assert_worked(WITHOUT_VARIANCE);
    }

    #[test]
    fn refusals_in_their_order() {
        let mut output = [7];
        let beyond = [MOST_VALUE + 1];
        let too_few = &SETUP[..LEAST_SETUP - 1];
        assert_eq!(signals(too_few, &beyond, &mut []), Err(9));
        assert_eq!(signals(&SETUP, &[0; MOST_LATER + 1], &mut output), Err(9));
        assert_eq!(signals(&SETUP, &beyond, &mut []), Err(10));
        assert_eq!(signals(&beyond.repeat(LEAST_SETUP), &[], &mut []), Err(10));
        assert_eq!(signals(&SETUP, &[1, 1], &mut output), Err(13));
        assert_eq!(output, [7]);
    }

    #[test]
    fn words_after_the_answer_stay() {
        let mut output = [7, 7, 7];
        assert_eq!(signals(&SETUP, &[1000], &mut output), Ok(1));
        assert_eq!(output, [0, 7, 7]);
        assert_eq!(last_signal(&SETUP, &[1007, 1000]), Ok(0));
        assert_eq!(last_signal(&SETUP, &[1000, 1007]), Ok(1));
        assert_eq!(last_signal(&SETUP, &[]), Ok(0));
    }
}
