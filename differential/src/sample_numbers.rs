//! Sample numbers and the two words they stand in: of every count of digits, at
//! the limits and beside them, alike in one word, and in the other order.

use crate::numbers::{
    of_parts, parts_of, MOST_DIGITS, MOST_NUMBER, NUMBER_HIGH, NUMBER_LOW, NUMBER_WORDS,
};
use crate::random::Draw;
use reference::cases::generator::Generator;

/// The words of 10^15, the first number beyond: no number that is taken has a
/// greater high word, and beside this one the low word has to be less.
pub const LIMIT_HIGH: u32 = 232_830;
pub const LIMIT_LOW: u32 = 2_764_472_320;

/// Where something begins or ends, and both sides of it: the least number, the
/// first with a high part, the greatest, and the last that two words make.
const EDGES: [u64; 9] = [
    0,
    1,
    (1 << 32) - 1,
    1 << 32,
    (1 << 32) + 1,
    MOST_NUMBER,
    MOST_NUMBER + 1,
    MOST_NUMBER + 2,
    u64::MAX,
];

/// Where either word begins, passes its part of the limit or ends.
const HIGH_EDGES: [u32; 6] = [0, 1, LIMIT_HIGH - 1, LIMIT_HIGH, LIMIT_HIGH + 1, u32::MAX];
const LOW_EDGES: [u32; 6] = [0, 1, LIMIT_LOW - 1, LIMIT_LOW, LIMIT_LOW + 1, u32::MAX];

/// The whole number in the first words of a record.
pub fn number_of(record: &[u32]) -> u64 {
    of_parts(record[NUMBER_HIGH], record[NUMBER_LOW])
}

/// Whether a record may have this number.
fn is_taken(number: u64) -> bool {
    (1..=MOST_NUMBER).contains(&number)
}

/// The number with its words in the other order.
fn swapped(number: u64) -> u64 {
    let (high, low) = parts_of(number);
    of_parts(low, high)
}

/// The least and the greatest number with so many digits.
pub fn of_width(digits: u32) -> [u64; 2] {
    [10u64.pow(digits - 1), 10u64.pow(digits) - 1]
}

/// A number that a record may have: mostly of any count of digits, else on a
/// limit or of two small words.
pub fn any_number(generator: &mut Generator) -> u64 {
    let number = match generator.below(8) {
        0 => about_a_limit(generator),
        1 => of_small_words(generator),
        _ => {
            let [least, greatest] = of_width(generator.between(1, MOST_DIGITS));
            generator.wide_between(least, greatest)
        }
    };
    number.clamp(1, MOST_NUMBER)
}

/// Two words that make a number in either order.
fn of_small_words(generator: &mut Generator) -> u64 {
    let mut word = || 1 + generator.of_any_size(LIMIT_HIGH - 2);
    of_parts(word(), word())
}

/// Two words at a limit or beside it, whatever number they make.
pub fn about_a_limit(generator: &mut Generator) -> u64 {
    match generator.below(4) {
        0 | 1 => generator.pick(&EDGES),
        2 => of_parts(LIMIT_HIGH, any_low_word(generator)),
        _ => of_parts(any_high_word(generator), any_low_word(generator)),
    }
}

/// A high word, mostly of a number that is taken.
fn any_high_word(generator: &mut Generator) -> u32 {
    match generator.below(8) {
        0 | 1 => generator.pick(&HIGH_EDGES),
        2 => generator.word(),
        _ => generator.of_any_size(LIMIT_HIGH),
    }
}

/// Any low word, at an end or at the limit's own as often as not.
fn any_low_word(generator: &mut Generator) -> u32 {
    if generator.once_in(2) {
        generator.pick(&LOW_EDGES)
    } else {
        generator.word()
    }
}

/// The number with another high word; 1 where that leaves both words 0.
pub fn with_other_high(generator: &mut Generator, number: u64) -> u64 {
    let (high, low) = parts_of(number);
    let other = (high + 1 + generator.below(LIMIT_HIGH - 1)) % LIMIT_HIGH;
    of_parts(other, low).max(1)
}

/// Another number that a record may have: the next one, or one that is alike in
/// the low word, in the high word, in all bits but one or in both words but not
/// their order. The next one, too, where such a one is refused.
pub fn other_number(generator: &mut Generator, number: u64) -> u64 {
    let next = number % MOST_NUMBER + 1;
    let other = match generator.below(8) {
        0 | 1 => with_other_high(generator, number),
        2 | 3 => of_parts(parts_of(number).0, any_low_word(generator)),
        4 | 5 => swapped(number),
        6 => number ^ (1 << generator.below(u64::BITS - MOST_NUMBER.leading_zeros())),
        _ => next,
    };
    if is_taken(other) && other != number {
        other
    } else {
        next
    }
}

/// Another number for a record, which may yet be a valid one: another high
/// word, another low word, both, or bits of either turned over.
pub fn damage_number(generator: &mut Generator, record: &mut [u32]) {
    match generator.below(6) {
        0 => record[NUMBER_HIGH] = any_high_word(generator),
        1 => record[NUMBER_LOW] = any_low_word(generator),
        2 => {
            let number = about_a_limit(generator);
            (record[NUMBER_HIGH], record[NUMBER_LOW]) = parts_of(number);
        }
        3 => record.swap(NUMBER_HIGH, NUMBER_LOW),
        4 => generator.flip_bit(&mut record[NUMBER_WORDS]),
        _ => {
            for place in NUMBER_WORDS {
                generator.flip_bit(&mut record[place..=place]);
            }
        }
    }
}

/// Numbers written down, taken or not: the edges, every power of 2 and of 10
/// and both sides of it, every pair of the words' edges; each with its words in
/// either order.
pub fn written() -> Vec<u64> {
    let twos = (0..u64::BITS).map(|power| 1 << power);
    let tens = (0..=u64::MAX.ilog10()).map(|power| 10u64.pow(power));
    let powers = twos
        .chain(tens)
        .flat_map(|power: u64| power - 1..=power + 1);
    let pairs = HIGH_EDGES
        .into_iter()
        .flat_map(|high| LOW_EDGES.map(|low| of_parts(high, low)));
    let all = EDGES.into_iter().chain(powers).chain(pairs);
    all.flat_map(|number| [number, swapped(number)]).collect()
}

#[cfg(test)]
mod tests {
    use super::*;
    use crate::answers::judge;
    use reference::cases::bottle::Bottle;
    use std::cmp::Ordering;

    #[test]
    fn the_limit_has_these_words() {
        assert_eq!(parts_of(MOST_NUMBER + 1), (LIMIT_HIGH, LIMIT_LOW));
        assert_eq!(of_width(1), [1, 9]);
        assert_eq!(of_width(MOST_DIGITS), [100_000_000_000_000, MOST_NUMBER]);
    }

    /// Every pair of words is taken or refused by the number that it makes.
    #[test]
    fn written_numbers_are_judged_by_the_whole_number() {
        let numbers = written();
        for &number in &numbers {
            let answer = judge(Bottle::printed().number(number).words()).map(|_| ());
            let due = if is_taken(number) { Ok(()) } else { Err(2) };
            assert_eq!(answer, due, "{number}");
        }
        let taken = numbers.iter().filter(|&&number| is_taken(number)).count();
        assert!(taken > 200 && numbers.len() - taken > 200, "{taken} taken");
        assert!(EDGES.iter().all(|edge| numbers.contains(edge)));
    }

    #[test]
    fn every_count_of_digits_and_both_orders_are_common() {
        let mut generator = Generator::new(21);
        let mut widths = [0; MOST_DIGITS as usize];
        let (mut one_order, mut both_orders, mut without_low) = (0, 0, 0);
        for _ in 0..20_000 {
            let number = any_number(&mut generator);
            assert!(is_taken(number));
            widths[number.ilog10() as usize] += 1;
            one_order += u32::from(!is_taken(swapped(number)));
            both_orders += u32::from(is_taken(swapped(number)) && swapped(number) != number);
            without_low += u32::from(parts_of(number).1 == 0);
        }
        assert!(widths.iter().all(|&times| times > 800), "{widths:?}");
        assert!(one_order > 5_000 && both_orders > 5_000 && without_low > 100);
    }

    #[test]
    fn edges_and_both_sides_of_the_limit_s_words_are_common() {
        let mut generator = Generator::new(22);
        let mut edges = [0; EDGES.len()];
        let mut sides = [0; 3];
        for _ in 0..20_000 {
            let number = about_a_limit(&mut generator);
            for (times, edge) in edges.iter_mut().zip(EDGES) {
                *times += u32::from(number == edge);
            }
            let (high, low) = parts_of(number);
            let orders = [Ordering::Less, Ordering::Equal, Ordering::Greater];
            for (times, order) in sides.iter_mut().zip(orders) {
                *times += u32::from(high == LIMIT_HIGH && low.cmp(&LIMIT_LOW) == order);
            }
        }
        assert!(edges.iter().all(|&times| times > 500), "{edges:?}");
        assert!(sides.iter().all(|&times| times > 200), "{sides:?}");
    }

    /// In the high word alone, in the low word alone, in both, in their order.
    #[test]
    fn others_differ_in_every_way() {
        let mut generator = Generator::new(23);
        let mut ways = [0; 4];
        for _ in 0..10_000 {
            let number = any_number(&mut generator);
            let other = other_number(&mut generator, number);
            assert!(is_taken(other) && other != number);
            let ((high, low), (other_high, other_low)) = (parts_of(number), parts_of(other));
            ways[0] += u32::from(high != other_high && low == other_low);
            ways[1] += u32::from(high == other_high && low != other_low);
            ways[2] += u32::from(high != other_high && low != other_low);
            ways[3] += u32::from(other == swapped(number));
        }
        assert!(ways.iter().all(|&times| times > 500), "{ways:?}");
    }

    #[test]
    fn damage_reaches_either_word_and_both() {
        let mut generator = Generator::new(24);
        let (mut taken, mut refused) = ([0; 3], [0; 3]);
        for _ in 0..10_000 {
            let bottle = Bottle::printed().number(any_number(&mut generator));
            let mut words = bottle.words().to_vec();
            damage_number(&mut generator, &mut words);
            let changed =
                [NUMBER_HIGH, NUMBER_LOW].map(|place| words[place] != bottle.words()[place]);
            let way = match changed {
                [true, false] => 0,
                [false, true] => 1,
                [true, true] => 2,
                [false, false] => continue,
            };
            match judge(&words) {
                Ok(_) => taken[way] += 1,
                Err(_) => refused[way] += 1,
            }
        }
        assert!(taken.iter().all(|&times| times > 200), "{taken:?}");
        assert!(refused.iter().all(|&times| times > 20), "{refused:?}");
    }
}
