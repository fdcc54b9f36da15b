//! Pairs that are refused.

use super::Pair;
use crate::cases::batches::{batch, chart, charts_counted, flat, printed_with};
use crate::cases::bottle::Bottle;
use crate::cases::greatest_batch::peltquarry_input;
use crate::numbers::{
    LEAST_SETUP, MOST_BYTES, MOST_CHARTS, MOST_LATER, MOST_SAMPLES, MOST_VALUE, WORD_BYTES,
};
use crate::words::to_bytes;

pub fn all() -> Vec<Pair> {
    let mut pairs = setups_differ();
    pairs.extend(counts_exceed());
    pairs.extend(own_tests());
    pairs.extend(tests_on_bytes());
    pairs
}

/// Setup values of which no two are equal.
fn rising() -> [u32; LEAST_SETUP + 1] {
    let mut values = [1_000; LEAST_SETUP + 1];
    for (place, value) in values.iter_mut().enumerate() {
        *value += place as u32;
    }
    values
}

/// A batch with one sample.
fn with_charts(charts: &[Vec<u32>]) -> Vec<u32> {
    batch(charts, &[Bottle::printed()])
}

/// A batch with a chart that joins well, then one of element 7.
fn with_setup(setup: &[u32]) -> Vec<u32> {
    with_charts(&[chart(2, &flat(), &[1_000]), chart(7, setup, &[1_003])])
}

/// "14 setup values differ"
fn setups_differ() -> Vec<Pair> {
    let setup = &rising()[..LEAST_SETUP];
    let mut one_value = setup.to_vec();
    one_value[LEAST_SETUP / 2] += 1;
    let mut other_order = setup.to_vec();
    other_order.swap(3, 4);
    let first = with_setup(setup);
    let pair = |name, second: &[u32]| Pair::of_words(name, &first, &with_setup(second));
    vec![
        pair("setup_value_differs", &one_value),
        pair("setup_order_differs", &other_order),
        pair("setup_count_differs", &rising()),
    ]
}

/// So many later values, all on the mean of the flat setup.
fn calm(count: usize) -> Vec<u32> {
    vec![1_000; count]
}

/// A chart of element 6 with so many later values.
fn sixth(setup: &[u32], later: usize) -> Vec<u32> {
    chart(6, setup, &calm(later))
}

/// "15 joined counts exceed 01's ranges", and what comes before it.
fn counts_exceed() -> Vec<Pair> {
    let (usual, other) = (flat(), &rising()[..LEAST_SETUP]);
    let (less, more) = (MOST_LATER / 2, MOST_LATER / 2 + 1);
    let one = |later| with_charts(&[sixth(&usual, later)]);
    let second = |setup: &[u32]| chart(2, setup, &[]);
    vec![
        Pair::of_words("sixty_five_later", &one(more), &one(less)),
        // Its samples are too many as well: 14 comes before that 15, too.
        too_many_samples(
            "fourteen_before_fifteen",
            &[sixth(&usual, MOST_LATER)],
            &[sixth(other, 1)],
        ),
        // The second batch has the charts in the other order.
        Pair::of_words(
            "fifteen_in_an_earlier_chart",
            &with_charts(&[sixth(&usual, more), second(&usual)]),
            &with_charts(&[second(other), sixth(&usual, more)]),
        ),
        too_many_samples("samples_401", &[], &[]),
    ]
}

/// Batches with these charts and one joined sample too many.
fn too_many_samples(name: &'static str, first: &[Vec<u32>], second: &[Vec<u32>]) -> Pair {
    let mut samples = printed_with(1..=u64::from(MOST_SAMPLES) + 1);
    let after = samples.split_off(MOST_SAMPLES as usize / 2);
    Pair::of_words(name, &batch(first, &samples), &batch(second, &after))
}

/// A batch refused 9: a chart too many.
fn too_many_charts() -> Vec<u32> {
    charts_counted(MOST_CHARTS + 1, &[])
}

/// "after the first batch and then the second has passed its own tests"
fn own_tests() -> Vec<Pair> {
    let bad_kind = batch(&[], &[Bottle::printed().kind(0)]);
    let first = with_charts(&[chart(3, &flat(), &[])]);
    let other_setup = [chart(3, &rising(), &[])];
    let second = batch(&other_setup, &[Bottle::printed().ph(0)]);
    vec![
        Pair::of_words("first_refused", &bad_kind, &too_many_charts()),
        Pair::of_words("second_refused", &first, &second),
    ]
}

/// The tests on bytes are each file's first.
fn tests_on_bytes() -> Vec<Pair> {
    let good = to_bytes(&with_charts(&[chart(3, &flat(), &[])]));
    let one_more = [&good[..], &[0]].concat();
    let mut too_long = to_bytes(&too_many_charts());
    let bad_value = with_charts(&[chart(3, &flat(), &[MOST_VALUE + 1])]);
    let second_nine = to_bytes(&too_many_charts());
    // Without the word over the limit it is a batch that could be joined.
    let greatest_and_one = [&peltquarry_input()[..], &[0; WORD_BYTES]].concat();
    too_long.resize(MOST_BYTES + WORD_BYTES, 0);
    let pair = |name, first: &[u8], second: &[u8]| Pair {
        name,
        first: first.to_vec(),
        second: second.to_vec(),
    };
    vec![
        pair("first_bytes", &one_more, &second_nine),
        pair(
            "first_over_the_limit",
            &greatest_and_one,
            &to_bytes(&batch(&[], &[])),
        ),
        pair("second_bytes", &good, &one_more),
        pair("second_over_the_limit", &good, &too_long),
        pair("second_bytes_after_first", &to_bytes(&bad_value), &one_more),
    ]
}
