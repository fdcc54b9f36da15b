//! The tests on bytes, and what the program prints.

use super::super::*;
use crate::cases::batches::{batch, chart, charts_counted, flat};
use crate::cases::bottle::Bottle;
use crate::cases::greatest_batch::peltquarry_input;
use crate::numbers::{LEAST_SETUP, MOST_BYTES};

fn usual() -> Vec<u8> {
    to_bytes(&batch(&[chart(8, &flat(), &[1_000])], &[Bottle::printed()]))
}

/// A file refused 9, of so many bytes.
fn nine(length: usize) -> Vec<u8> {
    let mut bytes = to_bytes(&charts_counted(11, &[]));
    bytes.resize(length, 0);
    bytes
}

fn refusal(first: &[u8], second: &[u8]) -> Option<Refusal> {
    answer_bytes(first, second).err()
}

#[test]
fn the_tests_on_bytes_are_each_files_first() {
    let usual = usual();
    for length in [5, 6, 7, MOST_BYTES + 1, MOST_BYTES + 4] {
        assert_eq!(refusal(&nine(length), &usual), Some(8), "{length}");
        assert_eq!(refusal(&usual, &nine(length)), Some(8), "{length}");
        // The first file's tests come all before the second's.
        assert_eq!(refusal(&nine(length), &nine(4)), Some(8), "{length}");
        assert_eq!(refusal(&nine(4), &nine(length)), Some(9), "{length}");
    }
    for length in [4, 8, MOST_BYTES] {
        assert_eq!(refusal(&nine(length), &usual), Some(9), "{length}");
        assert_eq!(refusal(&usual, &nine(length)), Some(9), "{length}");
    }
}

#[test]
fn the_tests_on_bytes_come_before_14_and_15() {
    let usual = usual();
    let other = to_bytes(&batch(&[chart(8, &[7; LEAST_SETUP], &[])], &[]));
    let full = to_bytes(&batch(&[chart(8, &flat(), &[1_000; 64])], &[]));
    for (second, expected) in [(other, 14), (full, 15)] {
        assert_eq!(refusal(&usual, &second), Some(expected));
        let longer = [&second[..], &[0]].concat();
        assert_eq!(refusal(&usual, &longer), Some(8));
        assert_eq!(refusal(&longer, &usual), Some(8));
    }
}

#[test]
fn the_greatest_file_may_be_joined_with_an_empty_batch() {
    let (greatest, empty) = (peltquarry_input(), to_bytes(&batch(&[], &[])));
    assert_eq!(greatest.len(), MOST_BYTES);
    assert_eq!(answer_bytes(&greatest, &empty), Ok(greatest.clone()));
    assert_eq!(answer_bytes(&empty, &greatest), Ok(greatest.clone()));
    assert_eq!(refusal(&greatest, &greatest), Some(15));
}

#[test]
fn the_program_prints_the_joined_file_or_a_line() {
    let usual = usual();
    assert_eq!(Ok(output(&usual, &usual)), answer_bytes(&usual, &usual));
    assert_eq!(output(&[0; 8], &[0; 8]), [0; 8]);
    assert_eq!(output(&usual, &[]), b"refused 8\n");
    assert_eq!(output(&nine(4), &[]), b"refused 9\n");
    let other = to_bytes(&batch(&[chart(8, &[7; LEAST_SETUP], &[])], &[]));
    assert_eq!(output(&usual, &other), b"refused 14\n");
}
