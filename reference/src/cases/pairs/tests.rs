use super::{all, tray_change, Pair};
use crate::batch;
use crate::cases::greatest_batch::peltquarry_input;
use crate::join::answer_bytes;
use crate::listing;
use crate::numbers::MOST_BYTES;
use crate::words::whole_words;

/// Every pair's name, and its refusal or 0.
const PAIRS: [(&str, u32); 19] = [
    ("tray_change", 0),
    ("flag_changes", 0),
    ("no_charts", 0),
    ("empty_batches", 0),
    ("greatest", 0),
    ("setup_value_differs", 14),
    ("setup_order_differs", 14),
    ("setup_count_differs", 14),
    ("sixty_five_later", 15),
    ("fourteen_before_fifteen", 14),
    ("fifteen_in_an_earlier_chart", 15),
    ("samples_401", 15),
    ("first_refused", 3),
    ("second_refused", 4),
    ("first_bytes", 8),
    ("first_over_the_limit", 8),
    ("second_bytes", 8),
    ("second_over_the_limit", 8),
    ("second_bytes_after_first", 10),
];

fn named(name: &str) -> Pair {
    let found = all().into_iter().find(|pair| pair.name == name);
    found.unwrap_or_else(|| panic!("no pair {name}"))
}

#[test]
fn every_pair_is_answered_as_its_name_says() {
    let pairs = all();
    assert_eq!(pairs.len(), PAIRS.len());
    for (pair, (name, refusal)) in pairs.iter().zip(PAIRS) {
        assert_eq!(pair.name, name);
        let answer = answer_bytes(&pair.first, &pair.second);
        assert_eq!(answer.err().unwrap_or(0), refusal, "{name}");
        if refusal != 0 {
            let line = format!("refused {refusal}\n");
            assert_eq!(pair.answer(), line.as_bytes(), "{name}");
        }
    }
}

/// The refusal of a file by itself, or 0.
fn own_refusal(file: &[u8]) -> u32 {
    batch::test(&whole_words(file)).err().unwrap_or(0)
}

#[test]
fn both_files_have_the_faults_that_compete() {
    let own = |name| {
        let pair = named(name);
        (own_refusal(&pair.first), own_refusal(&pair.second))
    };
    assert_eq!(own("first_refused"), (3, 9));
    assert_eq!(own("second_refused"), (0, 4));
    // Without the bytes beyond the last whole word, and without the limit.
    assert_eq!(own("first_bytes"), (0, 9));
    assert_eq!(own("first_over_the_limit"), (8, 0));
    assert_eq!(own("second_bytes"), (0, 0));
    assert_eq!(own("second_over_the_limit"), (0, 9));
    assert_eq!(own("second_bytes_after_first"), (10, 0));
    assert_eq!(named("first_over_the_limit").first.len(), 46_852);
    assert_eq!(named("second_over_the_limit").second.len(), 46_852);
    for (name, refusal) in PAIRS {
        if refusal == 0 || refusal > 13 {
            assert_eq!(own(name), (0, 0), "{name}");
        }
    }
}

/// Also where the chart's later values and the samples are too many at once.
#[test]
fn fourteen_comes_before_every_fifteen() {
    let pair = named("fourteen_before_fifteen");
    let [first, second] =
        [&pair.first, &pair.second].map(|file| batch::read(&whole_words(file)).expect("a batch"));
    let ([before], [after]) = (&first.charts[..], &second.charts[..]) else {
        panic!("more charts than one");
    };
    assert_eq!(before.element, after.element);
    assert_ne!(before.setup, after.setup);
    assert_eq!(before.later.len() + after.later.len(), 65);
    assert_eq!(first.samples.len() + second.samples.len(), 401);
}

#[test]
fn the_greatest_batch_is_an_answer() {
    let pair = named("greatest");
    assert_eq!(pair.answer().len(), MOST_BYTES);
    assert_eq!(pair.answer(), peltquarry_input());
    assert!(pair.first.len() < MOST_BYTES && pair.second.len() < MOST_BYTES);
}

#[test]
fn an_ordinary_day_has_charts_on_one_side_and_on_both() {
    let pair = tray_change();
    let elements = |file: &[u8]| -> Vec<u32> {
        let batch = batch::read(&whole_words(file)).expect("a batch");
        assert!(batch.charts.iter().all(|chart| chart.later.len() > 2));
        assert!(batch.samples.len() > 3);
        batch.charts.iter().map(|chart| chart.element).collect()
    };
    assert_eq!(elements(&pair.first), [8, 2, 5]);
    assert_eq!(elements(&pair.second), [5, 1, 8, 9]);
    assert_eq!(elements(&pair.answer()), [8, 2, 5, 1, 9]);
}

/// The number and the flag in each row of a file's listing.
fn flags(file: &[u8]) -> Vec<(String, String)> {
    let text = listing::text(file);
    let rows = text.lines().skip(1);
    rows.map(|row| {
        let fields: Vec<&str> = row.split(' ').collect();
        (fields[0].to_string(), fields[fields.len() - 1].to_string())
    })
    .collect()
}

#[test]
fn flags_change_in_both_directions() {
    let pair = named("flag_changes");
    let owned = |rows: [(&str, &str); 4]| {
        rows.map(|(number, flag)| (number.to_string(), flag.to_string()))
            .to_vec()
    };
    let own_first = owned([("101", "0"), ("102", "1"), ("103", "0"), ("104", "0")]);
    let own_second = owned([("201", "0"), ("202", "0"), ("203", "0"), ("204", "1")]);
    assert_eq!(flags(&pair.first), own_first);
    assert_eq!(flags(&pair.second), own_second);
    let joined_first = owned([("101", "1"), ("102", "0"), ("103", "1"), ("104", "0")]);
    let joined_second = owned([("201", "1"), ("202", "1"), ("203", "0"), ("204", "1")]);
    assert_eq!(
        flags(&pair.answer()),
        [joined_first, joined_second].concat()
    );
}
