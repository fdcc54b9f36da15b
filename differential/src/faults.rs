//! Faults put into the stand-in: each must be found by the part that it names.

mod activity;
mod amounts;
mod conducting;
mod dockets;
mod floors;
mod halves;
mod joins;
mod list;
mod numbers;
mod overturning;
mod ranges;

pub use list::{Fault, CORRECTION, FAULTS, OTHER_RANGES, OVERTURNING};

use crate::answers;
use crate::library::Library;
use crate::numbers::{
    BALANCE_CHECK, BULK, CARBON_LINE, CHART_COUNT, CHART_ELEMENT, CHECKS, CONDUCTIVITY_CHECK,
    COUNT_WORDS, DOCKET_COUNT, DOCKET_RECORD, DOCKET_STATE, DOCKET_WORDS, FIRST_CHART, MOST_AMOUNT,
    MOST_BYTES, MOST_ELEMENT, MOST_VALUE, ORGANIC_CARBON, ROW_FLAG, ROW_WORDS, RUNOFF, WORD_BYTES,
};
use crate::stand_in::{write, write_telling, StandIn};
use activity::judge_by_another_correction;
use amounts::{misread, with_readings};
use dockets::restate;
use floors::judge_by_another_floor;
use halves::{samples_by_halves, text_by_halves};
use joins::misjoined;
use numbers::{misnumbered, misnumbered_rows, offer_by_the_low_part, text_of_low_parts};
use ranges::judge_by_other_ranges;
use reference::charts::SEVEN_ON_ONE_SIDE;
use reference::checks::{
    conductivity, ion_balance, Conductivity, IonBalance, Span, Spans, Verdict,
};
use reference::readings::Reading;
use reference::record::Record;
use reference::refusals::{BATCH_LENGTH, CHART, DOCKET, OTHER_SAMPLE};
use std::cmp::Ordering;
use std::ops::Range;
use Fault::*;

/// Document 01's line of carbon and greatest chart value, both in whole µg/L:
/// what they are where amounts became tenths and they didn't.
const KEPT_CARBON_LINE: u32 = 5_000;
const KEPT_MOST_VALUE: u32 = 200_000;

/// The words of a docket that hold its record.
const HELD: Range<usize> = DOCKET_RECORD..DOCKET_WORDS;

/// The stand-in with one fault.
pub struct Faulty(pub Fault);

impl Library for Faulty {
    fn judge(&self, words: &[u32], verdicts: &mut [u32]) -> u32 {
        let read = misnumbered(self.0, misread(self.0, words));
        let answer = StandIn.judge(&read, verdicts);
        match (self.0, Record::read(words)) {
            (WritesWhenRefused, _) if answer != 0 => verdicts.fill(0),
            (WritesBehindTheAnswer, _) if answer == 0 && verdicts.len() > CHECKS => {
                verdicts[CHECKS] = 0;
            }
            (fault, Ok(record)) if answer == 0 => distort(fault, &record, verdicts),
            _ => {}
        }
        answer
    }

    fn reading(&self, value: f32, limit: f32, words: &mut [u32]) -> u32 {
        match self.0 {
            EqualIsBelow if value == limit && limit > 0.0 => {
                let below = answers::reading(value.to_bits() - 1, limit.to_bits());
                write(below, words)
            }
            // Adding plus zero makes plus zero of minus zero.
            MinusZeroTaken => StandIn.reading(value + 0.0, limit, words),
            _ => StandIn.reading(value, limit, words),
        }
    }

    fn fresh(&self, docket: &mut [u32]) -> u32 {
        StandIn.fresh(docket)
    }

    fn offer(&self, docket: &mut [u32], words: &[u32]) -> u32 {
        let before = docket.to_vec();
        let answer = StandIn.offer(docket, words);
        match self.0 {
            HoldsTheFirst if answer == 0 && before[DOCKET_COUNT] > 0 => {
                docket[HELD].copy_from_slice(&before[HELD]);
            }
            SampleByTheLowPart if answer == OTHER_SAMPLE => {
                return offer_by_the_low_part(docket, words);
            }
            ForeignStateIsOpen if answer == DOCKET && docket[DOCKET_STATE] > 3 => {
                docket[DOCKET_STATE] = 0;
                let answer = StandIn.offer(docket, words);
                if answer != 0 {
                    docket.copy_from_slice(&before);
                }
                return answer;
            }
            fault if answer == 0 => restate(fault, &before, docket),
            _ => {}
        }
        answer
    }

    fn signals(&self, setup: &[u32], later: &[u32], signals: &mut [u32]) -> u32 {
        match self.0 {
            GreatValuesRefused if has_a_great_value(setup, later) => return CHART,
            ValueBeyondTaken => {
                let [setup, later] = [setup, later].map(without_the_value_beyond);
                return StandIn.signals(&setup, &later, signals);
            }
            _ => {}
        }
        let answer = StandIn.signals(setup, later, signals);
        if answer == 0 && self.0 == SixOnOneSide {
            six_on_one_side(setup, later, signals);
        }
        if answer == 0 && self.0 == ExactlyThreeIsBeyond {
            exactly_three_is_beyond(setup, later, signals);
        }
        answer
    }

    fn batch(&self, words: &[u32], answer: &mut [u32]) -> u32 {
        match (self.0, answers::batch(words)) {
            (LeftoversTaken, Err(BATCH_LENGTH)) => without_leftovers(words, answer),
            (RepeatedElementTaken, Err(_)) => with_other_elements(words, answer),
            (MissingElementFlagged, Ok(_)) => with_all_elements(words, answer),
            (RowsByHalves, Ok(rows)) => {
                write(answers::batch(&samples_by_halves(words, rows[0])), answer)
            }
            (fault, found) => {
                let rows = found.map(|rows| misnumbered_rows(fault, rows));
                write(rows, answer)
            }
        }
    }

    fn join(&self, first: &[u32], second: &[u32], joined: &mut [u32], size: &mut usize) -> u32 {
        misjoined(self.0, first, second, joined, size)
    }

    fn list(&self, bytes: &[u8], text: &mut [u8], size: &mut usize) -> u32 {
        let bytes = match self.0 {
            // A whole word more than the listing takes.
            LongBytesTaken if bytes.len() == MOST_BYTES + WORD_BYTES => &bytes[..MOST_BYTES],
            _ => bytes,
        };
        let answer = match self.0 {
            HighDroppedInTheText => {
                let listed = text_of_low_parts(&answers::list(bytes));
                write_telling(Ok(listed), text, size)
            }
            TextByHalves => write_telling(Ok(text_by_halves(bytes)), text, size),
            _ => StandIn.list(bytes, text, size),
        };
        if self.0 == LengthToldWhenRefused && answer != 0 {
            *size = answers::list(bytes).len();
        }
        answer
    }
}

fn distort(fault: Fault, record: &Record, verdicts: &mut [u32]) {
    match fault {
        LimitExcluded => exclude_the_limit(record, verdicts),
        FloorForHydrogen => take_the_floor(record, verdicts),
        CarbonLineIncluded => include_the_carbon_line(record, verdicts),
        CarbonLineKept => keep_the_carbon_line(record, verdicts),
        ChargeUnitKept => keep_the_charge_unit(record, verdicts),
        TwentyInTheUpperClass if record.conductivity == 200 && verdicts[BALANCE_CHECK] == 1 => {
            let mut above = record.clone();
            above.conductivity = 201;
            verdicts[BALANCE_CHECK] = ion_balance(&above).number();
        }
        OneDivisionTooFew | DividedToTheNearest | NextNumberDivided | WrongFloorAt253 => {
            judge_by_another_floor(fault, record, verdicts);
        }
        _ if CORRECTION.contains(&fault) => judge_by_another_correction(fault, record, verdicts),
        _ if OTHER_RANGES.contains(&fault) || OVERTURNING.contains(&fault) => {
            judge_by_other_ranges(fault, record, verdicts);
        }
        _ => {}
    }
}

/// Both verdicts that go by hydrogen, with their places, where its floor is h.
fn verdicts_at(record: &Record, h: i128, is_whole: bool) -> Option<[(usize, u32); 2]> {
    let balance = IonBalance::of(record)?.verdict(h, is_whole);
    let conductivity = Conductivity::of(record)?.verdict(h, is_whole);
    Some([
        (BALANCE_CHECK, balance.number()),
        (CONDUCTIVITY_CHECK, conductivity.number()),
    ])
}

/// "Less" in place of "at most": with whole hydrogen exactly on a limit of the ion
/// balance that limit is no longer met. Conductivity is never on one of its
/// limits.
fn exclude_the_limit(record: &Record, verdicts: &mut [u32]) {
    let Some(balance) = IonBalance::of(record) else {
        return;
    };
    let h = i128::from(record.ph.floor());
    let has = |span: Span| {
        let (least, greatest) = (span.least, span.greatest);
        least.numerator < h * least.denominator && h * greatest.denominator < greatest.numerator
    };
    if matches!(verdicts[BALANCE_CHECK], 1..=3) && record.ph.has_whole_hydrogen() {
        let Spans {
            with_every,
            with_some,
        } = balance.spans();
        let verdict = Verdict::of_choices(has(with_every), !has(with_some));
        verdicts[BALANCE_CHECK] = verdict.number();
    }
}

/// h taken for H.
fn take_the_floor(record: &Record, verdicts: &mut [u32]) {
    let h = i128::from(record.ph.floor());
    for (place, verdict) in verdicts_at(record, h, true).into_iter().flatten() {
        if verdicts[place] == 3 {
            verdicts[place] = verdict;
        }
    }
}

/// Runoff with carbon exactly on its line judged, too.
fn include_the_carbon_line(record: &Record, verdicts: &mut [u32]) {
    if record.kind == RUNOFF && record.amount(ORGANIC_CARBON) == Some(CARBON_LINE) {
        let mut bulk = record.clone();
        bulk.kind = BULK;
        verdicts[BALANCE_CHECK] = ion_balance(&bulk).number();
    }
}

/// Runoff judged only with less carbon than half a mg/L.
fn keep_the_carbon_line(record: &Record, verdicts: &mut [u32]) {
    let carbon = record.amount(ORGANIC_CARBON);
    if record.kind == RUNOFF && carbon.is_some_and(|carbon| carbon >= KEPT_CARBON_LINE) {
        verdicts[BALANCE_CHECK] = 0;
    }
}

/// 10^4 u kept for each tenth of a µg/L: as much charge as ten times the amount
/// has, up to the greatest amount.
fn keep_the_charge_unit(record: &Record, verdicts: &mut [u32]) {
    let tenfold = |amount: u32| (10 * amount).min(MOST_AMOUNT);
    let charged = with_readings(&record.words, |_, reading| match reading {
        Reading::Missing => None,
        Reading::Measured(_) => Some((1, tenfold(reading.amount()?))),
        Reading::Below(_) => Some((2, tenfold(reading.range()?.greatest))),
    });
    let Ok(mut charged) = Record::read(&charged) else {
        return;
    };
    verdicts[CONDUCTIVITY_CHECK] = conductivity(&charged).number();
    if verdicts[BALANCE_CHECK] != 0 {
        // Carbon has no charge: runoff stays on its side of the line.
        charged.kind = BULK;
        verdicts[BALANCE_CHECK] = ion_balance(&charged).number();
    }
}

/// Whether a chart that is to be taken has a value of more than 200,000.
fn has_a_great_value(setup: &[u32], later: &[u32]) -> bool {
    let mut values = setup.iter().chain(later);
    answers::signals(setup, later).is_ok() && values.any(|&value| value > KEPT_MOST_VALUE)
}

/// The value one beyond the greatest taken for that.
fn without_the_value_beyond(values: &[u32]) -> Vec<u32> {
    let taken = |&value: &u32| value - u32::from(value == MOST_VALUE + 1);
    values.iter().map(taken).collect()
}

fn six_on_one_side(setup: &[u32], later: &[u32], signals: &mut [u32]) {
    let sum: u32 = setup.iter().sum();
    let side = |value: &u32| (value * setup.len() as u32).cmp(&sum);
    for (start, six) in later.windows(6).enumerate() {
        let all = |expected: Ordering| six.iter().all(|value| side(value) == expected);
        if all(Ordering::Less) || all(Ordering::Greater) {
            signals[start + 5] |= SEVEN_ON_ONE_SIDE;
        }
    }
}

/// A value exactly three deviations off signals as the next one out does.
fn exactly_three_is_beyond(setup: &[u32], later: &[u32], signals: &mut [u32]) {
    let n = setup.len() as i128;
    let sum: i128 = setup.iter().map(|&value| i128::from(value)).sum();
    let squares: i128 = setup.iter().map(|&value| i128::from(value).pow(2)).sum();
    for (signal, &value) in signals.iter_mut().zip(later) {
        let difference = n * i128::from(value) - sum;
        if difference.pow(2) * (n - 1) == 9 * n * (n * squares - sum * sum) {
            *signal |= u32::from(difference != 0);
        }
    }
}

/// The answer to the longest beginning that is a batch.
fn without_leftovers(words: &[u32], answer: &mut [u32]) -> u32 {
    let beginnings = (0..words.len())
        .rev()
        .map(|end| answers::batch(&words[..end]));
    let found = beginnings.into_iter().find(Result::is_ok);
    write(found.unwrap_or(Err(BATCH_LENGTH)), answer)
}

/// The answer where two charts of one element are read as of two.
fn with_other_elements(words: &[u32], answer: &mut [u32]) -> u32 {
    const FIRST: usize = FIRST_CHART + CHART_ELEMENT;
    let renamed = |element: u32| {
        let mut words = words.to_vec();
        if words.len() > FIRST && words[CHART_COUNT] == 2 {
            words[FIRST] = element;
        }
        answers::batch(&words)
    };
    let elements = 1..=MOST_ELEMENT;
    let is_in_range = words
        .get(FIRST)
        .is_some_and(|element| elements.contains(element));
    let found = elements.clone().map(renamed).find(Result::is_ok);
    match found {
        Some(found) if is_in_range => write(found, answer),
        _ => write(answers::batch(words), answer),
    }
}

/// Charts flag samples in which their element is missing.
fn with_all_elements(words: &[u32], answer: &mut [u32]) -> u32 {
    let mut found = answers::batch(words);
    if let Ok(rows) = &mut found {
        let rows = &mut rows[COUNT_WORDS..];
        let flagged = rows.chunks(ROW_WORDS).any(|row| row[ROW_FLAG] == 1);
        for row in rows.chunks_mut(ROW_WORDS) {
            row[ROW_FLAG] |= u32::from(flagged);
        }
    }
    write(found, answer)
}

/// The words of each stored case of a call.
#[cfg(test)]
fn stored_cases(number: u32) -> Vec<Vec<u32>> {
    let input = reference::cases::replay_input();
    let words = reference::words::whole_words(&input);
    let (mut rest, mut cases) = (words.as_slice(), Vec::new());
    while let Some((&[call, count], after)) = rest.split_first_chunk() {
        let (case, later) = after.split_at(after.len().min(count as usize));
        if call == number {
            cases.push(case.to_vec());
        }
        rest = later;
    }
    cases
}

/// The records that the stored cases judge.
#[cfg(test)]
fn stored_records() -> Vec<Record> {
    let cases = stored_cases(7);
    cases.iter().flat_map(|case| Record::read(case)).collect()
}

#[cfg(test)]
mod tests {
    use super::*;
    use crate::numbers::{CHART_HEAD, LEAST_SETUP};
    use crate::parts::part;
    use reference::cases::batches::samples_counted;

    #[test]
    fn every_fault_is_found_by_its_part() {
        for &(fault, name) in FAULTS {
            let part = part(name).expect("a part");
            let report = part.run(&Faulty(fault), 1);
            let mismatch = report.mismatch;
            assert!(mismatch.is_some(), "{fault:?} wasn't found by {name}");
        }
    }

    /// The input that the search ends with, for a fault that has a known
    /// smallest one.
    pub(super) fn smallest_input(fault: Fault) -> String {
        let (_, name) = FAULTS[FAULTS
            .iter()
            .position(|(f, _)| *f == fault)
            .expect("a fault")];
        let report = part(name).expect("a part").run(&Faulty(fault), 2);
        report
            .mismatch
            .map_or(String::new(), |mismatch| mismatch.input)
    }

    #[test]
    fn leftovers_shrink_to_an_empty_batch_and_a_word() {
        let input = smallest_input(LeftoversTaken);
        let batch = format!("all in all {:?}", samples_counted(0, &[0]));
        assert!(input.contains(&batch), "{input}");
    }

    #[test]
    fn six_on_one_side_shrink_to_six_values() {
        let input = smallest_input(SixOnOneSide);
        let values = |name: &str| {
            let line = input.lines().find(|line| line.contains(name));
            line.map_or(0, |line| line.matches(',').count() + 1)
        };
        let found = (values("setup"), values("later"));
        assert_eq!(found, (LEAST_SETUP, 6), "{input}");
    }

    #[test]
    fn a_value_beyond_shrinks_to_that_value_among_zeros() {
        let input = smallest_input(ValueBeyondTaken);
        let beyond = (MOST_VALUE + 1).to_string();
        let numbers = input.split(|c: char| !c.is_ascii_digit());
        let zeros = numbers.filter(|&number| number == "0").count();
        assert!(
            input.contains(&beyond) && zeros >= LEAST_SETUP - 1,
            "{input}"
        );
    }

    #[test]
    fn minus_zero_shrinks_to_a_plain_limit() {
        let input = smallest_input(MinusZeroTaken);
        assert!(input.contains("2 words lent: value 0x80000000 (-0.0), limit 0x3F800000"));
    }

    #[test]
    fn a_repeated_element_shrinks_to_two_charts_of_ten() {
        let input = smallest_input(RepeatedElementTaken);
        let head = format!(", {LEAST_SETUP}, 0, 0");
        let (charts, heads) = (input.matches("chart").count(), input.matches(&head));
        assert_eq!((charts, heads.count()), (2, 4), "{input}");
        let length = FIRST_CHART + 2 * (CHART_HEAD + LEAST_SETUP) + COUNT_WORDS;
        assert!(input.contains(&format!("{length} words")), "{input}");
    }
}
