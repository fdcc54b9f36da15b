//! "A batch": a section of charts, then a section of samples.

use crate::checks::{verdicts, Verdict};
use crate::numbers::{
    reading_of, CHART_ELEMENT, CHART_HEAD, CHART_LATER, CHART_SETUP, ELEMENTS, MOST_CHARTS,
    MOST_SAMPLES, RECORD_WORDS, ROW_FLAG, ROW_NUMBER_HIGH, ROW_NUMBER_LOW, ROW_VERDICTS, ROW_WORDS,
};
use crate::record::Record;
use crate::refusals::{require, Refusal, BATCH_LENGTH, CHART, COUNT};
use crate::sample_number::parts_of;
use crate::{charts, lent};

/// "A batch is read from the front, each part whole (else 8) before its tests."
struct Reader<'a> {
    rest: &'a [u32],
}

impl<'a> Reader<'a> {
    fn part(&mut self, length: usize) -> Result<&'a [u32], Refusal> {
        let (part, rest) = self.rest.split_at_checked(length).ok_or(BATCH_LENGTH)?;
        self.rest = rest;
        Ok(part)
    }

    fn word(&mut self) -> Result<u32, Refusal> {
        self.part(1).map(|part| part[0])
    }

    /// "a section's count 9"
    fn section_count(&mut self, most: u32) -> Result<u32, Refusal> {
        let count = self.word()?;
        require(count <= most, COUNT)?;
        Ok(count)
    }

    /// "leftovers 8"
    fn end(&self) -> Result<(), Refusal> {
        require(self.rest.is_empty(), BATCH_LENGTH)
    }
}

/// A chart that its own tests let pass.
#[derive(Clone, Debug, PartialEq, Eq)]
pub struct Chart {
    pub element: u32,
    pub setup: Vec<u32>,
    pub later: Vec<u32>,
}

/// A batch that its own tests let pass.
#[derive(Clone, Debug, PartialEq, Eq)]
pub struct Batch {
    pub charts: Vec<Chart>,
    pub samples: Vec<Record>,
}

/// "a chart's first three words, element 10, then counts 9; its values 10"
fn read_chart(reader: &mut Reader, earlier: &[Chart]) -> Result<Chart, Refusal> {
    let head = reader.part(CHART_HEAD)?;
    let element = head[CHART_ELEMENT];
    let (setup_count, later_count) = (head[CHART_SETUP] as usize, head[CHART_LATER] as usize);
    require(ELEMENTS.contains(&element), CHART)?;
    require(earlier.iter().all(|chart| chart.element != element), CHART)?;
    charts::test_counts(setup_count, later_count)?;
    let values = reader.part(setup_count + later_count)?;
    charts::test_values(values)?;
    let (setup, later) = values.split_at(setup_count);
    Ok(Chart {
        element,
        setup: setup.to_vec(),
        later: later.to_vec(),
    })
}

fn read_charts(reader: &mut Reader) -> Result<Vec<Chart>, Refusal> {
    let count = reader.section_count(MOST_CHARTS)?;
    let mut charts = Vec::new();
    for _ in 0..count {
        let chart = read_chart(reader, &charts)?;
        charts.push(chart);
    }
    Ok(charts)
}

/// "a record 2 to 7": as a part of the batch it has all its words or gives 8.
fn read_samples(reader: &mut Reader) -> Result<Vec<Record>, Refusal> {
    let count = reader.section_count(MOST_SAMPLES)?;
    let mut samples = Vec::new();
    for _ in 0..count {
        samples.push(Record::read(reader.part(RECORD_WORDS)?)?);
    }
    Ok(samples)
}

/// A batch's own tests, "read from the front", and what it has.
pub fn read(words: &[u32]) -> Result<Batch, Refusal> {
    let mut reader = Reader { rest: words };
    let charts = read_charts(&mut reader)?;
    let samples = read_samples(&mut reader)?;
    reader.end()?;
    Ok(Batch { charts, samples })
}

/// A batch's own tests alone.
pub fn test(words: &[u32]) -> Result<(), Refusal> {
    read(words).map(|_| ())
}

/// The elements of the charts with "a nonzero signal at its last later value".
fn signalled(charts: &[Chart]) -> Result<Vec<u32>, Refusal> {
    let mut elements = Vec::new();
    for chart in charts {
        if charts::last_signal(&chart.setup, &chart.later)? != 0 {
            elements.push(chart.element);
        }
    }
    Ok(elements)
}

/// "1 if some chart whose element isn't missing in the sample has a nonzero
/// signal at its last later value, else 0."
fn flag(signalled: &[u32], sample: &Record) -> u32 {
    let concerns = |&element: &u32| !sample.readings[reading_of(element)].is_missing();
    u32::from(signalled.iter().any(concerns))
}

/// "Output rows have seven words, high and low first" (document 02 (ii)), then
/// "four verdicts in the order above, and" the flag.
fn row(signalled: &[u32], sample: &Record) -> [u32; ROW_WORDS] {
    let mut row = [0; ROW_WORDS];
    (row[ROW_NUMBER_HIGH], row[ROW_NUMBER_LOW]) = parts_of(sample.number);
    row[ROW_VERDICTS..ROW_FLAG].copy_from_slice(&verdicts(sample).map(Verdict::number));
    row[ROW_FLAG] = flag(signalled, sample);
    row
}

/// The answer to a batch: the sample count and the rows.
pub fn answer(words: &[u32]) -> Result<Vec<u32>, Refusal> {
    let batch = read(words)?;
    let signalled = signalled(&batch.charts)?;
    let mut answer = vec![batch.samples.len() as u32];
    for sample in &batch.samples {
        answer.extend(row(&signalled, sample));
    }
    Ok(answer)
}

/// The same, into lent words: "leftovers 8; last 13."
pub fn judge(words: &[u32], output: &mut [u32]) -> Result<usize, Refusal> {
    lent::write(&answer(words)?, output)
}

#[cfg(test)]
mod tests {
    use super::*;
    use crate::cases::batches::{batch, chart, chart_head, charts_counted, flat, samples_counted};
    use crate::cases::bottle::Bottle;
    use crate::cases::greatest_batch::peltquarry_input;
    use crate::numbers::{
        answer_words, CHLORIDE, LEAST_SETUP, MOST_ANSWER, MOST_BATCH, MOST_LATER, MOST_NUMBER,
        MOST_VALUE, READINGS,
    };
    use crate::words::whole_words;

    fn small() -> Vec<u32> {
        let charts = [chart(8, &flat(), &[1_000, 2_000]), chart(2, &flat(), &[])];
        let without_chloride = Bottle::printed().missing(CHLORIDE);
        batch(&charts, &[Bottle::printed(), without_chloride])
    }

    /// The answer to it: two samples, each with both words of its number,
    /// verdicts and flag.
    fn small_answer() -> Vec<u32> {
        vec![2, 0, 7, 1, 1, 1, 1, 1, 0, 7, 4, 4, 4, 1, 0]
    }

    #[test]
    fn a_small_batch_is_answered() {
        assert_eq!(answer(&small()), Ok(small_answer()));
    }

    #[test]
    fn a_row_begins_with_the_high_and_the_low_part() {
        for parts in [(0, 1), (1, 0), (2, 3), (3, 2), (232_830, 2_764_472_319)] {
            let (high, low) = parts;
            let words = batch(&[], &[Bottle::printed().parts(parts)]);
            assert_eq!(answer(&words), Ok(vec![1, high, low, 1, 1, 1, 1, 0]));
        }
        let too_great = Bottle::printed().number(MOST_NUMBER + 1).kind(0);
        assert_eq!(answer(&batch(&[], &[too_great])), Err(2));
    }

    #[test]
    fn the_greatest_batch_has_the_longest_answer() {
        let words = whole_words(&peltquarry_input());
        assert_eq!(words.len(), MOST_BATCH);
        assert_eq!(answer(&words).map(|answer| answer.len()), Ok(MOST_ANSWER));
    }

    #[test]
    fn every_prefix_is_refused_and_so_is_a_word_left_over() {
        let whole = small();
        for length in 0..whole.len() {
            assert_eq!(answer(&whole[..length]), Err(8));
        }
        assert_eq!(answer(&[whole, vec![0]].concat()), Err(8));
    }

    #[test]
    fn a_batch_passes_its_tests_exactly_when_it_has_an_answer() {
        let whole = small();
        assert_eq!(test(&whole), Ok(()));
        for place in 0..whole.len() {
            for value in [0, 1, MOST_VALUE + 1, u32::MAX] {
                let mut words = whole.clone();
                words[place] = value;
                assert_eq!(test(&words), answer(&words).map(|_| ()));
                assert_eq!(test(&words[..place]), Err(8));
            }
        }
    }

    #[test]
    fn a_batch_that_is_read_has_its_charts_and_samples() {
        let Ok(batch) = read(&small()) else {
            panic!("refused");
        };
        let charts: Vec<(u32, &[u32], &[u32])> = batch
            .charts
            .iter()
            .map(|chart| (chart.element, &chart.setup[..], &chart.later[..]))
            .collect();
        let (setup, later) = (flat(), [1_000, 2_000]);
        assert_eq!(charts, [(8, &setup[..], &later[..]), (2, &setup, &[])]);
        let [first, second] = &batch.samples[..] else {
            panic!("{} samples", batch.samples.len());
        };
        assert_eq!(first.words, Bottle::printed().words());
        assert_eq!(second.words, Bottle::printed().missing(CHLORIDE).words());
    }

    #[test]
    fn the_lent_words_change_only_in_an_answer() {
        let length = answer_words(2);
        let before = vec![5; length + 1];
        let mut output = before.clone();
        assert_eq!(judge(&small(), &mut output[..length - 1]), Err(13));
        assert_eq!(output, before);
        assert_eq!(judge(&small(), &mut output), Ok(length));
        assert_eq!(output, [small_answer(), vec![5]].concat());
    }

    #[test]
    fn refusals_in_the_order_of_reading() {
        assert_eq!(answer(&[]), Err(8));
        assert_eq!(answer(&charts_counted(MOST_CHARTS + 1, &[])), Err(9));
        let begun = |head: &[u32]| answer(&charts_counted(1, head));
        let (few, many) = (LEAST_SETUP - 1, MOST_LATER + 1);
        let bad_head = chart_head(0, few, many);
        assert_eq!(begun(&bad_head[..CHART_HEAD - 1]), Err(8));
        assert_eq!(begun(&bad_head), Err(10));
        assert_eq!(begun(&chart_head(READINGS as u32 + 1, few, many)), Err(10));
        assert_eq!(begun(&chart_head(1, few, many)), Err(9));
        assert_eq!(begun(&chart_head(1, LEAST_SETUP, many)), Err(9));
        let cut = [chart_head(1, LEAST_SETUP, 0), vec![MOST_VALUE + 1]];
        assert_eq!(begun(&cut.concat()), Err(8));
        assert_eq!(answer(&samples_counted(MOST_SAMPLES + 1, &[])), Err(9));
        assert_eq!(answer(&samples_counted(0, &[])), Ok(vec![0]));
        let repeated = [chart(8, &flat(), &[]), chart_head(8, few, many)];
        assert_eq!(answer(&batch(&repeated, &[])), Err(10));
        let bad_value = [chart(8, &[MOST_VALUE + 1; LEAST_SETUP], &[])];
        assert_eq!(
            answer(&batch(&bad_value, &[Bottle::printed().kind(0)])),
            Err(10)
        );
        assert_eq!(answer(&batch(&[], &[Bottle::printed().kind(0)])), Err(3));
    }
}
