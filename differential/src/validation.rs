//! Part 8: the manual's own example sheet, judged row by row.

use crate::canary::Lent;
use crate::case::{Case, Difference, Mismatch, Run};
use crate::library::Library;
use crate::numbers::{BULK, CHECKS, READINGS};
use crate::records::describe_record;
use reference::cases::bottle::Bottle;

const SHEET: &str = include_str!("../validation/sheet.tsv");

/// The sheet's columns: the readings stand together in a record's order, and so
/// do the judgements.
const NUMBER_COLUMN: usize = 0;
const PH_COLUMN: usize = 1;
const CONDUCTIVITY_COLUMN: usize = 2;
const ALKALINITY_COLUMN: usize = 3;
const READING_COLUMNS: usize = 4;
const JUDGEMENT_COLUMNS: usize = READING_COLUMNS + READINGS;

const NAMES: [&str; CHECKS] = ["ion balance", "conductivity", "Na/Cl", "nitrogen"];

pub fn run(run: &mut Run) -> Result<(), Mismatch> {
    for row in rows() {
        run.check(row)?;
    }
    Ok(())
}

/// A row of the sheet: its record, and its four judgements as verdicts.
#[derive(Clone, Debug)]
struct Row {
    number: u32,
    record: Bottle,
    published: [u32; CHECKS],
}

/// The sheet's rows as they are written, without comments and heads.
fn lines() -> impl Iterator<Item = &'static str> {
    let lines = SHEET.lines().filter(|line| !line.starts_with('#'));
    lines.skip(1)
}

fn rows() -> Vec<Row> {
    lines().map(Row::read).collect()
}

impl Row {
    fn read(line: &str) -> Row {
        let fields: Vec<&str> = line.split('\t').collect();
        let number: u32 = fields[NUMBER_COLUMN].parse().expect("a row number");
        // The sheet doesn't print a kind; to bulk samples of the open field all
        // four checks apply, as all four have been done there.
        let mut record = Bottle::without_ions()
            .number(number.into())
            .kind(BULK)
            .ph(scaled(fields[PH_COLUMN], 2))
            .conductivity(scaled(fields[CONDUCTIVITY_COLUMN], 1))
            .alkalinity(scaled(fields[ALKALINITY_COLUMN], 1));
        for place in 0..READINGS {
            record = match fields[READING_COLUMNS + place] {
                "" => record.missing(place),
                value => record.reading(place, 1, nearest_float(value)),
            };
        }
        let published = std::array::from_fn(|check| verdict(fields[JUDGEMENT_COLUMNS + check]));
        Row {
            number,
            record,
            published,
        }
    }
}

/// A decimal number times 10^places, which is whole for every field here.
fn scaled(field: &str, places: usize) -> u32 {
    let (whole, decimals) = field.split_once('.').unwrap_or((field, ""));
    assert!(
        decimals.len() <= places,
        "{field} has more than {places} decimals"
    );
    let digits = format!("{whole}{decimals:0<places$}");
    digits.parse().expect("a decimal number")
}

fn nearest_float(field: &str) -> u32 {
    let float: f32 = field.parse().expect("a decimal number");
    float.to_bits()
}

/// The verdict that a published judgement is.
fn verdict(judgement: &str) -> u32 {
    match judgement {
        "ok" => 1,
        "NO" | "NO TN" => 2,
        other => panic!("the sheet has no judgement {other}"),
    }
}

impl Case for Row {
    fn difference(&self, library: &dyn Library) -> Option<Difference> {
        let mut lent = Lent::<u32>::of_length(CHECKS);
        let answer = library.judge(self.record.words(), lent.slice());
        let found = (answer, lent.content());
        (found != (0, &self.published)).then(|| Difference {
            library: describe(answer, lent.content()),
            reference: format!("{} (the sheet)", describe(0, &self.published)),
        })
    }

    /// A published row can't be made smaller.
    fn smaller(&self) -> impl Iterator<Item = Row> {
        std::iter::empty()
    }

    fn describe(&self) -> String {
        let record = describe_record(self.record.words());
        format!("row {} of the sheet\n{record}", self.number)
    }
}

fn describe(answer: u32, verdicts: &[u32]) -> String {
    let verdicts: Vec<String> = NAMES
        .iter()
        .zip(verdicts)
        .map(|(check, verdict)| format!("{check} {verdict}"))
        .collect();
    match answer {
        0 => verdicts.join(", "),
        refusal => format!("refused {refusal}"),
    }
}

#[cfg(test)]
mod tests {
    use super::*;
    use crate::answers::judge;
    use crate::numbers::{CONDUCTIVITY_CHECK, NUMBER_WORDS, RANGES};
    use reference::cases::floats::DOUBLE;
    use reference::checks::plain_conductivity;
    use reference::readings::Reading;
    use reference::record::Record;

    #[test]
    fn the_sheet_has_24_rows_of_bulk_samples() {
        let rows = rows();
        let numbers: Vec<u32> = rows.iter().map(|row| row.number).collect();
        assert_eq!(numbers, (9..=32).collect::<Vec<u32>>());
        let first = rows[0].record.words();
        assert_eq!(first[NUMBER_WORDS], [0, 9]);
        let other_fields = RANGES.map(|(place, _, _)| first[place]);
        assert_eq!(other_fields, [BULK, 589, 456, 80]);
        assert!(rows.iter().all(|row| judge(row.record.words()).is_ok()));
    }

    /// 96 of 96.
    #[test]
    fn every_judgement_is_the_published_one() {
        let mut judgements = 0;
        for row in rows() {
            let verdicts = judge(row.record.words()).expect("a record");
            assert_eq!(verdicts, row.published, "row {}", row.number);
            judgements += verdicts.len();
        }
        assert_eq!(judgements, 96);
    }

    /// The sheet corrects calculated conductivity for ionic strength, which takes
    /// row 20's from less than a tenth below the measured 41.1 µS/cm to more,
    /// printed as −11 %: the plain sum would part from the sheet there, and
    /// nowhere else.
    #[test]
    fn only_row_20_hangs_on_the_correction() {
        let parts = |row: &Row| {
            let record = Record::read(row.record.words()).expect("a record");
            plain_conductivity(&record).number() != row.published[CONDUCTIVITY_CHECK]
        };
        let parting: Vec<u32> = rows()
            .iter()
            .filter(|row| parts(row))
            .map(|row| row.number)
            .collect();
        assert_eq!(parting, [20]);
    }

    /// The sheet prints whole µg/L: the nearest float has that amount exactly,
    /// in tenths as it had in µg/L, so no judgement hangs on the scale.
    #[test]
    fn readings_have_the_amounts_that_are_printed() {
        for line in lines() {
            let fields: Vec<&str> = line.split('\t').collect();
            let readings = &fields[READING_COLUMNS..JUDGEMENT_COLUMNS];
            for field in readings.iter().filter(|field| !field.is_empty()) {
                let reading = Reading::measured(nearest_float(field));
                let printed = 10 * scaled(field, 3);
                assert_eq!(reading.map(Reading::amount), Ok(Some(printed)), "{line}");
            }
        }
    }

    /// No reading of the sheet is below a limit: each that is there stands for one
    /// amount, so no judgement hangs on ranges.
    #[test]
    fn no_reading_of_the_sheet_is_a_range() {
        for row in rows() {
            let record = Record::read(row.record.words()).expect("a record");
            let ranges = (0..READINGS).filter_map(|place| record.range(place));
            assert!(ranges
                .into_iter()
                .all(|range| range.least == range.greatest));
        }
    }

    /// Were each reading below twice its value, half the limit would be what it
    /// was, and nothing but 0 and undecided would be left of the 96 judgements.
    #[test]
    fn by_ranges_the_sheet_would_be_undecided() {
        for row in rows() {
            let below = (0..READINGS).fold(row.record.clone(), |bottle, place| {
                let (mark, bits) = bottle.mark_and_bits(place);
                match mark {
                    1 => bottle.below(place, bits + DOUBLE),
                    _ => bottle,
                }
            });
            let verdicts = judge(below.words()).expect("a record");
            assert_eq!(verdicts, [3, 3, 0, 3], "row {}", row.number);
        }
    }

    #[test]
    fn decimals_are_scaled_exactly() {
        assert_eq!(scaled("5.89", 2), 589);
        assert_eq!(scaled("6.2", 2), 620);
        assert_eq!(scaled("8", 1), 80);
        assert_eq!(scaled("0", 1), 0);
    }
}
