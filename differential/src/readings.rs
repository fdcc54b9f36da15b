//! Part 2: readings from the analyser's float value and float limit.

use crate::answers;
use crate::canary::Lent;
use crate::case::{Case, Difference, Mismatch, Run};
use crate::library::Library;
use crate::numbers::{LEAST_LIMIT_BITS, MOST_BITS, MOST_READING_ROOM, READING_WORDS};
use crate::outcome::Outcome;
use crate::random::Draw;
use crate::shrink::{simpler_room, simpler_word};
use reference::cases::generator::Generator;
use reference::cases::readings::EDGES;

const DRAWN: u32 = 1_000_000;
/// 1.0, as plain as a value or a limit can be.
const PLAIN: u32 = 0x3F80_0000;

pub fn run(run: &mut Run) -> Result<(), Mismatch> {
    for value in EDGES {
        for limit in EDGES {
            for room in 0..=MOST_READING_ROOM {
                run.check(ReadingCase { value, limit, room })?;
            }
        }
    }
    for _ in 0..DRAWN {
        let case = drawn(&mut run.generator);
        run.check(case)?;
    }
    Ok(())
}

fn drawn(generator: &mut Generator) -> ReadingCase {
    let limit = bits(generator);
    let value = match generator.below(3) {
        // At the limit and beside it.
        0 => (limit.wrapping_add(generator.below(3))).wrapping_sub(1),
        _ => bits(generator),
    };
    let room = generator.place(MOST_READING_ROOM + 1);
    ReadingCase { value, limit, room }
}

/// The bits of a float: mostly in range, else anything or an edge.
fn bits(generator: &mut Generator) -> u32 {
    match generator.below(8) {
        0 => generator.word(),
        1 => generator.pick(&EDGES),
        2 => generator.between(0, MOST_BITS),
        // A number with its sign bit set.
        3 => generator.between(0, MOST_BITS) | 0x8000_0000,
        _ => generator.between(LEAST_LIMIT_BITS, MOST_BITS),
    }
}

struct ReadingCase {
    value: u32,
    limit: u32,
    room: usize,
}

impl Case for ReadingCase {
    fn difference(&self, library: &dyn Library) -> Option<Difference> {
        let mut lent = Lent::of_length(self.room);
        let due = Outcome::due(lent.content(), answers::reading(self.value, self.limit));
        let [value, limit] = [self.value, self.limit].map(f32::from_bits);
        let answer = library.reading(value, limit, lent.slice());
        Outcome::found(answer, &lent).against(&due)
    }

    fn smaller(&self) -> impl Iterator<Item = ReadingCase> {
        let &ReadingCase { value, limit, room } = self;
        let rooms =
            simpler_room(room, READING_WORDS).map(move |room| ReadingCase { value, limit, room });
        let values =
            simpler_word(value, PLAIN).map(move |value| ReadingCase { value, limit, room });
        let limits =
            simpler_word(limit, PLAIN).map(move |limit| ReadingCase { value, limit, room });
        rooms.chain(values).chain(limits)
    }

    fn describe(&self) -> String {
        let [value, limit] = [self.value, self.limit].map(f32::from_bits);
        format!(
            "reading, {} words lent: value 0x{:08X} ({value:?}), limit 0x{:08X} ({limit:?})",
            self.room, self.value, self.limit
        )
    }
}
