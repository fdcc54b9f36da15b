//! A chart to be read.

use crate::answers;
use crate::canary::Lent;
use crate::case::{Case, Difference};
use crate::library::Library;
use crate::outcome::Outcome;
use crate::shrink::{flatter, shorter, simpler_room, simpler_word, simpler_words};

#[derive(Clone)]
pub struct ChartCase {
    pub setup: Vec<u32>,
    pub later: Vec<u32>,
    pub room: usize,
}

impl Case for ChartCase {
    fn difference(&self, library: &dyn Library) -> Option<Difference> {
        let mut lent = Lent::of_length(self.room);
        let due = Outcome::due(lent.content(), answers::signals(&self.setup, &self.later));
        let answer = library.signals(&self.setup, &self.later, lent.slice());
        Outcome::found(answer, &lent).against(&due)
    }

    fn smaller(&self) -> impl Iterator<Item = ChartCase> {
        let rooms = simpler_room(self.room, self.later.len()).map(|room| ChartCase {
            room,
            ..self.clone()
        });
        // Fewer later values take their room along.
        let charts = smaller_charts(&self.setup, &self.later).map(|(setup, later)| {
            let dropped = self.later.len() - later.len();
            let room = self.room.saturating_sub(dropped);
            ChartCase { setup, later, room }
        });
        rooms.chain(charts)
    }

    fn describe(&self) -> String {
        format!(
            "signals, {} words lent\n  setup {:?}\n  later {:?}",
            self.room, self.setup, self.later
        )
    }
}

/// The setup and the later values of simpler charts: with fewer values, with
/// all values lower by the same, with single values lower.
pub fn smaller_charts<'a>(
    setup: &'a [u32],
    later: &'a [u32],
) -> impl Iterator<Item = (Vec<u32>, Vec<u32>)> + 'a {
    let fewer_later = shorter(later).map(|later| (setup.to_vec(), later));
    let fewer_setup = shorter(setup).map(|setup| (setup, later.to_vec()));
    let least = setup.iter().chain(later).min().copied().unwrap_or(0);
    let lowered = simpler_word(least, 0).map(move |new_least| {
        let lower = |values: &[u32]| values.iter().map(|v| v - least + new_least).collect();
        (lower(setup), lower(later))
    });
    let simpler_setup = flatter(setup).chain(simpler_words(setup, |_| 0));
    let simpler_later = flatter(later).chain(simpler_words(later, |_| 0));
    fewer_later
        .chain(fewer_setup)
        .chain(lowered)
        .chain(simpler_setup.map(|setup| (setup, later.to_vec())))
        .chain(simpler_later.map(|later| (setup.to_vec(), later)))
}
