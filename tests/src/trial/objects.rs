//! What a result has of objects made and withdrawn that a wrong one might lack.

use super::Trial;
use crate::limits::MADE_MAX;
use crate::reference::{made_by, Outcome, Session};
use crate::tally::{Event, Tally};

/// What a clearance is shown of the objects that a run left.
struct View<'a> {
    session: &'a Session,
    left: &'a Outcome,
    clearance: usize,
}

impl View<'_> {
    fn shows(&self, level: usize) -> bool {
        self.session.lattice.dominates(self.clearance, level)
    }

    fn is_there(&self, number: u8) -> bool {
        self.left.objects[usize::from(number)].is_some()
    }

    /// The numbers of the made objects that are shown.
    fn note_made(&self, tally: &mut Tally) -> Vec<u8> {
        let made = self.session.lattice.levels().map(|level| {
            let numbers = made_by(level).filter(|&number| self.is_there(number));
            (level, numbers.collect::<Vec<u8>>())
        });
        let (shown, hidden): (Vec<_>, Vec<_>) = made
            .filter(|(_, numbers)| !numbers.is_empty())
            .partition(|(level, _)| self.shows(*level));
        let all_four = shown.iter().any(|(_, numbers)| numbers.len() == MADE_MAX);
        note(
            [
                (!shown.is_empty(), Event::MadeShown),
                (!hidden.is_empty(), Event::MadeHidden),
                (all_four, Event::FourShown),
                (shown.len() > 1, Event::LevelsShown),
            ],
            tally,
        );
        shown.into_iter().flat_map(|(_, numbers)| numbers).collect()
    }

    /// The session's objects that are there no more.
    fn note_withdrawn(&self, tally: &mut Tally) {
        let given = 0..self.session.objects.len() as u8;
        let (shown, hidden): (Vec<u8>, Vec<u8>) =
            given.partition(|&object| self.shows(self.session.level_of(object)));
        let first = shown.iter().position(|&object| self.is_there(object));
        let last = shown.iter().rposition(|&object| self.is_there(object));
        let among = first.zip(last).map_or(&[][..], |(i, j)| &shown[i..=j]);
        note(
            [
                (
                    among.iter().any(|&object| !self.is_there(object)),
                    Event::WithdrawnAmong,
                ),
                (
                    hidden.iter().any(|&object| !self.is_there(object)),
                    Event::WithdrawnAbove,
                ),
            ],
            tally,
        );
    }
}

fn note<const N: usize>(events: [(bool, Event); N], tally: &mut Tally) {
    for (holds, event) in events {
        if holds {
            tally.saw(event);
        }
    }
}

impl Trial<'_> {
    pub(super) fn note_objects(
        &mut self,
        session: &Session,
        left: &Outcome,
        clearance: usize,
        tally: &mut Tally,
    ) {
        let view = View {
            session,
            left,
            clearance,
        };
        view.note_withdrawn(tally);
        for number in view.note_made(tally) {
            self.counts.add_made(number);
        }
    }
}
