//! Calls of the entry with a page.

use super::Trial;
use crate::limits::{KEPT_MAX, LEVELS_MAX, MANAGERS_MAX, PAGE_LENGTH, RESULT_LENGTH};
use crate::record::History;
use crate::reference::{self, Reference, Session};
use crate::request::{Lengths, Outcome, Request, Run};
use crate::tally::{Event, Tally};

impl Trial<'_> {
    /// The page of what the depth-first run left, and the same page of the session
    /// emptied for the reader.
    pub(super) fn pages(
        &mut self,
        bytes: &[u8],
        session: &Session,
        left: &reference::Outcome,
        clearance: usize,
        tally: &mut Tally,
    ) -> Result<(), String> {
        note_page(session, left, clearance, tally);
        note_levels(session, left, clearance, tally);
        let page = reference::page(left, session, clearance).into_bytes();
        let expected = Outcome::paged(left.shown(session, clearance), page);
        let request = self.finishing(Run::Page, clearance);
        self.expect(bytes, &request, &expected)?;
        self.expect_of_tuned(bytes, &request, &expected)?;
        let emptied = reference::emptied(bytes, clearance);
        self.call(&Reference, &emptied, &request)?
            .compare(&expected)
            .and_then(|()| self.expect(&emptied, &request, &expected))
            .map_err(|message| format!("page, emptied for {clearance}: {message}"))
    }

    /// The page of a session that is not accepted: with any lengths, and with none
    /// that is enough.
    pub(super) fn refused_pages(&mut self, session: &[u8], clearance: usize) -> Result<(), String> {
        let request = self.any_lengths(Run::Page, clearance);
        self.expect_as_reference(session, &request)?;
        let request = Request::Run {
            run: Run::Page,
            clearance: usize::MAX,
            lengths: Lengths {
                result: RESULT_LENGTH - 1,
                page: PAGE_LENGTH - 1,
                ..Lengths::ENOUGH
            },
        };
        self.expect_as_reference(session, &request)
    }
}

/// What a page has that a wrong one might lack.
fn note_page(session: &Session, left: &reference::Outcome, clearance: usize, tally: &mut Tally) {
    let shown: Vec<&History> = left.shown_histories(session, clearance).collect();
    let any = |test: fn(&History) -> bool| shown.iter().any(|history| test(history));
    let total: usize = shown.iter().map(|history| usize::from(history.steps)).sum();
    let letters = |history: &History| format!("{:x}", history.fork_stamp).contains(|c| c >= 'a');
    for (holds, event) in [
        (shown.is_empty(), Event::PageOfNone),
        (shown.len() == MANAGERS_MAX, Event::PageOfMost),
        (any(letters), Event::PageLetters),
        (any(|history| history.writes > 9), Event::PageWrites),
        (
            any(|history| history.first_write_stamp > 99),
            Event::PageFirst,
        ),
        (
            any(|history| history.last_write_stamp > 99),
            Event::PageLast,
        ),
        (any(|history| history.steps > 99), Event::PageSteps),
        (total > 9_999, Event::PageTotal),
        (total < left.script_steps(), Event::PageHidden),
    ] {
        if holds {
            tally.saw(event);
        }
    }
}

/// What the levels' lines have that wrong ones might lack.
fn note_levels(session: &Session, left: &reference::Outcome, clearance: usize, tally: &mut Tally) {
    let is_shown = |level: &usize| session.lattice.dominates(clearance, *level);
    let managed = |level: &usize| !left.histories[*level].is_empty();
    let shown: Vec<usize> = session.lattice.levels().filter(is_shown).collect();
    let averages: Vec<(usize, usize, usize)> = shown
        .iter()
        .filter(|&level| managed(level))
        .map(|&level| {
            let histories = &left.histories[level];
            let steps = histories.iter().map(|history| usize::from(history.steps));
            let (sum, managers) = (steps.sum::<usize>(), histories.len());
            (managers, sum / managers, sum % managers)
        })
        .collect();
    let any = |test: fn(&(usize, usize, usize)) -> bool| averages.iter().any(test);
    let is_between =
        |level: usize| shown[..level].iter().any(managed) && shown[level..].iter().any(managed);
    for (holds, event) in [
        (any(|&(_, quotient, _)| quotient > 99), Event::PageQuotient),
        (
            any(|&(managers, _, remainder)| managers > 1 && remainder == 0),
            Event::PageExact,
        ),
        (
            any(|&(.., remainder)| remainder == KEPT_MAX - 1),
            Event::PageLargestRemainder,
        ),
        (
            (0..shown.len()).any(|i| !managed(&shown[i]) && is_between(i)),
            Event::PageIdleLevel,
        ),
        (
            session
                .lattice
                .levels()
                .any(|level| managed(&level) && !is_shown(&level)),
            Event::PageHiddenLevel,
        ),
        (averages.len() == LEVELS_MAX, Event::PageAllLevels),
    ] {
        if holds {
            tally.saw(event);
        }
    }
}
