//! The entries: the questions a call puts, and its effects on the lent slices.

use super::check::check;
use super::depth_first::DepthFirst;
use super::outcome::Outcome;
use super::page::page;
use super::scheduler::Scheduler;
use super::session::Session;
use crate::library::{Answer, Library};
use crate::limits::{PAGE_LENGTH, RESULT_LENGTH, WORK_LENGTH};
use crate::tally::Tally;

/// The timetabled run of an accepted session: questions 12 to 15.
pub fn timetabled(
    session: &Session,
    timetable: &[u8],
    tally: &mut Tally,
) -> Result<Outcome, Answer> {
    let mut scheduler = Scheduler::new(session, tally);
    for (position, &byte) in timetable.iter().enumerate() {
        scheduler.note_turn(byte);
        if let Some(number) = scheduler.refusal(byte) {
            return Err(Answer::refused(number, position));
        }
        scheduler.step(byte);
    }
    if !scheduler.all_ended() {
        return Err(Answer::refused(15, 0));
    }
    Ok(scheduler.outcome())
}

/// The plain run of an accepted session: each step by the lowest-numbered level
/// that may step.
pub fn plain(session: &Session, tally: &mut Tally) -> Outcome {
    let mut scheduler = Scheduler::new(session, tally);
    while let Some(level) = lowest_allowed(&scheduler) {
        scheduler.step(level);
    }
    scheduler.outcome()
}

fn lowest_allowed(scheduler: &Scheduler) -> Option<u8> {
    scheduler.allowed().next()
}

/// The depth-first run of an accepted session.
pub fn depth_first(session: &Session, tally: &mut Tally) -> Outcome {
    DepthFirst::run(session, tally)
}

/// The check and questions 9 to 11, of which 10 is put only where there is a work
/// slice.
fn accept(
    session: &[u8],
    clearance: usize,
    work_length: Option<usize>,
    result_length: usize,
) -> Result<Session, Answer> {
    let number = check(session);
    if number != 0 {
        return Err(Answer::refused(number, 0));
    }
    let session = Session::read(session);
    if !session.lattice.levels().contains(&clearance) {
        return Err(Answer::refused(9, 0));
    }
    if work_length.is_some_and(|length| length < WORK_LENGTH) {
        return Err(Answer::refused(10, 0));
    }
    if result_length < RESULT_LENGTH {
        return Err(Answer::refused(11, 0));
    }
    Ok(session)
}

fn show(outcome: &Outcome, session: &Session, clearance: usize, result: &mut [u8]) -> Answer {
    let bytes = outcome.shown(session, clearance);
    result[..bytes.len()].copy_from_slice(&bytes);
    Answer::finished(bytes.len())
}

/// The reference as a library.
pub struct Reference;

impl Library for Reference {
    fn check(&self, session: &[u8]) -> u32 {
        check(session)
    }

    fn run_timetable(
        &self,
        session: &[u8],
        timetable: &[u8],
        clearance: usize,
        work: &mut [u32],
        result: &mut [u8],
        place_and_count: &mut [u32],
    ) -> u32 {
        let session = match accept(session, clearance, Some(work.len()), result.len()) {
            Ok(session) => session,
            Err(refusal) => return refusal.give(place_and_count),
        };
        let outcome = timetabled(&session, timetable, &mut Tally::idle());
        work[..WORK_LENGTH].fill(0);
        match outcome {
            Ok(outcome) => show(&outcome, &session, clearance, result).give(place_and_count),
            Err(refusal) => refusal.give(place_and_count),
        }
    }

    fn run_plain(
        &self,
        session: &[u8],
        clearance: usize,
        work: &mut [u32],
        result: &mut [u8],
        place_and_count: &mut [u32],
    ) -> u32 {
        let session = match accept(session, clearance, Some(work.len()), result.len()) {
            Ok(session) => session,
            Err(refusal) => return refusal.give(place_and_count),
        };
        let outcome = plain(&session, &mut Tally::idle());
        work[..WORK_LENGTH].fill(0);
        show(&outcome, &session, clearance, result).give(place_and_count)
    }

    fn run_depth_first(
        &self,
        session: &[u8],
        clearance: usize,
        result: &mut [u8],
        place_and_count: &mut [u32],
    ) -> u32 {
        let session = match accept(session, clearance, None, result.len()) {
            Ok(session) => session,
            Err(refusal) => return refusal.give(place_and_count),
        };
        let outcome = depth_first(&session, &mut Tally::idle());
        show(&outcome, &session, clearance, result).give(place_and_count)
    }

    fn run_page(
        &self,
        session: &[u8],
        clearance: usize,
        result: &mut [u8],
        page_buffer: &mut [u8],
        place_and_counts: &mut [u32],
    ) -> u32 {
        let session = match accept(session, clearance, None, result.len()) {
            Ok(session) => session,
            Err(refusal) => return refusal.give_with_page(place_and_counts),
        };
        if page_buffer.len() < PAGE_LENGTH {
            return Answer::refused(16, 0).give_with_page(place_and_counts);
        }
        let outcome = depth_first(&session, &mut Tally::idle());
        let shown = show(&outcome, &session, clearance, result);
        let page = page(&outcome, &session, clearance);
        page_buffer[..page.len()].copy_from_slice(page.as_bytes());
        Answer::paged(shown.count, page.len()).give_with_page(place_and_counts)
    }
}
