//! Documents 01 and 02 once more, as plain optimised Rust: what the proved library
//! is measured against. Nothing is allocated, tables have fixed sizes, and versions
//! are kept in the work slice.

mod check;
mod depth_first;
mod histories;
mod manager;
pub mod page;
mod scheduled;
mod tables;
mod versions;

use crate::library::{Answer, Library};
use crate::limits::{PAGE_LENGTH, RESULT_LENGTH, WORK_LENGTH};
use tables::Tables;

pub struct Tuned;

/// The check and questions 9 to 11, of which 10 is put only where there is a work
/// slice.
fn accept(
    session: &[u8],
    clearance: usize,
    work_length: usize,
    result_length: usize,
) -> Result<Tables<'_>, u32> {
    let parts = check::parts(session)?;
    if clearance >= parts.levels.len() {
        return Err(9);
    }
    if work_length < WORK_LENGTH {
        return Err(10);
    }
    if result_length < RESULT_LENGTH {
        return Err(11);
    }
    Ok(Tables::new(&parts))
}

impl Library for Tuned {
    fn check(&self, session: &[u8]) -> u32 {
        check::parts(session).err().unwrap_or(0)
    }

    fn run_timetable(
        &self,
        session: &[u8],
        timetable: &[u8],
        clearance: usize,
        work: &mut [u32],
        result: &mut [u8],
        place_and_count: &mut [u32],
    ) -> u32 {
        let tables = match accept(session, clearance, work.len(), result.len()) {
            Ok(tables) => tables,
            Err(number) => return Answer::refused(number, 0).give(place_and_count),
        };
        let work = &mut work[..WORK_LENGTH];
        let answer = scheduled::run_timetable(&tables, timetable, clearance, work, result);
        work.fill(0);
        answer.give(place_and_count)
    }

    fn run_plain(
        &self,
        session: &[u8],
        clearance: usize,
        work: &mut [u32],
        result: &mut [u8],
        place_and_count: &mut [u32],
    ) -> u32 {
        let tables = match accept(session, clearance, work.len(), result.len()) {
            Ok(tables) => tables,
            Err(number) => return Answer::refused(number, 0).give(place_and_count),
        };
        let work = &mut work[..WORK_LENGTH];
        let answer = scheduled::run_plain(&tables, clearance, work, result);
        work.fill(0);
        answer.give(place_and_count)
    }

    fn run_depth_first(
        &self,
        session: &[u8],
        clearance: usize,
        result: &mut [u8],
        place_and_count: &mut [u32],
    ) -> u32 {
        let answer = match accept(session, clearance, WORK_LENGTH, result.len()) {
            Ok(tables) => depth_first::run(&tables, clearance, result),
            Err(number) => Answer::refused(number, 0),
        };
        answer.give(place_and_count)
    }

    fn run_page(
        &self,
        session: &[u8],
        clearance: usize,
        result: &mut [u8],
        page: &mut [u8],
        place_and_counts: &mut [u32],
    ) -> u32 {
        let answer = match accept(session, clearance, WORK_LENGTH, result.len()) {
            Ok(_) if page.len() < PAGE_LENGTH => Answer::refused(16, 0),
            Ok(tables) => {
                let count = depth_first::run(&tables, clearance, result).count;
                Answer::paged(count, page::write(&result[..count], page))
            }
            Err(number) => Answer::refused(number, 0),
        };
        answer.give_with_page(place_and_counts)
    }
}
