//! The page of document 02: the histories shown to a clearance, a line each, the
//! total of their script steps, and the mean of each level shown that had managers.

use super::outcome::Outcome;
use super::session::Session;
use crate::record::History;
use std::collections::BTreeMap;

pub fn page(outcome: &Outcome, session: &Session, clearance: usize) -> String {
    let mut page = String::new();
    let mut total = 0;
    let mut levels: BTreeMap<_, Vec<u32>> = BTreeMap::new();
    for history in outcome.shown_histories(session, clearance) {
        let steps = u32::from(history.steps);
        page += &line(history);
        total += steps;
        levels.entry(history.level).or_default().push(steps);
    }
    page += &format!("TOTAL{:17}{total:>5}\n", "");
    for (level, steps) in levels {
        let (sum, managers) = (steps.iter().sum::<u32>(), steps.len() as u32);
        let (quotient, remainder) = (sum / managers, sum % managers);
        page += &average(level, quotient, remainder);
    }
    page
}

/// Level at column 7, quotient at 17 to 19, remainder at 25 to 27.
fn average(level: u8, quotient: u32, remainder: u32) -> String {
    format!("LEVEL {level}{:9}{quotient:>3}{:5}{remainder:>3}\n", "", "")
}

/// Stamp at columns 1 to 8, level at 10, ending at 12, writes at 14 to 15, first stamp
/// at 17 to 19, last at 21 to 23, steps at 25 to 27.
fn line(history: &History) -> String {
    format!(
        "{:08X} {} {} {:>2} {:>3} {:>3} {:>3}\n",
        history.fork_stamp,
        history.level,
        history.ending,
        history.writes,
        history.first_write_stamp,
        history.last_write_stamp,
        history.steps,
    )
}
