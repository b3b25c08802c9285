//! How often each answer, each length of a lent buffer, each number of a lowest level and
//! of a made object, each clearance, each broken rule and each limit occurred.

use crate::clearances;
use crate::limits::*;
use crate::record::{records, LEVEL};
use crate::request::{Lengths, Outcome, Request, Run};
use crate::sessions::rules::Rule;
use crate::tally::{Totals, OBJECTS, PAGES};
use std::collections::BTreeMap;

const CHECK: &str = "check, answer";
const DEPTH_FIRST: &str = "depth-first run, answer";
const PLAIN: &str = "plain run, answer";
const TIMETABLED: &str = "timetabled run, answer";
const WORK: &str = "work slice, length";
const RESULT: &str = "result buffer, length";
const PLACE_AND_COUNT: &str = "place_and_count, length";

// Those of the run with a page, each of which must occur often.
const PAGE: &str = "page, answer";
const PAGE_BUFFER: &str = "page buffer, length";
const PAGE_RESULT: &str = "page, result buffer, length";
const PAGE_NUMBERS: &str = "page, place_and_counts, length";
/// The result buffer is one byte short, and the page's too.
const PAGE_BOTH_SHORT: &str = "page, both buffers short, answer";
const OFTEN: [&str; 5] = [
    PAGE,
    PAGE_BUFFER,
    PAGE_RESULT,
    PAGE_NUMBERS,
    PAGE_BOTH_SHORT,
];

/// Question 17 is put by every entry.
const ENTRIES: [&str; 5] = [CHECK, DEPTH_FIRST, PLAIN, TIMETABLED, PAGE];
const LOWEST: &str = "lowest level of an accepted session, its number";
const SEVERAL: &str = "lowest levels of a session that question 17 refuses";

/// Results that show a made object of this number.
const MADE: &str = "made object shown, its number";

/// How often question 17 must be answered no, and each level be the lowest.
const MEETS: u64 = 200;

/// How many sessions must break each rule, and have each number of lowest levels.
const BROKEN: u64 = 20;

pub struct Counts {
    /// Calls by a number of theirs.
    calls: BTreeMap<(&'static str, usize), u64>,
    /// How many of them there ought to be.
    least: BTreeMap<(&'static str, usize), u64>,
    clearances: BTreeMap<&'static str, u64>,
    /// Question and name of each rule, and sessions that break it.
    rules: Vec<(u32, String, u64)>,
    pub limits: Totals,
}

/// How often each number of a call ought to occur.
fn least() -> BTreeMap<(&'static str, usize), u64> {
    let numbers = [
        (CHECK, (0..=8).collect()),
        // The depth-first run never asks question 10.
        (DEPTH_FIRST, (0..=9).chain(11..=11).collect()),
        (PLAIN, (0..=11).collect()),
        (TIMETABLED, (0..=15).collect::<Vec<usize>>()),
        (WORK, (WORK_LENGTH - 1..=WORK_LENGTH + 1).collect()),
        (RESULT, (RESULT_LENGTH - 1..=RESULT_LENGTH + 1).collect()),
        (PLACE_AND_COUNT, (0..=PLACE_AND_COUNT_LENGTH + 1).collect()),
        (PAGE, (0..=9).chain([11, 16]).collect()),
        (
            PAGE_BUFFER,
            vec![0, PAGE_LENGTH - 1, PAGE_LENGTH, PAGE_LENGTH + 1],
        ),
        (
            PAGE_RESULT,
            (RESULT_LENGTH - 1..=RESULT_LENGTH + 1).collect(),
        ),
        (PAGE_NUMBERS, (0..=PLACE_AND_COUNTS_LENGTH + 1).collect()),
        (PAGE_BOTH_SHORT, vec![11]),
    ];
    let least = numbers.into_iter().flat_map(|(name, numbers)| {
        let times = if OFTEN.contains(&name) { PAGES } else { 1 };
        numbers
            .into_iter()
            .map(move |number| ((name, number), times))
    });
    let mut least: BTreeMap<_, u64> = least.collect();
    least.extend(ENTRIES.map(|entry| ((entry, 17), MEETS)));
    least.extend((0..LEVELS_MAX).map(|level| ((LOWEST, level), MEETS)));
    least.extend((OBJECTS_MAX..NUMBERS).map(|number| ((MADE, number), OBJECTS)));
    least.extend((2..LEVELS_MAX).map(|levels| ((SEVERAL, levels), BROKEN)));
    least
}

impl Counts {
    /// With a 0 for everything that ought to occur.
    pub fn new(rules: &[Rule]) -> Self {
        let least = least();
        let absent = clearances::absent(0, 0);
        let rules = rules.iter();
        Counts {
            calls: least.keys().map(|&call| (call, 0)).collect(),
            least,
            clearances: absent.map(|(name, _)| (name, 0)).into(),
            rules: rules.map(|r| (r.question, r.name.clone(), 0)).collect(),
            limits: Totals::default(),
        }
    }

    pub fn add(&mut self, request: &Request, outcome: &Outcome) {
        let number = outcome.answer.number as usize;
        let Request::Run { run, lengths, .. } = request else {
            return self.add_call(CHECK, number);
        };
        let entry = match run {
            Run::Page => return self.add_page(number, *lengths),
            Run::DepthFirst => DEPTH_FIRST,
            Run::Plain => PLAIN,
            Run::Timetabled(_) => TIMETABLED,
        };
        self.add_call(entry, number);
        if entry != DEPTH_FIRST {
            self.add_call(WORK, lengths.work);
        }
        self.add_call(RESULT, lengths.result);
        self.add_call(PLACE_AND_COUNT, lengths.place_and_count);
    }

    fn add_page(&mut self, number: usize, lengths: Lengths) {
        self.add_call(PAGE, number);
        self.add_call(PAGE_BUFFER, lengths.page);
        self.add_call(PAGE_RESULT, lengths.result);
        self.add_call(PAGE_NUMBERS, lengths.place_and_count);
        if (lengths.result, lengths.page) == (RESULT_LENGTH - 1, PAGE_LENGTH - 1) {
            self.add_call(PAGE_BOTH_SHORT, number);
        }
    }

    fn add_call(&mut self, name: &'static str, number: usize) {
        *self.calls.entry((name, number)).or_default() += 1;
    }

    /// The levels of a session to which the check answers with this number.
    pub fn add_levels(&mut self, session: &[u8], number: u32) {
        let records = records(session);
        let levels = records.iter().take_while(|record| record[0] == LEVEL);
        let lowest = levels.filter(|level| level[2].count_ones() == 1);
        let lowest: Vec<usize> = lowest.map(|level| usize::from(level[1])).collect();
        match (number, &lowest[..]) {
            (0, &[level]) => self.add_call(LOWEST, level),
            (17, several) => self.add_call(SEVERAL, several.len()),
            _ => {}
        }
    }

    /// A made object that a result shows.
    pub fn add_made(&mut self, number: u8) {
        self.add_call(MADE, usize::from(number));
    }

    /// A call with a clearance that is no present level.
    pub fn add_clearance(&mut self, name: &'static str) {
        *self.clearances.entry(name).or_default() += 1;
    }

    /// A session that breaks the rule of this number.
    pub fn add_rule(&mut self, rule: usize) {
        self.rules[rule].2 += 1;
    }

    /// Adds the counts of another trial of the same rules.
    pub fn merge(&mut self, other: &Counts) {
        for (&call, count) in &other.calls {
            *self.calls.entry(call).or_default() += count;
        }
        for (name, count) in &other.clearances {
            *self.clearances.entry(name).or_default() += count;
        }
        for ((.., count), (.., more)) in self.rules.iter_mut().zip(&other.rules) {
            *count += more;
        }
        self.limits.merge(&other.limits);
    }

    pub fn report(&self) -> String {
        let mut report = String::new();
        let mut last = "";
        for (&(name, number), count) in &self.calls {
            if name != last {
                let end = if last.is_empty() { "" } else { "\n" };
                report += &format!("{end}{name}: calls\n ");
                last = name;
            }
            report += &format!(" {number}: {count}");
        }
        report += "\ncalls with a clearance that is no level\n";
        for (name, count) in &self.clearances {
            report += &format!("{count:>8}  {name}\n");
        }
        report += "sessions with a rule broken, question, rule\n";
        for (question, name, count) in &self.rules {
            report += &format!("{count:>8} {question:>10}  {name}\n");
        }
        report += "sessions, occurrences in reference runs, limit\n";
        report + &self.limits.report()
    }

    /// What ought to have occurred and did too rarely.
    pub fn missing(&self) -> Vec<String> {
        let calls = self
            .least
            .iter()
            .filter(|(call, least)| self.calls[call] < **least);
        let clearances = self.clearances.iter().filter(|(_, &count)| count == 0);
        let rules = self.rules.iter().filter(|(.., count)| *count < BROKEN);
        let limits = self.limits.missing();
        calls
            .map(|((name, number), _)| format!("{name} {number}"))
            .chain(clearances.map(|(name, _)| format!("clearance: {name}")))
            .chain(rules.map(|(question, name, _)| format!("question {question}: {name}")))
            .chain(limits.into_iter().map(String::from))
            .collect()
    }
}
