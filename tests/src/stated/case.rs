//! A session whose results are worked out by hand, put to all runs.

use super::{depth_first, draft, finished, paged, plain, printed, timetable, vector};
use crate::limits::{FIELDS, PAGE_LENGTH, RESULT_LENGTH};
use crate::record::Operation::{self, *};
use crate::record::{self, History, Record, Value};
use crate::sessions::Draft;
use crate::vectors::Vector;

/// A session with what a reader at its highest level is shown.
pub struct Case {
    pub name: &'static str,
    pub session: Draft,
    /// By each of which the run finishes.
    timetables: Vec<Vec<u8>>,
    shown: Vec<Record>,
    page: Option<&'static str>,
}

impl Case {
    /// A session of one level with one object, of which method 0 has these steps.
    pub fn alone(name: &'static str, script: Vec<Operation>) -> Self {
        let mut session = draft(&[0x01]);
        session.put(0, 0, script);
        Case {
            name,
            session,
            timetables: Vec::new(),
            shown: Vec::new(),
            page: None,
        }
    }

    /// A session of level 1 over level 0, with object 0 at level 0 and object 1 at
    /// level 1.
    pub fn two_levels(name: &'static str) -> Self {
        Case {
            name,
            session: draft(&[0x01, 0x03]),
            timetables: Vec::new(),
            shown: Vec::new(),
            page: None,
        }
    }

    pub fn method(mut self, object: u8, name: u8, script: Vec<Operation>) -> Self {
        self.session.put(object, name, script);
        self
    }

    pub fn timetable(mut self, list: &[u8]) -> Self {
        self.timetables.push(list.to_vec());
        self
    }

    pub fn shows(mut self, records: Vec<Record>) -> Self {
        self.shown = records;
        self
    }

    /// Of a session of one level: its one manager takes a step to start and then so
    /// many. The objects come before its history and its reply.
    pub fn shows_alone(self, objects: Vec<Record>, history: History, reply: Value) -> Self {
        let steps = usize::from(history.steps) + 1;
        let last = [history.record(), record::reply(0, reply)];
        self.timetable(&vec![0; steps])
            .shows([objects, last.to_vec()].concat())
    }

    /// The page of the same reader.
    pub fn prints(mut self, page: &'static str) -> Self {
        self.page = Some(page);
        self
    }

    /// All runs of it, and the page if it is stated.
    pub fn vectors(self) -> Vec<(&'static str, Vector)> {
        let clearance = self.session.masks.len() - 1;
        let mut runs = vec![plain(clearance), depth_first(clearance)];
        runs.extend(
            self.timetables
                .iter()
                .map(|list| timetable(list, clearance)),
        );
        let session = self.session.bytes();
        let shown = self.shown.concat();
        let finished = runs.into_iter().map(|run| (run, finished(shown.clone())));
        let page = self.page.map(|page| {
            let request = paged(clearance, RESULT_LENGTH, PAGE_LENGTH);
            (request, printed(shown.clone(), page))
        });
        finished
            .chain(page)
            .map(|(request, expected)| (self.name, vector(session.clone(), request, expected)))
            .collect()
    }
}

pub const NIL: [Value; FIELDS] = [None; FIELDS];

/// The history of the only manager of level 0.
pub fn root(ending: u8, writes: u8, steps: u16) -> History {
    History {
        ending,
        writes,
        first_write_stamp: 1,
        last_write_stamp: 1,
        steps,
        ..History::default()
    }
}

pub fn send(a: u8, name: u8, object: u8) -> Operation {
    Send { a, name, object }
}
