//! Level tables with and without greatest lower bounds, with the answers that follow
//! from documents 01 and 02.

use super::{depth_first, draft, empty, finished, history, levels, plain, refused, send};
use super::{shown, timetable, vector};
use crate::limits::FIELDS;
use crate::record;
use crate::request::{Lengths, Request, Run};
use crate::vectors::Vector;

/// Tables by name, with the check's number: 0 where it accepts them.
const TABLES: [(&str, &[u8], u32); 12] = [
    ("01 02 07", &[0x01, 0x02, 0x07], 17),
    ("01 07 04", &[0x01, 0x07, 0x04], 17),
    ("07 02 04", &[0x07, 0x02, 0x04], 17),
    ("M9, both bounds", &[0x01, 0x03, 0x05, 0x0f], 0),
    ("03 02, over level 1", &[0x03, 0x02], 0),
    ("one level", &[0x01], 0),
    ("a diamond over level 2", &[0x0f, 0x06, 0x04, 0x0c], 0),
    (
        "a chain over level 7",
        &[0xff, 0xfe, 0xfc, 0xf8, 0xf0, 0xe0, 0xc0, 0x80],
        0,
    ),
    (
        "a chain over levels 0 and 1",
        &[0x01, 0x02, 0x07, 0x0f, 0x1f, 0x3f, 0x7f, 0xff],
        17,
    ),
    (
        "a chain over levels 6 and 7",
        &[0xff, 0xfe, 0xfc, 0xf8, 0xf0, 0xe0, 0x40, 0x80],
        17,
    ),
    // Levels 0, 1 and 2 have lower bounds among each other, but none with level 3.
    ("01 03 05 08 1f", &[0x01, 0x03, 0x05, 0x08, 0x1f], 17),
    // Neither bound: question 5 is put first.
    ("01 02 04", &[0x01, 0x02, 0x04], 5),
];

pub fn cases() -> Vec<(&'static str, Vector)> {
    let mut cases = tables();
    cases.extend(without_meet());
    cases.extend(over_level_1());
    cases
}

fn tables() -> Vec<(&'static str, Vector)> {
    let cases = TABLES.map(|(name, masks, number)| {
        let expected = refused(number, 0);
        (name, vector(levels(masks), Request::Check, expected))
    });
    cases.into()
}

/// Masks 01, 02, 07: every entry answers 17, whatever the questions after it would.
fn without_meet() -> Vec<(&'static str, Vector)> {
    let mut draft = draft(&[0x01, 0x02, 0x07]);
    draft.put(0, 0, vec![send(2)]);
    // Three levels, three objects, a step and the root.
    let records = draft.records();
    let changed = |place: usize, byte: usize, value: u8| {
        let mut records = records.clone();
        records[place][byte] = value;
        records.concat()
    };
    let sessions = [
        ("17", records.concat()),
        ("17 before 6, a level", changed(3, 2, 3)),
        ("17 before 7, an operation", changed(6, 3, 0)),
        ("17 before 8, an object", changed(7, 1, 3)),
    ];
    let cases = sessions.into_iter().flat_map(|(name, session)| {
        let refusal = move |request| vector(session.clone(), request, refused(17, 0));
        every_entry()
            .into_iter()
            .map(move |request| (name, refusal(request)))
    });
    cases.collect()
}

/// Each entry: the check, the runs, and the runs without room for a clearance that is
/// no level.
fn every_entry() -> Vec<Request> {
    let no_room = Lengths {
        work: 0,
        result: 0,
        page: 0,
        ..Lengths::ENOUGH
    };
    let timetabled = Run::Timetabled(vec![0, 0]);
    let mut requests = vec![Request::Check];
    for run in [Run::Plain, Run::DepthFirst, timetabled, Run::Page] {
        requests.push(Request::run(run.clone(), 0));
        requests.push(Request::Run {
            run,
            clearance: 3,
            lengths: no_room,
        });
    }
    requests
}

/// Masks 03, 02: level 1 is the lowest, and the root's manager forks at level 0.
fn over_level_1() -> Vec<(&'static str, Vector)> {
    let mut draft = draft(&[0x03, 0x02]);
    draft.put(1, 0, vec![send(0)]);
    draft.root_object = 1;
    let records = [
        shown(0, 0, [None; FIELDS]),
        shown(1, 1, [None; FIELDS]),
        empty(0, 0x1000_0000, 1),
        history(1, 0, 0, 2, 1),
        record::reply(1, None),
    ];
    let runs = [plain(0), depth_first(0), timetable(&[1, 1, 0], 0)];
    let finished = finished(records.concat());
    let cases = runs.map(|run| {
        let session = draft.bytes();
        (
            "a fork over level 1",
            vector(session, run, finished.clone()),
        )
    });
    cases.into()
}
