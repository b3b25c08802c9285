//! Objects of one level that managers of the level above read or run.

use crate::limits::FIELDS;
use crate::record::Operation::{self, *};
use crate::record::{self, History, Record};
use crate::stated::case::{root, send, Case, NIL};
use crate::stated::{depth_first, finished, plain, shown, vector};
use crate::vectors::Vector;

pub fn cases() -> Vec<Case> {
    let mut cases = vec![from_above(), not_there()];
    cases.extend(two_forks());
    cases
}

fn two_forks() -> [Case; 3] {
    [made_before_start(), withdrawn_before_start(), past_limit()]
}

/// The history of level 1's i-th manager, which is the root's i-th fork.
fn fork(i: u16, ending: u8, writes: u8, steps: u16) -> Record {
    let history = History {
        level: 1,
        ending,
        writes,
        fork_stamp: u32::from(i) << 28,
        first_write_stamp: i,
        last_write_stamp: i,
        steps,
    };
    history.record()
}

/// The history of a root that makes so many forks.
fn forking(forks: u16, writes: u8, steps: u16) -> Record {
    let history = History {
        last_write_stamp: forks + 1,
        ..root(0, writes, steps)
    };
    history.record()
}

/// A reader at level 0 is shown the same whatever is made and withdrawn at level 1.
pub fn hidden() -> Vec<(&'static str, Vector)> {
    let records = [shown(0, 0, NIL), forking(2, 0, 2), record::reply(0, None)];
    let expected = finished(records.concat());
    let cases = two_forks().into_iter().flat_map(|case| {
        let session = case.session.bytes();
        [plain(0), depth_first(0)]
            .map(|run| (case.name, vector(session.clone(), run, expected.clone())))
    });
    cases.collect()
}

/// The root forks three managers: before it makes object 32, after that, and after it
/// withdrew it. Each asks 32 for its field and writes the reply to a field of its own.
fn from_above() -> Case {
    let root = vec![
        Set { a: 1, n: 7 },
        send(0, 0, 1),
        Create { a: 0 },
        send(2, 1, 1),
        send(3, 2, 32),
        send(3, 2, 1),
    ];
    let ask = |field: u8| vec![send(0, 1, 32), Write { a: 0, field }];
    let early = [0, 0, 0, 1, 1, 1, 0, 0, 1, 1, 1, 1, 1, 0, 0, 0, 1, 1, 1];
    let late = [vec![0; 8], vec![1; 11]].concat();
    let mut case = Case::two_levels("an object read from above")
        .method(0, 0, root)
        .method(0, 1, vec![Read { a: 1, field: 0 }, Quit { a: 1 }])
        .method(0, 2, vec![Withdraw])
        .method(1, 0, ask(0))
        .method(1, 1, ask(1))
        .method(1, 2, ask(2))
        .timetable(&early)
        .timetable(&late)
        .shows(vec![
            shown(0, 0, NIL),
            shown(1, 1, [None, Some(7), None]),
            forking(3, 5, 7),
            fork(1, 0, 1, 2),
            fork(2, 0, 1, 4),
            fork(3, 0, 1, 2),
            record::reply(0, None),
        ]);
    case.session.objects[1].1 = [Some(1); FIELDS];
    case
}

/// A message upward to a number that is of no object: a manager with 0 steps.
fn not_there() -> Case {
    Case::two_levels("a fork to an object that is not there")
        .method(0, 0, vec![send(0, 0, 36)])
        .method(1, 0, vec![WRITE])
        .timetable(&[0, 0, 1])
        .shows(vec![
            shown(0, 0, NIL),
            shown(1, 1, NIL),
            forking(1, 0, 1),
            fork(1, 0, 0, 0),
            record::reply(0, None),
        ])
}

const WRITE: Operation = Write { a: 0, field: 0 };

/// The root forks two managers of level 1, the second of an object that the first makes.
fn made_before_start() -> Case {
    let double = vec![Read { a: 1, field: 0 }, Write { a: 1, field: 1 }];
    Case::two_levels("an object made before its manager starts")
        .method(0, 0, vec![send(0, 0, 1), send(0, 1, 36)])
        .method(1, 0, vec![Set { a: 1, n: 8 }, Create { a: 0 }])
        .method(1, 1, double)
        .timetable(&[0, 0, 0, 1, 1, 1, 1, 1, 1])
        .timetable(&[0, 0, 1, 1, 1, 0, 1, 1, 1])
        .shows(vec![
            shown(0, 0, NIL),
            shown(1, 1, NIL),
            shown(36, 1, [Some(8), Some(8), None]),
            forking(2, 0, 2),
            fork(1, 0, 4, 2),
            fork(2, 0, 1, 2),
            record::reply(0, None),
        ])
}

/// The second is of an object that the first withdraws.
fn withdrawn_before_start() -> Case {
    Case::two_levels("an object withdrawn before its manager starts")
        .method(0, 0, vec![send(0, 0, 1), send(0, 1, 1)])
        .method(1, 0, vec![Withdraw])
        .method(1, 1, vec![WRITE])
        .timetable(&[0, 0, 0, 1, 1, 1])
        .timetable(&[0, 0, 1, 1, 0, 1])
        .shows(vec![
            shown(0, 0, NIL),
            forking(2, 0, 2),
            fork(1, 0, 1, 1),
            fork(2, 0, 0, 0),
            record::reply(0, None),
        ])
}

/// The first has a CREATE past the limit, which uses no number: the second gets it.
fn past_limit() -> Case {
    let refused = [vec![WRITE; 13], vec![Create { a: 0 }]].concat();
    Case::two_levels("a number not used by a CREATE past the limit")
        .method(0, 0, vec![send(0, 0, 1), send(0, 1, 1)])
        .method(1, 0, refused)
        .method(1, 1, vec![Create { a: 0 }, WRITE])
        .shows(vec![
            shown(0, 0, NIL),
            shown(1, 1, [Some(36), None, None]),
            shown(36, 1, NIL),
            forking(2, 0, 2),
            fork(1, 2, 13, 14),
            fork(2, 0, 5, 2),
            record::reply(0, None),
        ])
}
