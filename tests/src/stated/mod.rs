//! The cases M1 to M12 that document 01 states with their answers, M5's as
//! document 02 changes it, two with more than 65,536 bytes, tables with and without
//! greatest lower bounds, pages, objects made and withdrawn, and sums.

mod bounds;
mod case;
mod objects;
mod receivers;
mod sums;

use crate::library::Answer;
use crate::limits::*;
use crate::record::{self, History, Operation, Record};
use crate::request::{Lengths, Outcome, Request, Run};
use crate::sessions::{example_w, Draft};
use crate::vectors::{bytes, Vector};

/// The result for session W and clearance 0, as it is printed.
const M1: &str = "05000001090000000000000000000000 \
                  06000001000000000100020005000000 \
                  07000001090000000000000000000000";

/// The pages of session W for clearances 0 and 1.
const W_0: &str = "\
00000000 0 0  1   1   2   5
TOTAL                     5
LEVEL 0           5       0
";
const W_1: &str = "\
00000000 0 0  1   1   2   5
10000000 1 0  2   1   1   5
TOTAL                    10
LEVEL 0           5       0
LEVEL 1           5       0
";

/// The root's level is 1, under level 0: groups stand by number, not by stamp.
const TWELVE: &str = "\
10000000 0 0  0   1   1   0
20000000 0 0  0   2   2   0
30000000 0 0  0   3   3   0
40000000 0 0  0   4   4   0
50000000 0 0  0   5   5   0
60000000 0 0  0   6   6   0
70000000 0 0  0   7   7   0
80000000 0 0  0   8   8   0
90000000 0 0  0   9   9   0
A0000000 0 0  0  10  10   0
B0000000 0 0  0  11  11   0
C0000000 0 0  0  12  12   0
00000000 1 0  0   1  13  12
TOTAL                    12
LEVEL 0           0       0
LEVEL 1          12       0
";

/// 11 managers of level 2 have 2 steps each and the twelfth 1: 12 × 1 + 11. Level 1
/// had no manager.
const UNEVEN: &str = "\
00000000 0 0  0   1  13  12
10000000 2 0  0   1   1   2
20000000 2 0  0   2   2   2
30000000 2 0  0   3   3   2
40000000 2 0  0   4   4   2
50000000 2 0  0   5   5   2
60000000 2 0  0   6   6   2
70000000 2 0  0   7   7   2
80000000 2 0  0   8   8   2
90000000 2 0  0   9   9   2
A0000000 2 0  0  10  10   2
B0000000 2 0  0  11  11   2
C0000000 2 0  0  12  12   1
TOTAL                    35
LEVEL 0          12       0
LEVEL 2           1      11
";

/// The page of a clearance that is shown no history.
const NO_HISTORY: &str = "TOTAL                     0\n";

pub fn cases() -> Vec<(&'static str, Vector)> {
    let mut cases = stated_cases();
    cases.extend(bounds::cases());
    cases.extend(pages());
    cases.extend(receivers::cases());
    cases.extend(objects::cases());
    cases.extend(sums::cases());
    cases
}

fn stated_cases() -> Vec<(&'static str, Vector)> {
    let m1 = bytes(M1).expect("M1 is in hexadecimal");
    let m3 = [vec![0; 6], vec![1; 6]].concat();
    let m6 = [&m3[..], &[0]].concat();
    let w = example_w;
    // Lengths that are those of M3 and of W in their lowest 16 bits.
    let long = [&m3[..], &[0; 65_536]].concat();
    let padded = [w(), vec![0; 65_536]].concat();
    vec![
        ("M1", vector(w(), plain(0), finished(m1.clone()))),
        ("M2", vector(w(), plain(1), finished(m2()))),
        ("M2", vector(w(), depth_first(1), finished(m2()))),
        ("M3", vector(w(), timetable(&m3, 0), finished(m1))),
        ("M3", vector(w(), timetable(&m3, 1), finished(m2()))),
        ("M4", vector(w(), timetable(&[1], 0), refused(13, 0))),
        (
            "M5",
            vector(w(), timetable(&[0, 0, 0, 1], 0), refused(15, 0)),
        ),
        ("M6", vector(w(), timetable(&m6, 0), refused(13, 12))),
        ("M7", vector(w(), timetable(&[0; 6], 0), refused(15, 0))),
        ("M8", vector(Vec::new(), Request::Check, refused(1, 0))),
        ("M9", m9()),
        (
            "M10",
            vector(levels(&[0x01, 0x02]), Request::Check, refused(5, 0)),
        ),
        (
            "M11",
            vector(levels(&[0x03, 0x03]), Request::Check, refused(4, 0)),
        ),
        ("M12", m12()),
        (
            "long list",
            vector(w(), timetable(&long, 0), refused(13, 12)),
        ),
        (
            "long session",
            vector(padded, Request::Check, refused(1, 0)),
        ),
    ]
}

/// Session W's page, and what is refused of it.
fn pages() -> Vec<(&'static str, Vector)> {
    let m1 = bytes(M1).expect("M1 is in hexadecimal");
    let [result, page] = [RESULT_LENGTH, PAGE_LENGTH];
    // A length that is 0 in its lowest 16 bits.
    let long = 65_536;
    let w = |clearance, result, page, expected| {
        vector(example_w(), paged(clearance, result, page), expected)
    };
    // The root's manager is at the upper level.
    let mut above = draft(&[0x01, 0x03]);
    above.root_object = 1;
    let hidden = shown(0, 0, [None; FIELDS]).to_vec();
    vec![
        (
            "page, clearance 0",
            w(0, result, page, printed(m1.clone(), W_0)),
        ),
        ("long buffers", w(0, long, long, printed(m1, W_0))),
        ("page, clearance 1", w(1, result, page, printed(m2(), W_1))),
        ("page too short", w(0, result, page - 1, refused(16, 0))),
        ("no page", w(1, result, 0, refused(16, 0))),
        ("both short", w(0, result - 1, page - 1, refused(11, 0))),
        ("no level", w(2, result, page - 1, refused(9, 0))),
        ("page of twelve forks", twelve()),
        ("page of a mean with a remainder", uneven()),
        (
            "page of no history",
            vector(
                above.bytes(),
                paged(0, result, page),
                printed(hidden, NO_HISTORY),
            ),
        ),
    ]
}

fn vector(session: Vec<u8>, request: Request, expected: Outcome) -> Vector {
    Vector {
        session,
        request,
        expected,
    }
}

fn finished(shown: Vec<u8>) -> Outcome {
    Outcome::finished(shown)
}

fn printed(shown: Vec<u8>, page: &str) -> Outcome {
    Outcome::paged(shown, page.as_bytes().to_vec())
}

fn refused(number: u32, place: usize) -> Outcome {
    Outcome::refused(Answer::refused(number, place))
}

fn plain(clearance: usize) -> Request {
    Request::run(Run::Plain, clearance)
}

fn depth_first(clearance: usize) -> Request {
    Request::run(Run::DepthFirst, clearance)
}

fn paged(clearance: usize, result: usize, page: usize) -> Request {
    let lengths = Lengths {
        result,
        page,
        ..Lengths::ENOUGH
    };
    Request::Run {
        run: Run::Page,
        clearance,
        lengths,
    }
}

fn timetable(list: &[u8], clearance: usize) -> Request {
    Request::run(Run::Timetabled(list.to_vec()), clearance)
}

fn shown(number: u8, level: u8, fields: [record::Value; FIELDS]) -> Record {
    record::object(record::SHOWN_OBJECT, number, level, fields)
}

/// A history with ending 0.
fn history(level: u8, fork_stamp: u32, writes: u8, last: u16, steps: u16) -> Record {
    let history = History {
        level,
        ending: 0,
        writes,
        fork_stamp,
        first_write_stamp: 1,
        last_write_stamp: last,
        steps,
    };
    history.record()
}

fn m2() -> Vec<u8> {
    [
        shown(0, 0, [Some(9), None, None]),
        shown(1, 1, [Some(5), Some(5), None]),
        history(0, 0, 1, 2, 5),
        history(1, 0x1000_0000, 2, 1, 5),
        record::reply(0, Some(9)),
    ]
    .concat()
}

/// A session with these masks, an object at each level and no steps.
fn draft(masks: &[u8]) -> Draft {
    Draft {
        masks: masks.to_vec(),
        objects: (0..masks.len() as u8)
            .map(|level| (level, [None; FIELDS]))
            .collect(),
        ..Draft::default()
    }
}

fn levels(masks: &[u8]) -> Vec<u8> {
    draft(masks).bytes()
}

fn send(object: u8) -> Operation {
    Operation::Send {
        a: 0,
        name: 0,
        object,
    }
}

/// The root, at the lower level, makes twelve forks of an empty method.
fn twelve() -> Vector {
    let mut draft = draft(&[0x03, 0x02]);
    draft.put(1, 0, vec![send(0); 12]);
    draft.root_object = 1;
    let mut records = vec![shown(0, 0, [None; FIELDS]), shown(1, 1, [None; FIELDS])];
    records.extend((1..=12).map(|i| empty(0, u32::from(i) << 28, i)));
    records.extend([history(1, 0, 0, 13, 12), record::reply(1, None)]);
    vector(
        draft.bytes(),
        paged(0, RESULT_LENGTH, PAGE_LENGTH),
        printed(records.concat(), TWELVE),
    )
}

/// The root makes twelve forks two levels above it, of a method of two steps and, at
/// last, of one.
fn uneven() -> Vector {
    let mut draft = draft(&[0x01, 0x03, 0x07]);
    let set = Operation::Set { a: 0, n: 1 };
    draft.put(2, 0, vec![set; 2]);
    draft.put(2, 1, vec![set]);
    let mut script = vec![send(2); 11];
    script.push(Operation::Send {
        a: 0,
        name: 1,
        object: 2,
    });
    draft.put(0, 0, script);
    let mut records: Vec<Record> = (0..3).map(|i| shown(i, i, [None; FIELDS])).collect();
    records.push(history(0, 0, 0, 13, 12));
    for i in 1..=12 {
        let history = History {
            level: 2,
            fork_stamp: u32::from(i) << 28,
            first_write_stamp: i,
            last_write_stamp: i,
            steps: if i < 12 { 2 } else { 1 },
            ..History::default()
        };
        records.push(history.record());
    }
    records.push(record::reply(0, None));
    vector(
        draft.bytes(),
        paged(2, RESULT_LENGTH, PAGE_LENGTH),
        printed(records.concat(), UNEVEN),
    )
}

/// The history of a manager of an empty method, the i-th at its level.
fn empty(level: u8, fork_stamp: u32, i: u16) -> Record {
    let history = History {
        level,
        fork_stamp,
        first_write_stamp: i,
        last_write_stamp: i,
        ..History::default()
    };
    history.record()
}

/// The bound of 1 and 2 is 3: a manager at level 1, from a frame at level 0,
/// sends to an object at level 2.
fn m9() -> Vector {
    let mut draft = draft(&[0x01, 0x03, 0x05, 0x0f]);
    draft.put(1, 0, vec![send(0)]);
    draft.put(0, 0, vec![send(2)]);
    draft.root_object = 1;
    let objects = (0..4).map(|i| shown(i, i, [None; FIELDS]));
    let mut records: Vec<Record> = objects.collect();
    records.extend([
        history(1, 0, 0, 2, 2),
        history(3, 0x1000_0000, 0, 1, 0),
        record::reply(1, None),
    ]);
    vector(draft.bytes(), plain(3), finished(records.concat()))
}

/// Stamp 21000000 lies after 20000000 and before 30000000: the root forks at
/// levels 2, 1 and 2, the fork at level 1 one more at level 2.
fn m12() -> Vector {
    let mut draft = draft(&[0x01, 0x03, 0x07]);
    draft.put(0, 0, vec![send(2), send(1), send(2)]);
    draft.put(1, 0, vec![send(2)]);
    let objects = (0..3).map(|i| shown(i, i, [None; FIELDS]));
    let mut records: Vec<Record> = objects.collect();
    records.extend([history(0, 0, 0, 4, 3), history(1, 0x2000_0000, 0, 2, 1)]);
    for (i, stamp) in (1..).zip([0x1000_0000, 0x2100_0000, 0x3000_0000]) {
        records.push(empty(2, stamp, i));
    }
    records.push(record::reply(0, None));
    vector(draft.bytes(), plain(2), finished(records.concat()))
}
