//! What question 7 says of operations and of the objects that SEND names, and question
//! 11 of the result buffer's length, as document 02 states it.

use super::{draft, finished, refused, send, vector, M1};
use crate::limits::FIELDS;
use crate::record::Operation;
use crate::request::{Lengths, Request, Run};
use crate::sessions::{example_w, Draft};
use crate::vectors::{bytes, Vector};

/// Objects, levels, SEND's object, and the check's number.
const RECEIVERS: [(&str, usize, usize, u8, u32); 15] = [
    ("the last object", 2, 2, 1, 0),
    ("after the objects", 2, 2, 2, 7),
    ("before 32", 2, 2, 31, 7),
    ("level 0's first", 2, 2, 32, 0),
    ("level 1's last", 2, 2, 39, 0),
    ("level 2's first, absent", 2, 2, 40, 7),
    ("level 7's last, absent", 2, 2, 63, 7),
    ("no level's, of two", 2, 2, 64, 7),
    ("level 7's last", 8, 8, 63, 0),
    ("no level's", 8, 8, 64, 7),
    ("255", 8, 8, 255, 7),
    ("the last of 32 objects", 32, 1, 31, 0),
    ("level 0's first, after 32 objects", 32, 1, 32, 0),
    ("level 0's last", 32, 1, 35, 0),
    ("level 1's first, absent", 32, 1, 36, 7),
];

/// Operation and operands of a step, and the check's number.
const STEPS: [(&str, [u8; 4], u32); 9] = [
    ("CREATE r0", [8, 0, 0, 0], 0),
    ("CREATE r3", [8, 3, 0, 0], 0),
    ("CREATE r4", [8, 4, 0, 0], 7),
    ("CREATE with b", [8, 0, 1, 0], 7),
    ("CREATE with c", [8, 0, 0, 1], 7),
    ("WITHDRAW", [9, 0, 0, 0], 0),
    ("WITHDRAW r1", [9, 1, 0, 0], 7),
    ("WITHDRAW with c", [9, 0, 0, 1], 7),
    ("operation 10", [10, 0, 0, 0], 7),
];

pub fn cases() -> Vec<(&'static str, Vector)> {
    let receivers = RECEIVERS.map(|(name, objects, levels, object, number)| {
        let mut draft = chain(objects, levels);
        draft.put(0, 0, vec![send(object)]);
        let expected = refused(number, 0);
        (name, vector(draft.bytes(), Request::Check, expected))
    });
    let steps = STEPS.map(|(name, operation, number)| {
        let mut draft = draft(&[0x01]);
        draft.put(0, 0, vec![Operation::Withdraw]);
        let mut records = draft.records();
        records[2][3..7].copy_from_slice(&operation);
        let expected = refused(number, 0);
        (name, vector(records.concat(), Request::Check, expected))
    });
    [receivers.to_vec(), steps.to_vec(), lengths()].concat()
}

/// A chain of so many levels, and so many objects at the lowest.
fn chain(objects: usize, levels: usize) -> Draft {
    Draft {
        masks: (0..levels)
            .map(|i| (2u16 << i).wrapping_sub(1) as u8)
            .collect(),
        objects: vec![(0, [None; FIELDS]); objects],
        ..Draft::default()
    }
}

/// Session W with result buffers of these lengths.
fn lengths() -> Vec<(&'static str, Vector)> {
    let m1 = bytes(M1).expect("M1 is in hexadecimal");
    let enough = finished(m1);
    let lengths = [
        ("4,624 bytes", 4_624, refused(11, 0)),
        ("5,135 bytes", 5_135, refused(11, 0)),
        ("5,136 bytes", 5_136, enough),
    ];
    let runs = [Run::Plain, Run::DepthFirst, Run::Timetabled(M3.to_vec())];
    let cases = lengths.into_iter().flat_map(|(name, result, expected)| {
        let request = move |run| Request::Run {
            run,
            clearance: 0,
            lengths: Lengths {
                result,
                ..Lengths::ENOUGH
            },
        };
        let runs = runs.clone();
        runs.map(|run| (name, vector(example_w(), request(run), expected.clone())))
    });
    cases.collect()
}

/// Document 01's timetable of that name.
const M3: [u8; 12] = [0, 0, 0, 0, 0, 0, 1, 1, 1, 1, 1, 1];
