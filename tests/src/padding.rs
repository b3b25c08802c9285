//! Padding: the bytes of session records that documents 01 and 02 leave unused. In small
//! sessions each byte of each record gets another value alone, and each two bytes of
//! a record do together. The library must answer as the reference and the tuned
//! variant do. Where no more than padding and numbers changed, the table below says
//! the answer too, so that a fault that all three share is seen.

use crate::guarded::GUARD;
use crate::library::Library;
use crate::limits::FIELDS;
use crate::record::Operation::{self, *};
use crate::record::{Record, Value};
use crate::record::{ADD, CREATE, JUMP, QUIT, READ, SEND, SET, WITHDRAW, WRITE};
use crate::record::{LEVEL, OBJECT, ROOT, STEP};
use crate::reference::Reference;
use crate::request::{perform, Fill, Request, Run};
use crate::sessions::Draft;
use crate::tuned::Tuned;
use crate::vectors::to_hex;

/// Two of them can cancel each other out: 1 and 255, or 128 twice, in a sum of
/// bytes, and any of them twice in an exclusive or.
const VALUES: [u8; 3] = [1, 128, 255];

/// A number without a zero byte.
const NUMBER: u32 = 0x80ff_017f;

/// Bytes of a record that change, each with its new value.
type Change = Vec<(usize, u8)>;

/// A change of one record of an accepted session.
struct Case<'a> {
    records: &'a [Record],
    place: usize,
    change: &'a Change,
}

/// How many checks were tried.
#[derive(Default)]
pub struct Tried {
    pub checks: usize,
    /// Those of them whose answer is stated here.
    pub stated: usize,
}

/// Documents 01 and 02's records: the question that asks for the padding, and each byte. `0`
/// is padding, `n` is part of a number, where any value will do, and `r` has some
/// other rule.
fn layout(record: &Record) -> (u32, &'static [u8; 16]) {
    match (record[0], record[3]) {
        (LEVEL, _) => (3, b"rrr0000000000000"),
        (OBJECT, 0) => (6, b"rrrr000000000000"),
        (OBJECT, 1) => (6, b"rrrrnnnn00000000"),
        (OBJECT, 2) => (6, b"rrrr0000nnnn0000"),
        (OBJECT, 3) => (6, b"rrrrnnnnnnnn0000"),
        (OBJECT, 4) => (6, b"rrrr00000000nnnn"),
        (OBJECT, 5) => (6, b"rrrrnnnn0000nnnn"),
        (OBJECT, 6) => (6, b"rrrr0000nnnnnnnn"),
        (OBJECT, 7) => (6, b"rrrrnnnnnnnnnnnn"),
        (STEP, SET) => (7, b"rrrrr000nnnn0000"),
        (STEP, ADD) => (7, b"rrrrrr0000000000"),
        (STEP, JUMP) => (7, b"rrrrrr0000000000"),
        (STEP, READ) => (7, b"rrrrrr0000000000"),
        (STEP, WRITE) => (7, b"rrrrrr0000000000"),
        (STEP, SEND) => (7, b"rrrrrrr000000000"),
        (STEP, QUIT) => (7, b"rrrrr00000000000"),
        (STEP, CREATE) => (7, b"rrrrr00000000000"),
        (STEP, WITHDRAW) => (7, b"rrrr000000000000"),
        (ROOT, 0) => (8, b"rrrr000000000000"),
        (ROOT, 1) => (8, b"rrrrnnnn00000000"),
        _ => unreachable!("no accepted session has such a record"),
    }
}

impl Case<'_> {
    fn session(&self) -> Vec<u8> {
        let mut records = self.records.to_vec();
        for &(byte, value) in self.change {
            records[self.place][byte] = value;
        }
        records.concat()
    }

    /// The answer's number, if the layout alone tells it.
    fn stated(&self) -> Option<u32> {
        let record = &self.records[self.place];
        let (question, layout) = layout(record);
        let changed = self.change.iter().filter(|&&(i, value)| record[i] != value);
        let changed: Vec<u8> = changed.map(|&(i, _)| layout[i]).collect();
        if changed.contains(&b'r') {
            None
        } else if changed.contains(&b'0') {
            Some(question)
        } else {
            Some(0)
        }
    }

    /// The check agrees. Where at most one byte changed a run does too, as it tells a
    /// place.
    fn agrees(&self, library: &dyn Library, guard: usize) -> Result<(), String> {
        let session = self.session();
        let stated = self.stated();
        let run = (self.change.len() < 2).then(|| Request::run(Run::DepthFirst, 0));
        for request in [Some(Request::Check), run].into_iter().flatten() {
            agree(library, &session, &request, stated, guard).map_err(|message| {
                let (place, change, hex) = (self.place, self.change, to_hex(&session));
                let kind = self.records[place][0];
                format!(
                    "{message}\n{request:?}\npadding, record {place} of kind {kind}, \
                     bytes and values {change:?}, session {hex}"
                )
            })?;
        }
        Ok(())
    }
}

/// All do what the reference does, and that is what is stated.
fn agree(
    library: &dyn Library,
    session: &[u8],
    request: &Request,
    stated: Option<u32>,
    guard: usize,
) -> Result<(), String> {
    let fill = Fill {
        bytes: &[0xa5; 6_000],
        words: &[0xdead_beef; 100],
        place_and_count: &[0xdead_beef; 100],
        guard,
    };
    let expected = perform(&Reference, session, request, fill)?;
    let answer = expected.answer;
    if let Some(number) = stated.filter(|&number| (answer.number, answer.place) != (number, 0)) {
        return Err(format!("reference: {answer:?}, stated number {number}"));
    }
    let others: [(&str, &dyn Library); 2] = [("tuned variant", &Tuned), ("library", library)];
    for (name, other) in others {
        perform(other, session, request, fill)
            .and_then(|outcome| outcome.compare(&expected))
            .map_err(|message| format!("{name}: {message}"))?;
    }
    Ok(())
}

/// Tries every change of a record that there is of each kind, with each mask, of each
/// operation and with each tag.
pub fn all(library: &dyn Library) -> Result<Tried, String> {
    let changes = changes();
    let mut tried = Tried::default();
    let (nil, number) = (session(None), session(Some(NUMBER)));
    let root = number.len() - 1;
    let all_of_nil = (0..nil.len()).map(|place| (&nil, place));
    for (records, place) in all_of_nil.chain([(&number, root)]) {
        for change in &changes {
            let case = Case {
                records,
                place,
                change,
            };
            // Sessions start at even and odd addresses in turn.
            case.agrees(library, [0, GUARD][tried.checks % 2])?;
            tried.checks += 1;
            tried.stated += usize::from(case.stated().is_some());
        }
    }
    Ok(tried)
}

/// No byte, each byte and each pair of bytes, with all values.
fn changes() -> Vec<Change> {
    let mut changes = vec![Vec::new()];
    for i in 0..16 {
        changes.extend(VALUES.map(|value| vec![(i, value)]));
        for j in 0..i {
            for other in VALUES {
                changes.extend(VALUES.map(|value| vec![(j, other), (i, value)]));
            }
        }
    }
    changes
}

/// A session of four levels, an object with each mask, and a step of each operation.
fn session(parameter: Value) -> Vec<Record> {
    let field = |mask: u8, k: usize| (mask >> k & 1 == 1).then_some(NUMBER);
    let fields = |mask| -> [Value; FIELDS] { [0, 1, 2].map(|k| field(mask, k)) };
    let mut draft = Draft {
        masks: vec![0b0001, 0b0011, 0b0101, 0b1111],
        objects: (0..8).map(|mask| (mask % 4, fields(mask))).collect(),
        root_parameter: parameter,
        ..Draft::default()
    };
    draft.put(0, 0, steps());
    draft.put(0, 1, more_steps());
    draft.records()
}

/// Each operation with the least operands and with the largest.
fn steps() -> Vec<Operation> {
    let send = |a, name, object| Send { a, name, object };
    vec![
        Set { a: 0, n: 0 },
        Set { a: 3, n: NUMBER },
        Add { a: 0, b: 0 },
        Add { a: 3, b: 3 },
        Jump { a: 0, target: 0 },
        Jump { a: 3, target: 14 },
        Read { a: 0, field: 0 },
        Read { a: 3, field: 2 },
        Write { a: 0, field: 0 },
        Write { a: 3, field: 2 },
        send(0, 0, 0),
        send(3, 15, 7),
        Quit { a: 0 },
        Quit { a: 3 },
    ]
}

/// Those of document 02, apart: a method has at most 16 steps.
fn more_steps() -> Vec<Operation> {
    let send = |object| Send {
        a: 0,
        name: 0,
        object,
    };
    vec![
        Create { a: 0 },
        Create { a: 3 },
        Withdraw,
        // The least and the largest number that the four levels own.
        send(32),
        send(47),
    ]
}
