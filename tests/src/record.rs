//! The layout of documents 01 and 02's records: the only list of kinds and operations,
//! for both implementations and the generator.

use crate::limits::FIELDS;

/// A record is 16 bytes; byte 0 is its kind.
pub type Record = [u8; 16];

/// NIL or a number.
pub type Value = Option<u32>;

// Kinds of session records.
pub const LEVEL: u8 = 1;
pub const OBJECT: u8 = 2;
pub const STEP: u8 = 3;
pub const ROOT: u8 = 4;

// Kinds of result records.
pub const SHOWN_OBJECT: u8 = 5;
pub const HISTORY: u8 = 6;
pub const REPLY: u8 = 7;

// Operations of script steps.
pub const SET: u8 = 1;
pub const ADD: u8 = 2;
pub const JUMP: u8 = 3;
pub const READ: u8 = 4;
pub const WRITE: u8 = 5;
pub const SEND: u8 = 6;
pub const QUIT: u8 = 7;
pub const CREATE: u8 = 8;
pub const WITHDRAW: u8 = 9;

/// A script step's operation with its operands.
#[derive(Clone, Copy, Debug, PartialEq, Eq)]
pub enum Operation {
    Set { a: u8, n: u32 },
    Add { a: u8, b: u8 },
    Jump { a: u8, target: u8 },
    Read { a: u8, field: u8 },
    Write { a: u8, field: u8 },
    Send { a: u8, name: u8, object: u8 },
    Quit { a: u8 },
    Create { a: u8 },
    Withdraw,
}

impl Operation {
    /// The record of this operation as a step of the method (object, name).
    pub fn record(self, (object, name): (u8, u8)) -> Record {
        let (code, [a, b, c], n) = match self {
            Operation::Set { a, n } => (SET, [a, 0, 0], n),
            Operation::Add { a, b } => (ADD, [a, b, 0], 0),
            Operation::Jump { a, target } => (JUMP, [a, target, 0], 0),
            Operation::Read { a, field } => (READ, [a, field, 0], 0),
            Operation::Write { a, field } => (WRITE, [a, field, 0], 0),
            Operation::Send { a, name, object } => (SEND, [a, name, object], 0),
            Operation::Quit { a } => (QUIT, [a, 0, 0], 0),
            Operation::Create { a } => (CREATE, [a, 0, 0], 0),
            Operation::Withdraw => (WITHDRAW, [0, 0, 0], 0),
        };
        let mut record = [0; 16];
        record[..7].copy_from_slice(&[STEP, object, name, code, a, b, c]);
        record[8..12].copy_from_slice(&n.to_le_bytes());
        record
    }

    /// The operation of a step in an accepted session.
    pub fn of(record: &Record) -> Operation {
        let [_, _, _, code, a, b, c, ..] = *record;
        match code {
            SET => Operation::Set {
                a,
                n: number_at(record, 8),
            },
            ADD => Operation::Add { a, b },
            JUMP => Operation::Jump { a, target: b },
            READ => Operation::Read { a, field: b },
            WRITE => Operation::Write { a, field: b },
            SEND => Operation::Send {
                a,
                name: b,
                object: c,
            },
            QUIT => Operation::Quit { a },
            CREATE => Operation::Create { a },
            WITHDRAW => Operation::Withdraw,
            _ => unreachable!("no accepted session has operation {code}"),
        }
    }
}

/// The 32-bit number that starts at a byte of the record.
pub fn number_at(record: &Record, start: usize) -> u32 {
    u32::from_le_bytes([
        record[start],
        record[start + 1],
        record[start + 2],
        record[start + 3],
    ])
}

/// Splits bytes into whole records; a rest that is none is left out.
pub fn records(bytes: &[u8]) -> &[Record] {
    bytes.as_chunks().0
}

pub fn level(number: u8, mask: u8) -> Record {
    let mut record = [0; 16];
    record[..3].copy_from_slice(&[LEVEL, number, mask]);
    record
}

/// An object of a session (kind 2) or of a result (kind 5): one layout.
pub fn object(kind: u8, number: u8, level: u8, fields: [Value; FIELDS]) -> Record {
    let mut record = [0; 16];
    record[..3].copy_from_slice(&[kind, number, level]);
    for (k, field) in fields.into_iter().enumerate() {
        if let Some(value) = field {
            record[3] |= 1 << k;
            record[4 + 4 * k..][..4].copy_from_slice(&value.to_le_bytes());
        }
    }
    record
}

/// The fields of an object's record.
pub fn fields(record: &Record) -> [Value; FIELDS] {
    [0, 1, 2].map(|k| (record[3] >> k & 1 == 1).then(|| number_at(record, 4 + 4 * k)))
}

pub fn root(object: u8, name: u8, parameter: Value) -> Record {
    tagged([ROOT, object, name], parameter)
}

/// The root's reply, shown with the root's level.
pub fn reply(level: u8, value: Value) -> Record {
    tagged([REPLY, level, 0], value)
}

/// Byte 3 is the tag of the value in bytes 4 to 7.
fn tagged(start: [u8; 3], value: Value) -> Record {
    let mut record = [0; 16];
    record[..3].copy_from_slice(&start);
    record[3] = u8::from(value.is_some());
    record[4..8].copy_from_slice(&value.unwrap_or(0).to_le_bytes());
    record
}

/// The parameter of a root's record.
pub fn parameter(record: &Record) -> Value {
    (record[3] == 1).then(|| number_at(record, 4))
}

/// What a result tells of an ended manager.
#[derive(Clone, Copy, Debug, Default, PartialEq, Eq)]
pub struct History {
    pub level: u8,
    pub ending: u8,
    pub writes: u8,
    pub fork_stamp: u32,
    pub first_write_stamp: u16,
    pub last_write_stamp: u16,
    pub steps: u16,
}

impl History {
    pub fn record(self) -> Record {
        let mut record = [0; 16];
        record[..4].copy_from_slice(&[HISTORY, self.level, self.ending, self.writes]);
        record[4..8].copy_from_slice(&self.fork_stamp.to_le_bytes());
        record[8..10].copy_from_slice(&self.first_write_stamp.to_le_bytes());
        record[10..12].copy_from_slice(&self.last_write_stamp.to_le_bytes());
        record[12..14].copy_from_slice(&self.steps.to_le_bytes());
        record
    }
}
