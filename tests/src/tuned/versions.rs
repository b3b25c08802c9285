//! The versions of all fields and of the objects' existence, in the work slice. A
//! version is two numbers: its write stamp above the position of the next newer one,
//! and its value. NIL has a bit of its own, as positions stay below it.

use super::tables::Tables;
use crate::limits::*;
use crate::record::{number_at, Value};

const NIL: u32 = 1 << 15;
const POSITION: u32 = NIL - 1;

/// How much has versions where no object is made or withdrawn: the fields of the
/// session's objects.
pub const GIVEN: usize = OBJECTS_MAX * FIELDS;

/// And where some are: the fields of all objects, and the existence of each.
pub const ALL: usize = NUMBERS * FIELDS + NUMBERS;

/// A field's number among those of all objects.
pub fn number(object: u8, field: u8) -> usize {
    usize::from(object) * FIELDS + usize::from(field)
}

/// The number of an object's existence. Its value is the object of the session whose
/// methods it has, and NIL where it is not there.
pub fn existence(object: u8) -> usize {
    NUMBERS * FIELDS + usize::from(object)
}

/// Of so many fields. Positions start at 1; 0 is the initial version, and no version
/// where it is the next newer one.
pub struct Versions<'a, const N: usize> {
    work: &'a mut [u32],
    /// The first version written of each field.
    first: [u16; N],
    newest: [u16; N],
    count: u16,
}

impl<'a, const N: usize> Versions<'a, N> {
    pub fn new(work: &'a mut [u32]) -> Self {
        Versions {
            work,
            first: [0; N],
            newest: [0; N],
            count: 0,
        }
    }

    pub fn newest(&self, number: usize) -> u16 {
        self.newest[number]
    }

    fn write_stamp(&self, position: u16) -> u32 {
        self.work[2 * usize::from(position)] >> 16
    }

    fn next_newer(&self, number: usize, position: u16) -> u16 {
        if position == 0 {
            self.first[number]
        } else {
            (self.work[2 * usize::from(position)] & POSITION) as u16
        }
    }

    pub fn value(&self, tables: &Tables, number: usize, position: u16) -> Value {
        if position == 0 {
            return Self::initial(tables, number);
        }
        let start = 2 * usize::from(position);
        (self.work[start] & NIL == 0).then(|| self.work[start + 1])
    }

    fn initial(tables: &Tables, number: usize) -> Value {
        if N == ALL && number >= existence(0) {
            let object = number - existence(0);
            return (object < tables.objects.len()).then_some(object as u32);
        }
        let (object, field) = (tables.objects.get(number / FIELDS)?, number % FIELDS);
        (object[3] >> field & 1 == 1).then(|| number_at(object, 4 + 4 * field))
    }

    /// Replaces the newest version if that has the same write stamp.
    pub fn write(&mut self, number: usize, write_stamp: u16, value: Value) {
        let mut position = self.newest[number];
        if position == 0 || self.write_stamp(position) != u32::from(write_stamp) {
            let older = position;
            self.count += 1;
            position = self.count;
            self.newest[number] = position;
            if older == 0 {
                self.first[number] = position;
            } else {
                self.work[2 * usize::from(older)] |= u32::from(position);
            }
        }
        let start = 2 * usize::from(position);
        let nil = if value.is_none() { NIL } else { 0 };
        self.work[start] = u32::from(write_stamp) << 16 | nil;
        self.work[start + 1] = value.unwrap_or(0);
    }
}

/// What a level's managers see below it. They start in stamp order, so each one
/// sees no less than the one before, and the search goes on where it was.
#[derive(Clone, Copy)]
pub struct View<const N: usize> {
    /// For each level the newest write stamp seen by the running manager.
    pub seen: [u16; LEVELS_MAX],
    positions: [u16; N],
}

impl<const N: usize> View<N> {
    pub const INITIAL: Self = View {
        seen: [0; LEVELS_MAX],
        positions: [0; N],
    };

    /// The position of the newest version seen.
    #[inline]
    pub fn find(&mut self, versions: &Versions<N>, number: usize, level: u8) -> u16 {
        let seen = u32::from(self.seen[usize::from(level)]);
        let mut position = self.positions[number];
        loop {
            let next = versions.next_newer(number, position);
            if next == 0 || versions.write_stamp(next) > seen {
                break;
            }
            position = next;
        }
        self.positions[number] = position;
        position
    }
}
