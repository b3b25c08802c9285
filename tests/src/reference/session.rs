//! What an accepted session says.

use super::lattice::Lattice;
use super::objects::owner;
use crate::limits::*;
use crate::record::{self, Operation, Record, Value};

pub struct Object {
    pub level: usize,
    pub fields: [Value; FIELDS],
}

pub struct Session {
    pub lattice: Lattice,
    pub objects: Vec<Object>,
    /// The scripts, by object and name; an empty method has an empty one.
    scripts: Vec<Vec<Operation>>,
    pub root_object: u8,
    pub root_name: u8,
    pub root_parameter: Value,
    pub step_records: usize,
}

impl Session {
    /// Reads a session that the check accepts.
    pub fn read(bytes: &[u8]) -> Session {
        let records = record::records(bytes);
        let of_kind = |kind| records.iter().filter(move |r| r[0] == kind);
        let objects: Vec<Object> = of_kind(record::OBJECT)
            .map(|r| Object {
                level: usize::from(r[2]),
                fields: record::fields(r),
            })
            .collect();
        let mut scripts = vec![Vec::new(); objects.len() * NAMES];
        for step in of_kind(record::STEP) {
            scripts[method(step[1], step[2])].push(Operation::of(step));
        }
        let root = records[records.len() - 1];
        Session {
            lattice: Lattice::new(of_kind(record::LEVEL).map(|r| r[2]).collect()),
            objects,
            scripts,
            root_object: root[1],
            root_name: root[2],
            root_parameter: record::parameter(&root),
            step_records: of_kind(record::STEP).count(),
        }
    }

    /// The script of a name in the methods of an object of the session; an empty one
    /// if there is no such object.
    pub fn script(&self, methods_of: Option<u8>, name: u8) -> &[Operation] {
        match methods_of {
            Some(object) => &self.scripts[method(object, name)],
            None => &[],
        }
    }

    /// The level of an object of the session, or of a number that a level owns.
    pub fn level_of(&self, object: u8) -> usize {
        owner(object).unwrap_or_else(|| self.objects[usize::from(object)].level)
    }

    pub fn root_level(&self) -> usize {
        self.level_of(self.root_object)
    }
}

fn method(object: u8, name: u8) -> usize {
    usize::from(object) * NAMES + usize::from(name)
}

/// An accepted session emptied for a level: objects that the level does not
/// dominate have NIL fields and no scripts.
pub fn emptied(bytes: &[u8], level: usize) -> Vec<u8> {
    let session = Session::read(bytes);
    let is_shown = |object: u8| session.lattice.dominates(level, session.level_of(object));
    let left = |record: &Record| -> Option<Record> {
        match record[0] {
            record::OBJECT if !is_shown(record[1]) => Some(record::object(
                record::OBJECT,
                record[1],
                record[2],
                [None; FIELDS],
            )),
            record::STEP if !is_shown(record[1]) => None,
            _ => Some(*record),
        }
    };
    let records = record::records(bytes).iter().filter_map(left);
    records.collect::<Vec<Record>>().concat()
}
