//! A session being made.

use crate::limits::*;
use crate::record::{self, Operation, Record, Value};
use std::collections::BTreeMap;

#[derive(Clone, Default)]
pub struct Draft {
    pub masks: Vec<u8>,
    /// Level and fields of each object.
    pub objects: Vec<(u8, [Value; FIELDS])>,
    /// The scripts by object and name.
    pub methods: BTreeMap<(u8, u8), Vec<Operation>>,
    pub root_object: u8,
    pub root_name: u8,
    pub root_parameter: Value,
}

impl Draft {
    pub fn step_records(&self) -> usize {
        self.methods.values().map(Vec::len).sum()
    }

    /// Adds a method, cut where a method or the session has no room for more.
    pub fn put(&mut self, object: u8, name: u8, mut script: Vec<Operation>) {
        self.methods.remove(&(object, name));
        let room = STEP_RECORDS_MAX - self.step_records();
        script.truncate(room.min(METHOD_STEPS_MAX));
        let length = script.len() as u8;
        for operation in &mut script {
            if let Operation::Jump { target, .. } = operation {
                *target = (*target).min(length);
            }
        }
        if length > 0 {
            self.methods.insert((object, name), script);
        }
    }

    pub fn records(&self) -> Vec<Record> {
        let levels = (0..).zip(&self.masks);
        let mut records: Vec<Record> = levels.map(|(i, &mask)| record::level(i, mask)).collect();
        for (i, &(level, fields)) in (0..).zip(&self.objects) {
            records.push(record::object(record::OBJECT, i, level, fields));
        }
        for (&method, script) in &self.methods {
            records.extend(script.iter().map(|operation| operation.record(method)));
        }
        records.push(record::root(
            self.root_object,
            self.root_name,
            self.root_parameter,
        ));
        records
    }

    pub fn bytes(&self) -> Vec<u8> {
        self.records().concat()
    }
}
