//! The depth-first run.

use super::histories::Histories;
use super::manager::{Fork, Manager, World};
use super::tables::Tables;
use crate::library::Answer;
use crate::limits::*;
use crate::record::{fields, Value};

/// With room for so many objects: those of the session, or made ones too.
struct DepthFirst<'a, const N: usize> {
    tables: &'a Tables<'a>,
    fields: [[Value; FIELDS]; N],
    /// The object of the session whose methods each has; none if it is not there. Looked
    /// at only where objects are made or withdrawn.
    methods_of: [Option<u8>; N],
    /// Objects that each level has made.
    made: [u8; LEVELS_MAX],
    histories: Histories,
    reply: Value,
}

pub fn run(tables: &Tables, clearance: usize, result: &mut [u8]) -> Answer {
    match tables.changes_objects {
        true => run_with::<NUMBERS>(tables, clearance, result),
        false => run_with::<OBJECTS_MAX>(tables, clearance, result),
    }
}

#[inline(never)]
fn run_with<const N: usize>(tables: &Tables, clearance: usize, result: &mut [u8]) -> Answer {
    let mut run = DepthFirst {
        tables,
        fields: [[None; FIELDS]; N],
        methods_of: [None; N],
        made: [0; LEVELS_MAX],
        histories: Histories::new(),
        reply: None,
    };
    for (place, object) in run.fields.iter_mut().zip(tables.objects) {
        *place = fields(object);
    }
    if tables.changes_objects {
        for object in 0..tables.objects.len() {
            run.methods_of[object] = Some(object as u8);
        }
    }
    run.run_manager(tables.root_level(), &Fork::root(tables));
    let current = |object: u8| {
        let object = usize::from(object);
        let is_there = !tables.changes_objects || run.methods_of[object].is_some();
        is_there.then_some(run.fields[object])
    };
    run.histories
        .show(tables, clearance, run.reply, current, result)
}

impl<const N: usize> DepthFirst<'_, N> {
    fn run_manager(&mut self, level: u8, fork: &Fork) {
        let write_stamp = self.histories.next_write_stamp(level);
        let mut manager = Manager::new(level, fork, write_stamp, self.tables, self);
        manager.pop_finished();
        let mut ending = manager.is_empty().then_some(0);
        while ending.is_none() {
            ending = manager.step(self.tables, self);
        }
        let history = manager.history(ending.unwrap_or(0));
        self.histories.push(history);
        if history.fork_stamp == 0 {
            self.reply = manager.reply;
        }
    }
}

impl<const N: usize> World for DepthFirst<'_, N> {
    const CHANGES: bool = N == NUMBERS;

    #[inline]
    fn read(&mut self, _: &Manager, object: u8, _: u8, field: u8) -> Value {
        self.fields[usize::from(object)][usize::from(field)]
    }

    #[inline]
    fn write(&mut self, _: &Manager, object: u8, field: u8, value: Value) {
        self.fields[usize::from(object)][usize::from(field)] = value;
    }

    #[inline]
    fn methods_of(&mut self, _: &Manager, object: u8, _: u8) -> Option<u8> {
        self.methods_of[usize::from(object)]
    }

    fn change_existence(&mut self, _: &Manager, object: u8, methods_of: Option<u8>) {
        self.methods_of[usize::from(object)] = methods_of;
    }

    fn made(&mut self, level: u8) -> &mut u8 {
        &mut self.made[usize::from(level)]
    }

    fn fork(&mut self, level: u8, fork: Fork) {
        // The first forks to arrive are those of smallest stamp, and none of
        // them is running: managers on the way here are strictly below.
        if self.histories.of(level).len() < KEPT_MAX {
            self.run_manager(level, &fork);
        }
    }
}
