//! The depth-first run: a fork that is made and kept runs whole, forks
//! included, before its sender continues. Fields and existence are simply current.

use super::fork::Fork;
use super::manager::{Manager, World};
use super::objects::{initial, Existence, Object};
use super::outcome::Outcome;
use super::session::Session;
use crate::limits::*;
use crate::record::{History, Value};
use crate::tally::{Event, Tally};

pub struct DepthFirst<'a> {
    session: &'a Session,
    objects: Vec<Object<Value, Existence>>,
    levels: Vec<Level>,
    reply: Value,
    tally: &'a mut Tally,
}

#[derive(Default)]
struct Level {
    /// Forks that reached the level, kept or dropped.
    reached: usize,
    ended: Vec<History>,
}

impl<'a> DepthFirst<'a> {
    pub fn run(session: &'a Session, tally: &'a mut Tally) -> Outcome {
        let mut run = DepthFirst {
            session,
            objects: initial(session),
            levels: session.lattice.levels().map(|_| Level::default()).collect(),
            reply: None,
            tally,
        };
        run.run_manager(Fork::root(session));
        for level in &run.levels {
            if level.reached == KEPT_MAX {
                run.tally.saw(Event::ThirtyTwoForks);
            }
        }
        let left = |object: Object<Value, Existence>| {
            let is_there = object.existence.is_there();
            is_there.then_some(object.fields)
        };
        Outcome {
            objects: run.objects.into_iter().map(left).collect(),
            histories: run.levels.into_iter().map(|level| level.ended).collect(),
            reply: run.reply,
        }
    }

    fn run_manager(&mut self, fork: Fork) {
        let level = fork.level;
        let is_root = fork.depth == 0;
        // No manager of this level is running: those below the stack's top lie
        // at strictly dominated levels.
        let last = self.levels[level].ended.last();
        let write_stamp = last.map_or(1, |last| u32::from(last.last_write_stamp) + 1);
        let mut manager = Manager::start(fork, write_stamp, self.session, self);
        while !manager.has_ended() {
            manager.step(self.session, self);
        }
        let (history, reply) = manager.end();
        if is_root {
            self.reply = reply;
            if history.ending > 0 {
                self.saw(Event::ReplyLost);
            }
        }
        self.levels[level].ended.push(history);
    }
}

impl World for DepthFirst<'_> {
    fn read(&mut self, _: &Manager, object: u8, field: u8) -> Value {
        self.objects[usize::from(object)].fields[usize::from(field)]
    }

    fn write(&mut self, _: &Manager, object: u8, field: u8, value: Value) {
        self.objects[usize::from(object)].fields[usize::from(field)] = value;
    }

    fn existence(&self, _: &Manager, object: u8) -> Existence {
        self.newest_existence(object)
    }

    fn newest_existence(&self, object: u8) -> Existence {
        self.objects[usize::from(object)].existence
    }

    fn change_existence(&mut self, _: &Manager, object: u8, existence: Existence) {
        self.objects[usize::from(object)].existence = existence;
    }

    fn ended(&self, level: usize) -> &[History] {
        &self.levels[level].ended
    }

    fn fork(&mut self, fork: Fork) {
        let level = &mut self.levels[fork.level];
        level.reached += 1;
        // Forks are made in the order of their stamps, so the first are the
        // smallest.
        if level.reached <= KEPT_MAX {
            self.run_manager(fork);
        } else {
            if level.reached == KEPT_MAX + 1 {
                self.saw(Event::ThirtyThirdFork);
            }
            self.saw(Event::ArrivingDropped);
        }
    }

    fn saw(&mut self, event: Event) {
        self.tally.saw(event);
    }
}
