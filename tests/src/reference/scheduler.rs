//! The level scheduler: managers that wait, run and end at each level, and the
//! versions of the fields and of the objects' existence.

use super::fork::Fork;
use super::level::Level;
use super::manager::{Manager, World};
use super::objects::{initial, Existence, Object};
use super::outcome::Outcome;
use super::session::Session;
use super::versions::Versions;
use crate::limits::*;
use crate::record::{History, Value};
use crate::tally::{Event, Tally};
use std::collections::HashMap;

type Kept = Object<Versions<Value>, Versions<Existence>>;

pub struct Scheduler<'a> {
    pub(super) session: &'a Session,
    pub(super) levels: Vec<Level>,
    /// By number.
    objects: Vec<Kept>,
    reply: Value,
    /// For a level, an object and a field of another level: the fork stamp of the
    /// manager that read it last, and what it read. For the tally alone.
    reads: HashMap<(usize, u8, u8), (u32, Value)>,
    /// Whether a step was made that the conservative rule refuses. For the tally
    /// alone.
    pub(super) is_early: bool,
    pub(super) tally: &'a mut Tally,
}

impl<'a> Scheduler<'a> {
    /// The session as read in: the root's manager waits, no other is there.
    pub fn new(session: &'a Session, tally: &'a mut Tally) -> Self {
        let kept = |object: Object<Value, Existence>| Kept {
            fields: object.fields.map(Versions::initial),
            existence: Versions::initial(object.existence),
        };
        let mut levels: Vec<Level> = session.lattice.levels().map(|_| Level::default()).collect();
        levels[session.root_level()]
            .waiting
            .push(Fork::root(session));
        Scheduler {
            session,
            levels,
            objects: initial(session).into_iter().map(kept).collect(),
            reply: None,
            reads: HashMap::new(),
            is_early: false,
            tally,
        }
    }

    pub fn all_ended(&self) -> bool {
        !self.levels.iter().any(Level::has_manager)
    }

    /// A scheduler step at a level that may step.
    pub fn step(&mut self, level: u8) {
        let level = usize::from(level);
        let manager = match self.levels[level].running.take() {
            Some(mut manager) => {
                manager.step(self.session, self);
                manager
            }
            None => self.start(level),
        };
        if manager.has_ended() {
            self.end(&manager);
        } else {
            self.levels[level].running = Some(manager);
        }
    }

    /// Starts the waiting manager of smallest fork stamp.
    fn start(&mut self, level: usize) -> Manager {
        let last = self.levels[level].ended.last();
        let write_stamp = last.map_or(1, |last| u32::from(last.last_write_stamp) + 1);
        let fork = self.levels[level].waiting.remove(0);
        Manager::start(fork, write_stamp, self.session, self)
    }

    fn end(&mut self, manager: &Manager) {
        let (history, reply) = manager.end();
        self.levels[manager.level].ended.push(history);
        if manager.ancestors.is_empty() {
            self.reply = reply;
            if history.ending > 0 {
                self.saw(Event::ReplyLost);
            }
        }
    }

    /// The newest write stamp that a reader may see at a level.
    fn newest_seen(&self, reader: &Manager, level: usize) -> u32 {
        if level == reader.level {
            return u32::MAX;
        }
        let mut ancestors = reader.ancestors.iter();
        if let Some(ancestor) = ancestors.find(|ancestor| ancestor.level == level) {
            return ancestor.write_stamp;
        }
        let earlier = self.levels[level].ended.iter();
        let last = earlier
            .filter(|history| history.fork_stamp < reader.fork_stamp)
            .max_by_key(|history| history.fork_stamp);
        last.map_or(0, |history| u32::from(history.last_write_stamp))
    }

    /// Notes what a manager read at another level than its own.
    fn note_read(&mut self, reader: &Manager, object: u8, field: u8, value: Value) {
        if self.tally.is_idle() {
            return;
        }
        let place = (reader.level, object, field);
        match self.reads.insert(place, (reader.fork_stamp, value)) {
            Some((stamp, _)) if stamp == reader.fork_stamp => self.saw(match value {
                Some(_) => Event::NumberReadAgain,
                None => Event::NilReadAgain,
            }),
            Some((_, before)) if before != value => self.saw(Event::ReadByTheNext),
            _ => {}
        }
    }

    /// What all managers, once ended, have left.
    pub fn outcome(self) -> Outcome {
        let tally = self.tally;
        if self.is_early {
            tally.saw(Event::EarlyFinished);
        }
        for level in &self.levels {
            if level.reached == KEPT_MAX {
                tally.saw(Event::ThirtyTwoForks);
            }
        }
        let left = |object: Kept| {
            let is_there = object.existence.newest().is_there();
            is_there.then(|| object.fields.map(|field| field.newest()))
        };
        Outcome {
            objects: self.objects.into_iter().map(left).collect(),
            histories: self.levels.into_iter().map(|level| level.ended).collect(),
            reply: self.reply,
        }
    }
}

impl World for Scheduler<'_> {
    fn read(&mut self, reader: &Manager, object: u8, field: u8) -> Value {
        let level = self.session.level_of(object);
        let seen = self.newest_seen(reader, level);
        let versions = &self.objects[usize::from(object)].fields[usize::from(field)];
        let (value, is_older) = versions.not_above(seen);
        if is_older {
            let mut ancestors = reader.ancestors.iter();
            if ancestors.any(|ancestor| ancestor.level == level) {
                self.saw(Event::OlderAtAncestor);
            } else {
                self.saw(Event::OlderElsewhere);
                if seen == 0 {
                    self.saw(Event::InitialElsewhere);
                }
            }
        }
        if level != reader.level {
            self.note_read(reader, object, field, value);
        }
        value
    }

    fn write(&mut self, writer: &Manager, object: u8, field: u8, value: Value) {
        let versions = &mut self.objects[usize::from(object)].fields[usize::from(field)];
        if versions.put(writer.write_stamp, value) {
            self.saw(Event::WriteReplaced);
        }
    }

    fn existence(&self, reader: &Manager, object: u8) -> Existence {
        let seen = self.newest_seen(reader, self.session.level_of(object));
        let versions = &self.objects[usize::from(object)].existence;
        let (existence, _) = versions.not_above(seen);
        existence
    }

    fn newest_existence(&self, object: u8) -> Existence {
        self.objects[usize::from(object)].existence.newest()
    }

    fn change_existence(&mut self, writer: &Manager, object: u8, existence: Existence) {
        let versions = &mut self.objects[usize::from(object)].existence;
        if versions.put(writer.write_stamp, existence) {
            self.saw(Event::ExistenceReplaced);
        }
    }

    fn ended(&self, level: usize) -> &[History] {
        &self.levels[level].ended
    }

    fn fork(&mut self, fork: Fork) {
        let stamp = fork.stamp;
        let level = &mut self.levels[fork.level];
        level.reached += 1;
        let is_next = level.reached == KEPT_MAX + 1;
        let place = level.waiting.partition_point(|other| other.stamp < stamp);
        level.waiting.insert(place, fork);
        // Forks that have started were smaller than any that still arrive, so
        // the largest one is a waiting one.
        let dropped = if level.kept() > KEPT_MAX {
            level.waiting.pop()
        } else {
            None
        };
        if let Some(fork) = &dropped {
            let least = level.least_dropped.get_or_insert(fork.stamp);
            *least = fork.stamp.min(*least);
        }
        if is_next {
            self.saw(Event::ThirtyThirdFork);
        }
        match dropped {
            Some(fork) if fork.stamp == stamp => self.saw(Event::ArrivingDropped),
            Some(_) => self.saw(Event::WaitingDropped),
            None => {}
        }
    }

    fn saw(&mut self, event: Event) {
        self.tally.saw(event);
    }
}
