//! The timetabled and the plain run.

use super::histories::Histories;
use super::manager::{Fork, Manager, World};
use super::tables::Tables;
use super::versions::{existence, number, Versions, View, ALL, GIVEN};
use crate::library::Answer;
use crate::limits::*;
use crate::record::Value;

/// The forks kept at a level, in stamp order; the first of them have started.
struct Queue {
    forks: [Fork; KEPT_MAX],
    count: usize,
    started: usize,
}

/// With versions of so many fields.
struct Scheduler<'a, const N: usize> {
    tables: &'a Tables<'a>,
    queues: [Queue; LEVELS_MAX],
    /// Levels with a manager that has not ended, one bit for each.
    active: u8,
    versions: Versions<'a, N>,
    /// What the running manager of each level sees.
    views: [View<N>; LEVELS_MAX],
    /// Objects that each level has made.
    made: [u8; LEVELS_MAX],
    histories: Histories,
    reply: Value,
}

pub fn run_timetable(
    tables: &Tables,
    timetable: &[u8],
    clearance: usize,
    work: &mut [u32],
    result: &mut [u8],
) -> Answer {
    match tables.changes_objects {
        true => timetabled::<ALL>(tables, timetable, clearance, work, result),
        false => timetabled::<GIVEN>(tables, timetable, clearance, work, result),
    }
}

/// Apart from the other number of fields, without which the loop is faster.
#[inline(never)]
fn timetabled<const N: usize>(
    tables: &Tables,
    timetable: &[u8],
    clearance: usize,
    work: &mut [u32],
    result: &mut [u8],
) -> Answer {
    let mut scheduler = Scheduler::<N>::new(tables, work);
    let mut running = [const { None }; LEVELS_MAX];
    for (position, &level) in timetable.iter().enumerate() {
        let Some(running) = running.get_mut(usize::from(level)) else {
            return Answer::refused(12, position);
        };
        let number = scheduler.step(level, running);
        if number != 0 {
            return Answer::refused(number, position);
        }
    }
    if scheduler.active != 0 {
        return Answer::refused(15, 0);
    }
    scheduler.show(clearance, result)
}

pub fn run_plain(tables: &Tables, clearance: usize, work: &mut [u32], result: &mut [u8]) -> Answer {
    match tables.changes_objects {
        true => plain::<ALL>(tables, clearance, work, result),
        false => plain::<GIVEN>(tables, clearance, work, result),
    }
}

#[inline(never)]
fn plain<const N: usize>(
    tables: &Tables,
    clearance: usize,
    work: &mut [u32],
    result: &mut [u8],
) -> Answer {
    let mut scheduler = Scheduler::<N>::new(tables, work);
    // Every order that is allowed leaves the same. This one runs a level to its
    // end once none below it has managers: those that it forks are above it.
    while let Some(level) = scheduler.lowest() {
        while scheduler.active >> level & 1 == 1 {
            scheduler.run_next(level);
        }
    }
    scheduler.show(clearance, result)
}

impl<'a, const N: usize> Scheduler<'a, N> {
    fn new(tables: &'a Tables<'a>, work: &'a mut [u32]) -> Self {
        const EMPTY: Queue = Queue {
            forks: [Fork::NONE; KEPT_MAX],
            count: 0,
            started: 0,
        };
        let mut scheduler = Scheduler {
            tables,
            queues: [EMPTY; LEVELS_MAX],
            active: 0,
            versions: Versions::new(work),
            views: [View::INITIAL; LEVELS_MAX],
            made: [0; LEVELS_MAX],
            histories: Histories::new(),
            reply: None,
        };
        scheduler.fork(tables.root_level(), Fork::root(tables));
        scheduler
    }

    /// A scheduler step, or the number of the question that refuses it.
    #[inline]
    fn step(&mut self, level: u8, running: &mut Option<Manager>) -> u32 {
        // A manager that runs may step: it was not held back when it started, and
        // what is forked below it from then on has larger stamps.
        if let Some(manager) = running {
            if let Some(ending) = manager.step(self.tables, self) {
                self.end(manager, ending);
                *running = None;
            }
            return 0;
        }
        let number = self.refusal(level);
        if number != 0 {
            return number;
        }
        let manager = self.start(level);
        if manager.is_empty() {
            self.end(&manager, 0);
        } else {
            *running = Some(manager);
        }
        0
    }

    /// What questions 12 to 14 say of a level where no manager runs.
    fn refusal(&self, level: u8) -> u32 {
        if usize::from(level) >= self.tables.levels {
            12
        } else if self.active >> level & 1 == 0 {
            13
        } else if self.is_held_back(level) {
            14
        } else {
            0
        }
    }

    /// Whether a manager below the level's next one has a smaller stamp and is no
    /// ancestor. The first of each level tells: the others come after it and all
    /// that descend from it.
    fn is_held_back(&self, level: u8) -> bool {
        let stamp = self.first(level).stamp;
        let mut below = self.active & self.tables.strictly_dominated(level);
        while below != 0 {
            let lower = below.trailing_zeros() as u8;
            below &= below - 1;
            if self.first(lower).last_descendant() < stamp {
                return true;
            }
        }
        false
    }

    /// The fork of a level's first manager that has not ended.
    fn first(&self, level: u8) -> &Fork {
        let ended = self.histories.of(level).len();
        &self.queues[usize::from(level)].forks[ended]
    }

    /// The lowest-numbered level with managers that dominates no other with some.
    fn lowest(&self) -> Option<u8> {
        (0..self.tables.levels as u8).find(|&level| {
            self.active >> level & 1 == 1
                && self.active & self.tables.strictly_dominated(level) == 0
        })
    }

    /// Runs the level's next manager from start to end.
    fn run_next(&mut self, level: u8) {
        let mut manager = self.start(level);
        let mut ending = manager.is_empty().then_some(0);
        while ending.is_none() {
            ending = manager.step(self.tables, self);
        }
        self.end(&manager, ending.unwrap_or(0));
    }

    fn start(&mut self, level: u8) -> Manager {
        let queue = &mut self.queues[usize::from(level)];
        let fork = queue.forks[queue.started];
        queue.started += 1;
        let write_stamp = self.histories.next_write_stamp(level);
        let seen = self.seen(level, &fork);
        self.views[usize::from(level)].seen = seen;
        let mut manager = Manager::new(level, &fork, write_stamp, self.tables, self);
        manager.pop_finished();
        manager
    }

    /// What the reads of a manager may see. All managers below its level that are
    /// before it have ended, but for its ancestors, so it is the same for all its
    /// reads.
    fn seen(&self, level: u8, fork: &Fork) -> [u16; LEVELS_MAX] {
        let mut seen = fork.carried;
        let mut below = self.tables.strictly_dominated(level);
        while below != 0 {
            let lower = below.trailing_zeros() as u8;
            below &= below - 1;
            let stamp = &mut seen[usize::from(lower)];
            if *stamp == 0 {
                let ended = self.histories.of(lower);
                let earlier = ended.partition_point(|history| history.fork_stamp < fork.stamp);
                if earlier > 0 {
                    *stamp = ended[earlier - 1].last_write_stamp;
                }
            }
        }
        seen
    }

    fn end(&mut self, manager: &Manager, ending: u8) {
        let level = manager.level;
        let history = manager.history(ending);
        self.histories.push(history);
        if history.fork_stamp == 0 {
            self.reply = manager.reply;
        }
        let queue = &self.queues[usize::from(level)];
        if queue.started == queue.count {
            self.active &= !(1 << level);
        }
    }

    fn show(&self, clearance: usize, result: &mut [u8]) -> Answer {
        let newest = |number: usize| {
            let position = self.versions.newest(number);
            self.versions.value(self.tables, number, position)
        };
        let is_there = |object: u8| !Self::CHANGES || newest(existence(object)).is_some();
        let fields = |object: u8| {
            let fields = [0, 1, 2].map(|field| newest(number(object, field)));
            is_there(object).then_some(fields)
        };
        self.histories
            .show(self.tables, clearance, self.reply, fields, result)
    }

    /// What a manager sees of a field, or of an object's existence.
    #[inline]
    fn see(&mut self, reader: &Manager, number: usize, level: u8) -> Value {
        let position = if level == reader.level {
            self.versions.newest(number)
        } else {
            self.views[usize::from(reader.level)].find(&self.versions, number, level)
        };
        self.versions.value(self.tables, number, position)
    }
}

impl<const N: usize> World for Scheduler<'_, N> {
    const CHANGES: bool = N == ALL;

    #[inline]
    fn read(&mut self, reader: &Manager, object: u8, level: u8, field: u8) -> Value {
        self.see(reader, number(object, field), level)
    }

    #[inline]
    fn methods_of(&mut self, reader: &Manager, object: u8, level: u8) -> Option<u8> {
        let methods_of = self.see(reader, existence(object), level);
        methods_of.map(|object| object as u8)
    }

    fn change_existence(&mut self, writer: &Manager, object: u8, methods_of: Option<u8>) {
        let value = methods_of.map(u32::from);
        self.versions
            .write(existence(object), writer.write_stamp, value);
    }

    fn made(&mut self, level: u8) -> &mut u8 {
        &mut self.made[usize::from(level)]
    }

    #[inline]
    fn write(&mut self, writer: &Manager, object: u8, field: u8, value: Value) {
        self.versions
            .write(number(object, field), writer.write_stamp, value);
    }

    /// Keeps the 32 smallest.
    #[inline]
    fn fork(&mut self, level: u8, fork: Fork) {
        let queue = &mut self.queues[usize::from(level)];
        if queue.count == KEPT_MAX {
            if fork.stamp > queue.forks[KEPT_MAX - 1].stamp {
                return;
            }
            queue.count -= 1;
        }
        let mut place = queue.count;
        while place > queue.started && queue.forks[place - 1].stamp > fork.stamp {
            queue.forks[place] = queue.forks[place - 1];
            place -= 1;
        }
        queue.forks[place] = fork;
        queue.count += 1;
        self.active |= 1 << level;
    }
}
