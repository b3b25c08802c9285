//! A message manager and its script steps, for any `World` of objects and forks.

use super::tables::Tables;
use crate::limits::*;
use crate::record::{number_at, History, Value};
use crate::record::{ADD, CREATE, JUMP, READ, SEND, SET, WITHDRAW, WRITE};

/// No register takes the reply.
const NO_REPLY: u8 = u8::MAX;

/// What a run provides for its managers.
pub trait World {
    /// Whether objects may be made or withdrawn. If not, those of the session are there
    /// and no others, and the functions on existence are not called.
    const CHANGES: bool;

    fn read(&mut self, reader: &Manager, object: u8, level: u8, field: u8) -> Value;
    fn write(&mut self, writer: &Manager, object: u8, field: u8, value: Value);
    /// The object of the session whose methods an object has, as a READ would see it;
    /// none if it is not there.
    fn methods_of(&mut self, reader: &Manager, object: u8, level: u8) -> Option<u8>;
    fn change_existence(&mut self, writer: &Manager, object: u8, methods_of: Option<u8>);
    /// How many objects a level has made.
    fn made(&mut self, level: u8) -> &mut u8;
    fn fork(&mut self, level: u8, fork: Fork);
}

#[derive(Clone, Copy)]
pub struct Fork {
    pub stamp: u32,
    pub parameter: Value,
    pub object: u8,
    pub name: u8,
    pub depth: u8,
    /// For each level the write stamp of the ancestor's fork, 0 if none ran there.
    pub carried: [u16; LEVELS_MAX],
}

impl Fork {
    pub const NONE: Fork = Fork {
        stamp: 0,
        parameter: None,
        object: 0,
        name: 0,
        depth: 0,
        carried: [0; LEVELS_MAX],
    };

    pub fn root(tables: &Tables) -> Fork {
        Fork {
            parameter: tables.root_parameter(),
            object: tables.root[1],
            name: tables.root[2],
            ..Fork::NONE
        }
    }

    /// The largest stamp that a descendant could have. Those from the fork's own
    /// to this one are its descendants' alone.
    pub fn last_descendant(&self) -> u32 {
        self.stamp | u32::MAX >> (4 * self.depth)
    }
}

#[derive(Clone, Copy, Default)]
struct Frame {
    registers: [Value; REGISTERS],
    /// Steps as positions in the table of all steps.
    next: u16,
    start: u16,
    end: u16,
    object: u8,
    level: u8,
    reply_to: u8,
}

pub struct Manager {
    frames: [Frame; FRAMES_MAX],
    height: usize,
    pub level: u8,
    depth: u8,
    fork_stamp: u32,
    carried: [u16; LEVELS_MAX],
    steps: u16,
    writes: u8,
    forks: u8,
    first_write_stamp: u16,
    pub write_stamp: u16,
    pub reply: Value,
}

impl Manager {
    pub fn new(
        level: u8,
        fork: &Fork,
        write_stamp: u16,
        tables: &Tables,
        world: &mut impl World,
    ) -> Self {
        let mut manager = Manager {
            frames: [Frame::default(); FRAMES_MAX],
            height: 0,
            level,
            depth: fork.depth,
            fork_stamp: fork.stamp,
            carried: fork.carried,
            steps: 0,
            writes: 0,
            forks: 0,
            first_write_stamp: write_stamp,
            write_stamp,
            reply: None,
        };
        let message = (fork.object, fork.name);
        let level = tables.level_of(fork.object);
        manager.push(tables, world, message, level, fork.parameter, NO_REPLY);
        manager
    }

    /// Whether the stack is empty, which right after the start it is for an
    /// empty method.
    pub fn is_empty(&self) -> bool {
        self.height == 0
    }

    /// One script step; the ending, if it was the last.
    #[inline]
    pub fn step<W: World>(&mut self, tables: &Tables, world: &mut W) -> Option<u8> {
        let frame = &mut self.frames[self.height - 1];
        let step = &tables.steps[usize::from(frame.next)];
        let [_, _, _, operation, a, b, c, ..] = *step;
        let register = usize::from(a) % REGISTERS;
        frame.next += 1;
        self.steps += 1;
        match operation {
            SET => frame.registers[register] = Some(number_at(step, 8)),
            ADD => {
                let b = usize::from(b) % REGISTERS;
                let terms = (frame.registers[register], frame.registers[b]);
                frame.registers[register] = match terms {
                    (Some(x), Some(y)) => x.checked_add(y),
                    _ => None,
                };
            }
            JUMP => {
                if frame.registers[register].unwrap_or(0) == 0 {
                    frame.next = frame.start + u16::from(b);
                }
            }
            READ => {
                let (object, level) = (frame.object, frame.level);
                let value = match self.is_there(world, object, level) {
                    true => world.read(self, object, level, b),
                    false => None,
                };
                self.frames[self.height - 1].registers[register] = value;
            }
            WRITE => {
                if !self.write(world, register, b) {
                    return Some(2);
                }
            }
            SEND => self.send(tables, world, register, (c, b)),
            CREATE if W::CHANGES => {
                if !self.create(world, register) {
                    return Some(2);
                }
            }
            WITHDRAW if W::CHANGES => {
                if !self.withdraw(world) {
                    return Some(2);
                }
            }
            _ => {
                let reply = frame.registers[register];
                self.pop(reply);
            }
        }
        self.pop_finished();
        if self.height == 0 {
            Some(0)
        } else if u32::from(self.steps) == STEPS_MAX {
            Some(1)
        } else {
            None
        }
    }

    /// False for a seventeenth write, which is not made.
    #[inline]
    fn write(&mut self, world: &mut impl World, register: usize, field: u8) -> bool {
        let frame = &self.frames[self.height - 1];
        let (object, value) = (frame.object, frame.registers[register]);
        if frame.level == self.level && self.is_there(world, object, frame.level) {
            if u32::from(self.writes) == WRITES_MAX {
                return false;
            }
            self.writes += 1;
            world.write(self, object, field, value);
        }
        true
    }

    #[inline]
    fn is_there<W: World>(&self, world: &mut W, object: u8, level: u8) -> bool {
        !W::CHANGES || world.methods_of(self, object, level).is_some()
    }

    /// Whose methods the top frame's object has, if it is of the manager's level and
    /// there.
    fn changeable(&self, world: &mut impl World) -> Option<u8> {
        let frame = &self.frames[self.height - 1];
        let methods_of = world.methods_of(self, frame.object, frame.level);
        methods_of.filter(|_| frame.level == self.level)
    }

    /// False for one that passes 16 writes, which is not made.
    #[inline(never)]
    fn create(&mut self, world: &mut impl World, register: usize) -> bool {
        let methods_of = self.changeable(world);
        let made = world.made(self.level);
        let mut number = None;
        if methods_of.is_some() && usize::from(*made) < MADE_MAX {
            if u32::from(self.writes) + CREATE_WRITES > WRITES_MAX {
                return false;
            }
            self.writes += CREATE_WRITES as u8;
            let object = OBJECTS_MAX as u8 + MADE_MAX as u8 * self.level + *made;
            *made += 1;
            let [_, fields @ ..] = self.frames[self.height - 1].registers;
            for (field, value) in (0..).zip(fields) {
                world.write(self, object, field, value);
            }
            world.change_existence(self, object, methods_of);
            number = Some(u32::from(object));
        }
        self.frames[self.height - 1].registers[register] = number;
        true
    }

    /// False for one that passes 16 writes, which is not made.
    #[inline(never)]
    fn withdraw(&mut self, world: &mut impl World) -> bool {
        if self.changeable(world).is_some() {
            if u32::from(self.writes) == WRITES_MAX {
                return false;
            }
            self.writes += 1;
            let object = self.frames[self.height - 1].object;
            world.change_existence(self, object, None);
        }
        true
    }

    /// Apart from the step, which is smaller and faster without it.
    #[inline(never)]
    fn send(
        &mut self,
        tables: &Tables,
        world: &mut impl World,
        register: usize,
        (object, name): (u8, u8),
    ) {
        let frame = &mut self.frames[self.height - 1];
        let from = frame.level;
        let to = tables.level_of(object);
        let parameter = frame.registers[register];
        if tables.dominates(from, to) {
            if self.height == FRAMES_MAX {
                frame.registers[register] = None;
            } else {
                self.push(tables, world, (object, name), to, parameter, register as u8);
            }
            return;
        }
        frame.registers[register] = None;
        if !tables.dominates(to, from) {
            return;
        }
        let join = tables.join(self.level, to);
        if join != self.level {
            self.fork(world, join, (object, name), parameter);
        } else if self.height < FRAMES_MAX {
            self.push(tables, world, (object, name), to, parameter, NO_REPLY);
        }
    }

    /// A new frame of an object at a level; the caller knows that there is room for it.
    /// If the object is not there the method is empty.
    fn push<W: World>(
        &mut self,
        tables: &Tables,
        world: &mut W,
        (object, name): (u8, u8),
        level: u8,
        parameter: Value,
        reply_to: u8,
    ) {
        let methods_of = match W::CHANGES {
            true => world.methods_of(self, object, level),
            false => (usize::from(object) < OBJECTS_MAX).then_some(object),
        };
        let script = methods_of.map(|object| tables.script(object, name));
        let (start, end) = script.unwrap_or((0, 0));
        self.frames[self.height] = Frame {
            registers: [parameter, None, None, None],
            next: start,
            start,
            end,
            object,
            level,
            reply_to,
        };
        self.height += 1;
    }

    fn fork(
        &mut self,
        world: &mut impl World,
        level: u8,
        (object, name): (u8, u8),
        parameter: Value,
    ) {
        if u32::from(self.forks) == FORKS_MAX {
            return;
        }
        self.forks += 1;
        let mut carried = self.carried;
        carried[usize::from(self.level)] = self.write_stamp;
        self.write_stamp += 1;
        let fork = Fork {
            stamp: self.fork_stamp + (u32::from(self.forks) << (4 * (7 - self.depth))),
            parameter,
            object,
            name,
            depth: self.depth + 1,
            carried,
        };
        world.fork(level, fork);
    }

    fn pop(&mut self, reply: Value) {
        self.height -= 1;
        let register = usize::from(self.frames[self.height].reply_to);
        if self.height == 0 {
            self.reply = reply;
        } else if register < REGISTERS {
            self.frames[self.height - 1].registers[register] = reply;
        }
    }

    #[inline]
    pub fn pop_finished(&mut self) {
        while self.height > 0 {
            let frame = &self.frames[self.height - 1];
            if frame.next < frame.end {
                return;
            }
            self.pop(None);
        }
    }

    pub fn history(&self, ending: u8) -> History {
        History {
            level: self.level,
            ending,
            writes: self.writes,
            fork_stamp: self.fork_stamp,
            first_write_stamp: self.first_write_stamp,
            last_write_stamp: self.write_stamp,
            steps: self.steps,
        }
    }
}
