//! A message manager and its script steps, the same in every run. What differs
//! from run to run is the `World`: where fields are kept and what a fork does.

use super::filter::{filter, Delivery};
use super::fork::{Ancestor, Fork};
use super::notes::note_sum;
use super::objects::{owner, Existence};
use super::session::Session;
use crate::limits::*;
use crate::record::{History, Operation, Value};
use crate::tally::Event;

/// What a run provides for its managers.
pub trait World {
    fn read(&mut self, reader: &Manager, object: u8, field: u8) -> Value;
    fn write(&mut self, writer: &Manager, object: u8, field: u8, value: Value);
    /// Whether an object is there, as a READ would see it.
    fn existence(&self, reader: &Manager, object: u8) -> Existence;
    fn newest_existence(&self, object: u8) -> Existence;
    fn change_existence(&mut self, writer: &Manager, object: u8, existence: Existence);
    /// The managers of a level that have ended, in stamp order. For the tally alone.
    fn ended(&self, level: usize) -> &[History];
    /// A fork that is made; the world keeps or drops it.
    fn fork(&mut self, fork: Fork);
    fn saw(&mut self, event: Event);
}

pub(super) struct Frame {
    pub object: u8,
    /// Of whose methods the frame was made; of none if the object was not there.
    methods_of: Option<u8>,
    name: u8,
    /// The step to be made next, counted from 0.
    pub next: usize,
    pub registers: [Value; REGISTERS],
    /// By what operation each register lost a number and is NIL since, if so.
    pub lost: [Option<Event>; REGISTERS],
    /// The last JUMP backward: its target and its place. For the tally alone.
    pub turned: Option<(usize, usize)>,
    /// The sender's register that gets the reply, if any.
    reply_to: Option<u8>,
}

pub struct Manager {
    pub level: usize,
    pub fork_stamp: u32,
    pub ancestors: Vec<Ancestor>,
    depth: u32,
    pub(super) frames: Vec<Frame>,
    pub(super) steps: u32,
    pub(super) writes: u32,
    forks: u32,
    first_write_stamp: u32,
    pub write_stamp: u32,
    pub(super) ending: Option<u8>,
    reply: Value,
}

impl Manager {
    /// Makes the first frame. An empty first method ends in the start.
    pub fn start(fork: Fork, write_stamp: u32, session: &Session, world: &mut impl World) -> Self {
        let mut manager = Manager {
            level: fork.level,
            fork_stamp: fork.stamp,
            ancestors: fork.ancestors,
            depth: fork.depth,
            frames: Vec::new(),
            steps: 0,
            writes: 0,
            forks: 0,
            first_write_stamp: write_stamp,
            write_stamp,
            ending: None,
            reply: None,
        };
        if write_stamp > 1 {
            world.saw(Event::NextManager);
        }
        if fork.depth == 7 {
            world.saw(Event::SevenDeep);
        }
        if fork.depth >= 2 && session.lattice.top() == Some(fork.level) {
            world.saw(Event::NestedToTop);
        }
        if fork.depth > 0 {
            manager.note_start(fork.object, fork.was_there, world);
        }
        manager.push(fork.object, fork.name, fork.parameter, None, world);
        manager.pop_finished(0, session, world);
        if manager.frames.is_empty() {
            world.saw(Event::EmptyManager);
            manager.ending = Some(0);
        }
        manager
    }

    pub fn has_ended(&self) -> bool {
        self.ending.is_some()
    }

    /// One script step.
    pub fn step(&mut self, session: &Session, world: &mut impl World) {
        let frame = self
            .frames
            .last_mut()
            .expect("a running manager has frames");
        let script = session.script(frame.methods_of, frame.name);
        let operation = script[frame.next];
        frame.next += 1;
        self.steps += 1;
        let mut pops = 0;
        match operation {
            Operation::Set { a, n } => self.set(a, Some(n)),
            Operation::Add { a, b } => self.add(a, b, world),
            Operation::Jump { a, target } => {
                if self.register(a).unwrap_or(0) == 0 {
                    self.jump(a, usize::from(target), script.len(), world);
                }
            }
            Operation::Read { a, field } => self.read(a, field, session, world),
            Operation::Write { a, field } => self.write(a, field, session, world),
            Operation::Create { a } => self.create(a, session, world),
            Operation::Withdraw => self.withdraw(session, world),
            Operation::Send { a, name, object } => {
                self.note_withdrawn(Event::WithdrawnSend, world);
                self.send(a, name, object, session, world);
            }
            Operation::Quit { a } => {
                self.note_withdrawn(Event::WithdrawnQuit, world);
                let (reply, lost) = (*self.register(a), self.top().lost[usize::from(a)]);
                self.pop(reply, lost, world);
                pops = 1;
            }
        }
        // Too many writes have ended the manager, and nothing pops.
        if self.has_ended() {
            self.note_too_many(script.len(), world);
            return;
        }
        self.pop_finished(pops, session, world);
        self.end_if_over(world);
    }

    fn end_if_over(&mut self, world: &mut impl World) {
        let is_last = self.steps == STEPS_MAX;
        if self.frames.is_empty() {
            self.ending = Some(0);
            if is_last {
                world.saw(Event::LastStepEmpties);
            }
        } else if is_last {
            self.ending = Some(1);
            world.saw(Event::LastStepLeaves);
        }
        if self.has_ended() && self.writes == WRITES_MAX {
            world.saw(Event::SixteenWrites);
        }
    }

    pub(super) fn top(&mut self) -> &mut Frame {
        self.frames
            .last_mut()
            .expect("a running manager has frames")
    }

    pub(super) fn register(&mut self, a: u8) -> &mut Value {
        &mut self.top().registers[usize::from(a)]
    }

    pub(super) fn set(&mut self, a: u8, value: Value) {
        *self.register(a) = value;
        self.top().lost[usize::from(a)] = None;
    }

    /// An operation after which the register is NIL.
    pub(super) fn lose(&mut self, a: u8, event: Event) {
        let had_number = self.register(a).take().is_some();
        if had_number {
            self.top().lost[usize::from(a)] = Some(event);
        }
    }

    pub(super) fn object(&self) -> u8 {
        self.frames
            .last()
            .expect("a running manager has frames")
            .object
    }

    /// A sum that passes the largest number is NIL.
    fn add(&mut self, a: u8, b: u8, world: &mut impl World) {
        let (x, y) = (*self.register(a), *self.register(b));
        let Some((x, y)) = x.zip(y) else {
            return self.set(a, None);
        };
        note_sum(x, y, a == b, world);
        match x.checked_add(y) {
            Some(sum) => self.set(a, Some(sum)),
            None => self.lose(a, Event::NilOfSum),
        }
    }

    fn jump(&mut self, a: u8, target: usize, length: usize, world: &mut impl World) {
        if target == length {
            world.saw(Event::JumpToEnd);
        }
        self.note_jump(a, target, world);
        self.top().next = target;
    }

    fn send(&mut self, a: u8, name: u8, object: u8, session: &Session, world: &mut impl World) {
        let from = session.level_of(self.object());
        let to = session.level_of(object);
        let parameter = *self.register(a);
        if self.is_nil_by_sum(a) {
            world.saw(Event::SumNilSent);
        }
        match filter(&session.lattice, self.level, from, to) {
            Delivery::Frame => {
                if from != to {
                    world.saw(Event::DownwardSend);
                }
                self.push(object, name, parameter, Some(a), world);
            }
            Delivery::FrameWithoutReply => {
                world.saw(Event::UpwardInside);
                if owner(object).is_some() {
                    world.saw(Event::UpwardToMade);
                }
                self.lose(
                    a,
                    match self.frames.len() {
                        FRAMES_MAX => Event::NilOfNinthUpward,
                        _ => Event::NilOfInside,
                    },
                );
                self.push(object, name, parameter, None, world);
            }
            Delivery::Fork(level) => {
                if level != to {
                    world.saw(Event::JoinAboveBoth);
                }
                self.lose(
                    a,
                    match self.forks {
                        FORKS_MAX => Event::NilOfSixteenth,
                        _ => Event::NilOfFork,
                    },
                );
                self.fork(level, (object, name), parameter, world);
            }
            Delivery::Nothing => {
                world.saw(Event::IncomparableSend);
                if owner(object).is_some() {
                    world.saw(Event::IncomparableToMade);
                }
                self.lose(a, Event::NilOfIncomparable);
            }
        }
    }

    /// A new frame, unless it is the ninth.
    fn push(
        &mut self,
        object: u8,
        name: u8,
        parameter: Value,
        reply_to: Option<u8>,
        world: &mut impl World,
    ) {
        if self.frames.len() == FRAMES_MAX {
            match reply_to {
                Some(a) => self.lose(a, Event::NilOfNinth),
                None => world.saw(Event::NinthFrameUpward),
            }
            world.saw(Event::NinthFrame);
            return;
        }
        let existence = world.existence(self, object);
        self.note_frame(object, existence, world);
        self.frames.push(Frame {
            object,
            methods_of: existence.methods_of(),
            name,
            next: 0,
            registers: [parameter, None, None, None],
            lost: [None; REGISTERS],
            turned: None,
            reply_to,
        });
        if self.frames.len() == FRAMES_MAX {
            world.saw(Event::EighthFrame);
        }
    }

    fn fork(
        &mut self,
        level: usize,
        (object, name): (u8, u8),
        parameter: Value,
        world: &mut impl World,
    ) {
        if self.forks == FORKS_MAX {
            world.saw(Event::SixteenthFork);
            return;
        }
        self.forks += 1;
        if self.forks == FORKS_MAX {
            world.saw(Event::FifteenthFork);
        }
        let mut ancestors = self.ancestors.clone();
        ancestors.push(Ancestor {
            level: self.level,
            fork_stamp: self.fork_stamp,
            write_stamp: self.write_stamp,
        });
        self.write_stamp += 1;
        let was_there = world.newest_existence(object).is_there();
        world.fork(Fork {
            level,
            stamp: self.fork_stamp + self.forks * 16u32.pow(7 - self.depth),
            depth: self.depth + 1,
            ancestors,
            object,
            name,
            parameter,
            was_there,
        });
    }

    /// The top frame replies and goes. A reply that is NIL may be so by a loss.
    fn pop(&mut self, reply: Value, lost: Option<Event>, world: &mut impl World) {
        let frame = self.frames.pop().expect("a running manager has frames");
        match (self.frames.last_mut(), frame.reply_to) {
            (None, _) => {
                self.reply = reply;
                self.note_reply(lost, world);
            }
            (Some(sender), Some(a)) => {
                sender.registers[usize::from(a)] = reply;
                sender.lost[usize::from(a)] = lost;
            }
            (Some(_), None) if reply.is_some() => world.saw(Event::ReplyThrownAway),
            (Some(_), None) => {}
        }
    }

    /// Pops top frames at their script's end. `pops` were made before in the step.
    fn pop_finished(&mut self, pops: usize, session: &Session, world: &mut impl World) {
        let mut count = pops;
        while let Some(frame) = self.frames.last() {
            let length = session.script(frame.methods_of, frame.name).len();
            if frame.next < length {
                break;
            }
            if length == 0 {
                world.saw(Event::EmptyFrame);
            }
            self.pop(None, None, world);
            count += 1;
        }
        if pops > 0 && count > pops {
            world.saw(Event::PopAfterQuit);
        }
        match count {
            0 | 1 => {}
            2 => world.saw(Event::TwoPops),
            _ => world.saw(Event::ManyPops),
        }
    }

    /// What the result tells of the manager, and its reply, once it has ended.
    pub fn end(&self) -> (History, Value) {
        let history = History {
            level: self.level as u8,
            ending: self.ending.expect("only ended managers have a history"),
            writes: self.writes as u8,
            fork_stamp: self.fork_stamp,
            first_write_stamp: self.first_write_stamp as u16,
            last_write_stamp: self.write_stamp as u16,
            steps: self.steps as u16,
        };
        (history, self.reply)
    }
}
