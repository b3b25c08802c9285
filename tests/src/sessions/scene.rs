//! Levels with objects on all of them, for which shapes write scripts.

use super::draft::Draft;
use crate::limits::*;
use crate::random::Random;
use crate::record::Operation;
use crate::reference::{made_by, Lattice};

/// Names under which objects have ordinary methods.
pub const WORK_NAMES: usize = 3;

/// Step records that ordinary methods leave to the others.
const RESERVE: usize = 64;

pub struct Scene<'r> {
    pub random: &'r mut Random,
    pub lattice: Lattice,
    pub draft: Draft,
    /// Whether ordinary methods make and withdraw objects.
    pub with_objects: bool,
}

impl<'r> Scene<'r> {
    /// Objects on every level, up to 32 of them.
    pub fn new(random: &'r mut Random, masks: Vec<u8>) -> Self {
        let levels = masks.len();
        let count = if random.one_in(4) {
            random.size(levels, OBJECTS_MAX)
        } else {
            random.between(levels, levels + 6)
        };
        let mut placed: Vec<u8> = (0..levels as u8).collect();
        placed.extend((levels..count).map(|_| random.byte_below(levels)));
        random.shuffle(&mut placed);
        let objects = placed
            .into_iter()
            .map(|level| (level, [(); FIELDS].map(|()| random.value())))
            .collect();
        let draft = Draft {
            masks: masks.clone(),
            objects,
            root_parameter: random.value(),
            ..Draft::default()
        };
        Scene {
            with_objects: random.one_in(3),
            random,
            lattice: Lattice::new(masks),
            draft,
        }
    }

    pub fn level_of(&self, object: u8) -> usize {
        usize::from(self.draft.objects[usize::from(object)].0)
    }

    /// A random object at a level.
    pub fn object_at(&mut self, level: usize) -> u8 {
        self.object_where(|_, other| other == level)
            .expect("every level has an object")
    }

    /// A random object whose level passes, if there is one.
    pub fn object_where(&mut self, passes: impl Fn(&Lattice, usize) -> bool) -> Option<u8> {
        let objects: Vec<u8> = (0..self.draft.objects.len() as u8)
            .filter(|&object| passes(&self.lattice, self.level_of(object)))
            .collect();
        (!objects.is_empty()).then(|| self.random.pick(&objects))
    }

    pub fn object_above(&mut self, level: usize) -> Option<u8> {
        self.object_where(|lattice, other| lattice.strictly_dominates(other, level))
    }

    pub fn object_below(&mut self, level: usize) -> Option<u8> {
        self.object_where(|lattice, other| lattice.strictly_dominates(level, other))
    }

    /// A number that a level owns, the first more often: it is the first one used.
    pub fn owned_by(&mut self, level: usize) -> u8 {
        let numbers: Vec<u8> = made_by(level).collect();
        let any = self.random.pick(&numbers);
        self.random.pick(&[numbers[0], numbers[0], any, any])
    }

    /// A step that makes or withdraws an object, or sends to one that a level may have
    /// made.
    pub fn object_step(&mut self) -> Operation {
        let a = self.random.byte_below(REGISTERS);
        match self.random.below(8) {
            0..=2 => Operation::Create { a },
            3 => Operation::Withdraw,
            _ => {
                let level = self.random.below(self.draft.masks.len());
                let object = self.owned_by(level);
                self.send_work(object)
            }
        }
    }

    /// The level that all others dominate.
    pub fn lowest_level(&self) -> usize {
        let bottom = self.lattice.bottom();
        bottom.expect("levels with meets have a bottom")
    }

    /// The level that dominates all others.
    pub fn top_level(&self) -> usize {
        self.lattice.top().expect("levels with joins have a top")
    }

    /// Whether there is room for more ordinary methods.
    pub fn has_room(&self) -> bool {
        self.draft.step_records() + RESERVE < STEP_RECORDS_MAX
    }

    /// Adds a method under a name of its own and gives the name.
    pub fn add(&mut self, object: u8, script: Vec<Operation>) -> u8 {
        let taken = |name: &u8| self.draft.methods.contains_key(&(object, *name));
        let free: Vec<u8> = (WORK_NAMES as u8..NAMES as u8)
            .filter(|name| !taken(name))
            .collect();
        // With no name left the last method is replaced.
        let name = match free.is_empty() {
            true => NAMES as u8 - 1,
            false => self.random.pick(&free),
        };
        self.draft.put(object, name, script);
        name
    }

    pub fn start(&mut self, object: u8, name: u8) {
        self.draft.root_object = object;
        self.draft.root_name = name;
    }

    /// Starts with a new method of the object, which replies a number half of
    /// the time.
    pub fn start_with(&mut self, object: u8, mut script: Vec<Operation>) {
        if script.len() + 2 <= METHOD_STEPS_MAX && self.random.one_in(2) {
            let (a, n) = (self.random.byte_below(REGISTERS), self.random.number());
            script.extend([Operation::Set { a, n }, Operation::Quit { a }]);
        }
        let name = self.add(object, script);
        self.start(object, name);
    }

    /// Starts at the object, or at one below it that sends there.
    pub fn start_here_or_below(&mut self, object: u8, name: u8) {
        let level = self.level_of(object);
        match self.object_below(level) {
            Some(sender) if self.random.one_in(2) => {
                let a = self.random.byte_below(REGISTERS);
                let mut script = self.filler(3);
                script.push(Operation::Send { a, name, object });
                script.extend(self.filler(2));
                self.start_with(sender, script);
            }
            _ => self.start(object, name),
        }
    }

    /// Up to `most` steps that neither send, jump, write nor end a frame.
    pub fn filler(&mut self, most: usize) -> Vec<Operation> {
        let count = self.random.below(most + 1);
        (0..count)
            .map(|_| {
                let a = self.random.byte_below(REGISTERS);
                self.quiet(a)
            })
            .collect()
    }

    /// A step that neither sends, jumps, writes nor ends a frame.
    pub fn quiet(&mut self, a: u8) -> Operation {
        let n = self.random.number();
        match self.random.below(3) {
            0 => Operation::Set { a, n },
            1 => Operation::Add {
                a,
                b: self.random.byte_below(REGISTERS),
            },
            _ => self.read(a),
        }
    }

    pub fn read(&mut self, a: u8) -> Operation {
        let field = self.random.byte_below(FIELDS);
        Operation::Read { a, field }
    }

    pub fn write(&mut self) -> Operation {
        Operation::Write {
            a: self.random.byte_below(REGISTERS),
            field: self.random.byte_below(FIELDS),
        }
    }

    /// A send with a number in its register, and the register.
    pub fn numbered_send(&mut self, name: u8, object: u8) -> (u8, Vec<Operation>) {
        let a = self.random.byte_below(2);
        let n = self.random.number();
        let send = Operation::Send { a, name, object };
        (a, vec![Operation::Set { a, n }, send])
    }

    /// A send with a number in its register, which is written afterwards: so it
    /// shows whether the reply is NIL.
    pub fn watched_send(&mut self, name: u8, object: u8) -> Vec<Operation> {
        let (a, mut script) = self.numbered_send(name, object);
        let field = self.random.byte_below(FIELDS);
        script.push(Operation::Write { a, field });
        script
    }

    /// A send to a method that mostly has steps.
    pub fn send_work(&mut self, object: u8) -> Operation {
        let name = match self.random.one_in(12) {
            true => self.random.byte_below(NAMES),
            false => self.random.byte_below(WORK_NAMES),
        };
        let a = self.random.byte_below(REGISTERS);
        Operation::Send { a, name, object }
    }
}

/// The body `count` times, at least once, with registers 2 and 3 to count and register
/// 1 NIL: 1 + count × (body + 3) steps. It counts up, as no number can be added to count
/// down; the sum that passes the largest number ends it.
pub fn counted(count: u32, body: Vec<Operation>) -> Vec<Operation> {
    let n = u32::MAX - (count - 1);
    let mut script = vec![Operation::Set { a: 2, n }, Operation::Set { a: 3, n: 1 }];
    script.extend(body);
    script.push(Operation::Add { a: 2, b: 3 });
    let end = script.len() as u8 + 2;
    script.push(Operation::Jump { a: 2, target: end });
    script.push(Operation::Jump { a: 1, target: 2 });
    script
}
