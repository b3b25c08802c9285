//! An accepted session with what is looked up again and again worked out once.

use super::check::Parts;
use crate::limits::*;
use crate::record::{parameter, Record, Value, QUIT};

pub struct Tables<'a> {
    pub objects: &'a [Record],
    pub steps: &'a [Record],
    pub root: &'a Record,
    pub levels: usize,
    /// Whether a step makes or withdraws objects.
    pub changes_objects: bool,
    /// Bit k of masks[i]: level i dominates level k.
    masks: [u8; LEVELS_MAX],
    /// Bit k of above[i]: level k dominates level i.
    above: [u8; LEVELS_MAX],
    /// The step at which each method (object, name) starts; it ends where the
    /// next one starts.
    starts: [u16; OBJECTS_MAX * NAMES + 1],
}

impl<'a> Tables<'a> {
    pub fn new(parts: &Parts<'a>) -> Self {
        let mut masks = [0; LEVELS_MAX];
        let mut above = [0; LEVELS_MAX];
        for (k, level) in parts.levels.iter().enumerate() {
            masks[k] = level[2];
            for (i, set) in above.iter_mut().enumerate() {
                *set |= (level[2] >> i & 1) << k;
            }
        }
        let mut starts = [0; OBJECTS_MAX * NAMES + 1];
        let mut next = 0;
        let mut changes_objects = false;
        for (i, step) in parts.steps.iter().enumerate() {
            changes_objects |= step[3] > QUIT;
            let method = method(step[1], step[2]);
            while next <= method {
                starts[next] = i as u16;
                next += 1;
            }
        }
        starts[next..].fill(parts.steps.len() as u16);
        Tables {
            objects: parts.objects,
            steps: parts.steps,
            root: parts.root,
            levels: parts.levels.len(),
            changes_objects,
            masks,
            above,
            starts,
        }
    }

    /// Levels that the level dominates, one bit for each.
    pub fn dominated(&self, level: u8) -> u8 {
        self.masks[usize::from(level)]
    }

    pub fn strictly_dominated(&self, level: u8) -> u8 {
        self.masks[usize::from(level)] & !(1 << level)
    }

    pub fn dominates(&self, upper: u8, lower: u8) -> bool {
        self.dominated(upper) >> lower & 1 == 1
    }

    /// The least upper bound: the levels above it are all common upper bounds.
    pub fn join(&self, a: u8, b: u8) -> u8 {
        let bounds = self.above[usize::from(a)] & self.above[usize::from(b)];
        let mut rest = bounds;
        while rest != 0 {
            let level = rest.trailing_zeros() as u8;
            if self.above[usize::from(level)] == bounds {
                return level;
            }
            rest &= rest - 1;
        }
        unreachable!("in an accepted session every pair has a least upper bound")
    }

    /// The level of an object of the session, or the one that owns the number.
    pub fn level_of(&self, object: u8) -> u8 {
        match self.objects.get(usize::from(object)) {
            Some(object) => object[2],
            None => (object - OBJECTS_MAX as u8) / MADE_MAX as u8,
        }
    }

    /// The first step of a method and the step behind its last.
    pub fn script(&self, object: u8, name: u8) -> (u16, u16) {
        let method = method(object, name);
        (self.starts[method], self.starts[method + 1])
    }

    pub fn root_level(&self) -> u8 {
        self.level_of(self.root[1])
    }

    pub fn root_parameter(&self) -> Value {
        parameter(self.root)
    }
}

fn method(object: u8, name: u8) -> usize {
    usize::from(object) * NAMES + usize::from(name)
}
