//! The managers of a level: those that wait, the one that runs, those that ended.

use super::fork::{Ancestor, Fork};
use super::manager::Manager;
use crate::record::History;

#[derive(Default)]
pub struct Level {
    /// In stamp order.
    pub waiting: Vec<Fork>,
    pub running: Option<Manager>,
    pub ended: Vec<History>,
    /// Forks that reached the level, kept or dropped.
    pub reached: usize,
    /// The smallest fork stamp that was dropped. For the tally alone.
    pub least_dropped: Option<u32>,
}

/// A manager that has not ended: it runs, or waits.
#[derive(Clone, Copy)]
pub struct Unended<'a> {
    pub is_running: bool,
    pub level: usize,
    pub fork_stamp: u32,
    pub ancestors: &'a [Ancestor],
}

impl Level {
    /// The managers that have not ended, by rising fork stamp.
    pub fn unended(&self) -> impl Iterator<Item = Unended<'_>> {
        let running = self.running.iter().map(|manager| Unended {
            is_running: true,
            level: manager.level,
            fork_stamp: manager.fork_stamp,
            ancestors: &manager.ancestors,
        });
        let waiting = self.waiting.iter().map(|fork| Unended {
            is_running: false,
            level: fork.level,
            fork_stamp: fork.stamp,
            ancestors: &fork.ancestors,
        });
        running.chain(waiting)
    }

    /// The manager about to step: the one that runs, else the waiting one of
    /// smallest fork stamp.
    pub fn about_to_step(&self) -> Option<Unended<'_>> {
        self.unended().next()
    }

    pub fn has_manager(&self) -> bool {
        self.about_to_step().is_some()
    }

    /// Managers kept: waiting, running and ended.
    pub fn kept(&self) -> usize {
        self.waiting.len() + usize::from(self.running.is_some()) + self.ended.len()
    }
}

impl Unended<'_> {
    pub fn has_ancestor(&self, other: &Unended) -> bool {
        let mut ancestors = self.ancestors.iter();
        ancestors.any(|ancestor| ancestor.fork_stamp == other.fork_stamp)
    }
}
