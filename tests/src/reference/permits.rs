//! Which levels may step: questions 12 to 14.

use super::level::{Level, Unended};
use super::manager::World;
use super::scheduler::Scheduler;
use crate::tally::Event;

impl<'a> Scheduler<'a> {
    /// The number of the question, 12 to 14, that refuses a step, if any.
    pub fn refusal(&self, byte: u8) -> Option<u32> {
        let level = usize::from(byte);
        if level >= self.levels.len() {
            return Some(12);
        }
        let Some(next) = self.levels[level].about_to_step() else {
            return Some(13);
        };
        self.left_before(level, next).next().map(|_| 14)
    }

    /// What question 14 asks for, of the manager about to step at a level: the
    /// managers that have not ended, sit at that level or one it dominates, have a
    /// smaller fork stamp and are not its ancestors.
    fn left_before<'b>(
        &'b self,
        level: usize,
        next: Unended<'b>,
    ) -> impl Iterator<Item = Unended<'b>> {
        let lattice = &self.session.lattice;
        lattice
            .levels()
            .filter(move |&lower| lower == level || lattice.dominates(level, lower))
            .flat_map(|lower| self.levels[lower].unended())
            .filter(move |other| other.fork_stamp < next.fork_stamp && !next.has_ancestor(other))
    }

    /// The conservative rule: have all managers ended at the levels that a level
    /// strictly dominates? Question 14 says yes wherever this does.
    pub fn is_conservative(&self, byte: u8) -> bool {
        let lattice = &self.session.lattice;
        let mut below = lattice
            .levels()
            .filter(|&lower| lattice.strictly_dominates(usize::from(byte), lower));
        !below.any(|lower| self.levels[lower].has_manager())
    }

    /// The fork stamp of the manager about to step at a level, if there is one.
    pub fn next_stamp(&self, byte: u8) -> Option<u32> {
        let next = self.levels[usize::from(byte)].about_to_step();
        next.map(|manager| manager.fork_stamp)
    }

    /// The levels with managers that have not ended, by rising number.
    pub fn with_managers(&self) -> impl Iterator<Item = u8> + use<'_, 'a> {
        let levels = (0..).zip(&self.levels);
        levels
            .filter(|(_, level)| level.has_manager())
            .map(|(number, _)| number)
    }

    /// The levels that may step, by rising number.
    pub fn allowed(&self) -> impl Iterator<Item = u8> + use<'_, 'a> {
        self.with_managers()
            .filter(|&level| self.refusal(level).is_none())
    }

    /// Notes what question 14 tells apart at a level that is about to step.
    pub fn note_turn(&mut self, byte: u8) {
        if self.tally.is_idle() {
            return;
        }
        let level = usize::from(byte);
        let Some(next) = self.levels.get(level).and_then(Level::about_to_step) else {
            return;
        };
        let left: Vec<Unended> = self.left_before(level, next).collect();
        let mut seen = Vec::new();
        if left.is_empty() {
            seen = self.not_asked(level, next);
            if !self.is_conservative(byte) {
                seen.push(Event::EarlyStep);
                self.is_early = true;
            }
        } else {
            seen.push(Event::HeldBack);
            if !left.iter().any(|other| other.is_running) {
                seen.push(Event::HeldBackByWaiting);
            }
        }
        for event in seen {
            self.saw(event);
        }
    }

    /// Of what question 14 does not ask: which managers that have not ended, and
    /// forks that were dropped.
    fn not_asked(&self, level: usize, next: Unended) -> Vec<Event> {
        let lattice = &self.session.lattice;
        let is_below = |other: usize| lattice.strictly_dominates(level, other);
        let is_before = |stamp: u32| stamp < next.fork_stamp;
        let others = self.levels.iter().flat_map(Level::unended);
        let left =
            others.filter_map(
                |other| match (is_below(other.level), is_before(other.fork_stamp)) {
                    _ if next.has_ancestor(&other) => Some(Event::BeforeAncestor),
                    (true, false) => Some(Event::BeforeLater),
                    (false, true) => Some(Event::BeforeAside),
                    _ => None,
                },
            );
        let below = self.levels.iter().enumerate().filter(|(i, _)| is_below(*i));
        let dropped = below.filter(|(_, level)| level.least_dropped.is_some_and(is_before));
        left.chain(dropped.map(|_| Event::AboveDropped)).collect()
    }
}
