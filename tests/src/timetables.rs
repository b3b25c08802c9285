//! Random timetables of accepted sessions: allowed, held back, spoiled and cut.

use crate::random::Random;
use crate::reference::{Scheduler, Session};
use crate::tally::{Event, Tally};

/// An allowed list of scheduler steps in which all managers end.
pub fn finishing(random: &mut Random, session: &Session, tally: &mut Tally) -> Vec<u8> {
    match random.below(4) {
        0 => conservative(random, session, tally),
        1 => depth_first(session),
        _ => {
            let mut turns = Turns::new(random, tally);
            steps(session, |scheduler| {
                turns.choose(scheduler.allowed().collect())
            })
        }
    }
}

/// Such a list in which each step passes the conservative rule.
pub fn conservative(random: &mut Random, session: &Session, tally: &mut Tally) -> Vec<u8> {
    let mut turns = Turns::new(random, tally);
    steps(session, |scheduler| {
        let levels = scheduler.with_managers();
        let passing = levels.filter(|&level| scheduler.is_conservative(level));
        turns.choose(passing.collect())
    })
}

/// The order of the depth-first run: of the managers that have not ended the one
/// of largest fork stamp steps. Upper levels step as early as they may.
pub fn depth_first(session: &Session) -> Vec<u8> {
    steps(session, |scheduler| {
        let levels = scheduler.with_managers();
        levels.max_by_key(|&level| scheduler.next_stamp(level))
    })
}

/// The steps that are chosen one after the other, until none is.
fn steps(session: &Session, mut choose: impl FnMut(&Scheduler) -> Option<u8>) -> Vec<u8> {
    let mut unseen = Tally::idle();
    let mut scheduler = Scheduler::new(session, &mut unseen);
    let mut list = Vec::new();
    while let Some(level) = choose(&scheduler) {
        scheduler.step(level);
        list.push(level);
    }
    list
}

/// Levels that take turns at random.
struct Turns<'a> {
    random: &'a mut Random,
    /// Small: they take turns often; large: rarely.
    patience: usize,
    last: Option<u8>,
    tally: &'a mut Tally,
}

impl<'a> Turns<'a> {
    fn new(random: &'a mut Random, tally: &'a mut Tally) -> Self {
        Turns {
            patience: random.pick(&[1, 2, 8, 64]),
            random,
            last: None,
            tally,
        }
    }

    /// One of the levels, if there are any.
    fn choose(&mut self, levels: Vec<u8>) -> Option<u8> {
        if levels.len() > 1 {
            self.tally.saw(Event::Choice);
        }
        self.last = match self.last {
            _ if levels.is_empty() => None,
            Some(level) if levels.contains(&level) && !self.random.one_in(self.patience) => {
                Some(level)
            }
            _ => Some(self.random.pick(&levels)),
        };
        self.last
    }
}

/// The allowed list with a step put in that question 14 refuses, at a random
/// place or the next where there is one; none if there is none.
pub fn held_back(random: &mut Random, session: &Session, list: &[u8]) -> Option<Vec<u8>> {
    let mut unseen = Tally::idle();
    let mut scheduler = Scheduler::new(session, &mut unseen);
    let start = random.below(list.len());
    for (place, &level) in list.iter().enumerate() {
        if place >= start {
            let levels = scheduler.with_managers();
            let refused = levels.filter(|&level| scheduler.refusal(level) == Some(14));
            let refused: Vec<u8> = refused.collect();
            if !refused.is_empty() {
                let mut list = list.to_vec();
                list.insert(place, random.pick(&refused));
                return Some(list);
            }
        }
        scheduler.step(level);
    }
    None
}

/// One byte of the list changed, inserted, removed or exchanged for the next, or
/// the list made longer. It may still be allowed.
pub fn spoiled(random: &mut Random, list: &[u8], levels: usize) -> Vec<u8> {
    let mut list = list.to_vec();
    let place = random.below(list.len());
    let byte = match random.below(4) {
        0 => random.byte_below(256),
        1 => levels as u8,
        _ => random.byte_below(levels),
    };
    match random.below(5) {
        0 => list[place] = byte,
        1 => list.insert(place, byte),
        2 => {
            list.remove(place);
        }
        3 if place > 0 => list.swap(place - 1, place),
        _ => list.push(byte),
    }
    list
}

/// The list without its end; often only the last byte is missing.
pub fn cut(random: &mut Random, list: &[u8]) -> Vec<u8> {
    let end = random.below(list.len());
    let end = if random.one_in(4) {
        list.len() - 1
    } else {
        end
    };
    list[..end].to_vec()
}
