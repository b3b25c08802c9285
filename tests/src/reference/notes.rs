//! What the tally is told of sums, of objects made and withdrawn, and of too many writes.

use super::manager::{Manager, World};
use super::objects::{made_by, owner, Existence};
use super::session::Session;
use crate::limits::*;
use crate::tally::Event;

/// Two numbers are about to be added, a register to itself if `doubled`.
pub(super) fn note_sum(x: u32, y: u32, doubled: bool, world: &mut impl World) {
    let sum = u64::from(x) + u64::from(y);
    match sum {
        0..LARGEST => {}
        LARGEST => world.saw(Event::SumLargest),
        _ => world.saw(Event::SumPasses),
    }
    if sum == LARGEST + 1 {
        world.saw(Event::SumOneMore);
    }
    if doubled && sum > LARGEST {
        world.saw(Event::DoublePasses);
    }
    // An even number is never the largest.
    if doubled && sum == LARGEST - 1 {
        world.saw(Event::DoubleLargest);
    }
}

/// The largest number that a sum can be.
const LARGEST: u64 = u32::MAX as u64;

impl Manager {
    /// Whether a register is NIL since a sum in it passed the largest number.
    pub(super) fn is_nil_by_sum(&mut self, a: u8) -> bool {
        self.top().lost[usize::from(a)] == Some(Event::NilOfSum)
    }

    /// A JUMP on a register is about to be taken. One backward makes a loop, and one
    /// from inside it to behind it ends it.
    pub(super) fn note_jump(&mut self, a: u8, target: usize, world: &mut impl World) {
        let by_sum = self.is_nil_by_sum(a);
        let frame = self.top();
        let place = frame.next - 1;
        if target <= place {
            frame.turned = Some((target, place));
        }
        let is_end = |(first, last)| first <= place && place < last && last < target;
        if by_sum && frame.turned.is_some_and(is_end) {
            world.saw(Event::LoopEndedBySum);
        }
    }

    /// The manager's reply, which is shown if it is the root's.
    pub(super) fn note_reply(&self, lost: Option<Event>, world: &mut impl World) {
        if self.fork_stamp == 0 && lost == Some(Event::NilOfSum) {
            world.saw(Event::SumNilReplied);
        }
    }

    /// A manager that was forked starts.
    pub(super) fn note_start(&self, object: u8, was_there: bool, world: &mut impl World) {
        let existence = world.existence(self, object);
        match existence {
            Existence::There { .. } if owner(object).is_some() => world.saw(Event::ForkToMade),
            Existence::There { .. } => {}
            Existence::NeverMade => world.saw(Event::ForkToNeverMade),
            Existence::Withdrawn => world.saw(Event::ForkToWithdrawn),
        }
        match (was_there, existence.is_there()) {
            (false, true) => world.saw(Event::MadeBeforeStart),
            (true, false) => world.saw(Event::WithdrawnBeforeStart),
            _ => {}
        }
    }

    /// A frame is about to be made.
    pub(super) fn note_frame(&self, object: u8, existence: Existence, world: &mut impl World) {
        let newest = world.newest_existence(object);
        let is_made = owner(object).is_some();
        if !self.frames.is_empty() {
            match existence {
                Existence::There { .. } if is_made => world.saw(Event::SentToMade),
                Existence::There { .. } => {}
                Existence::NeverMade => world.saw(Event::SentToNeverMade),
                Existence::Withdrawn => world.saw(Event::SentToWithdrawn),
            }
        }
        match (existence, newest) {
            (Existence::NeverMade, Existence::There { .. }) => world.saw(Event::NotYetMade),
            (Existence::There { .. }, Existence::Withdrawn) => world.saw(Event::StillThere),
            _ => {}
        }
        let maker = existence.methods_of().filter(|_| is_made);
        if maker.is_some_and(|maker| !world.existence(self, maker).is_there()) {
            world.saw(Event::MakerWithdrawn);
        }
    }

    /// A READ in the top frame, whose object is there.
    pub(super) fn note_read(&self, object: u8, session: &Session, world: &mut impl World) {
        if session.level_of(object) == self.level {
            return;
        }
        if owner(object).is_some() {
            world.saw(Event::MadeReadAbove);
        }
        if !world.newest_existence(object).is_there() {
            world.saw(Event::WithdrawnReadAbove);
        }
    }

    /// An operation of a frame whose object may be withdrawn.
    pub(super) fn note_withdrawn(&self, event: Event, world: &mut impl World) {
        if !world.existence(self, self.object()).is_there() {
            world.saw(event);
        }
    }

    /// A CREATE that finds a number.
    pub(super) fn note_create(&mut self, a: u8, number: u8, world: &mut impl World) {
        match self.writes {
            0..12 => {}
            12 => world.saw(Event::CreateAtTwelve),
            13 => return world.saw(Event::CreateAtThirteen),
            14 => return world.saw(Event::CreateAtFourteen),
            15 => return world.saw(Event::CreateAtFifteen),
            _ => return world.saw(Event::CreateAtSixteen),
        }
        world.saw(Event::Made);
        if owner(self.object()).is_some() {
            world.saw(Event::MadeByMade);
        }
        if a > 0 && self.register(a).is_some() {
            world.saw(Event::MadeIntoField);
        }
        let mut earlier = made_by(self.level).take_while(|&other| other < number);
        if earlier.any(|other| !world.newest_existence(other).is_there()) {
            world.saw(Event::MadeAfterWithdrawn);
        }
        // Only a CREATE ends a manager so.
        let mut ended = world.ended(self.level).iter();
        if ended.any(|history| history.ending == 2 && u32::from(history.writes) < WRITES_MAX) {
            world.saw(Event::MadeAfterRefused);
        }
    }

    /// A CREATE where all four numbers of the level are used.
    pub(super) fn note_used_up(&self, world: &mut impl World) {
        world.saw(Event::FifthCreate);
        if self.writes + CREATE_WRITES > WRITES_MAX {
            world.saw(Event::FifthCreateAtLimit);
        }
        let mut numbers = made_by(self.level);
        if numbers.any(|number| !world.newest_existence(number).is_there()) {
            world.saw(Event::FifthCreateAfterWithdrawn);
        }
    }

    /// A WITHDRAW that works, unless it passes the limit.
    pub(super) fn note_withdraw(&self, world: &mut impl World) {
        match self.writes {
            15 => world.saw(Event::WithdrawAtFifteen),
            16 => return world.saw(Event::WithdrawAtSixteen),
            _ => {}
        }
        let object = self.object();
        world.saw(match owner(object) {
            Some(_) => Event::WithdrawnMade,
            None => Event::WithdrawnGiven,
        });
        let waiting = &self.frames[..self.frames.len() - 1];
        if waiting.iter().any(|frame| frame.object == object) {
            world.saw(Event::WithdrawnWaiting);
        }
    }

    /// A step, of a script of so many, that would have passed 16 writes.
    pub(super) fn note_too_many(&mut self, length: usize, world: &mut impl World) {
        if self.writes < WRITES_MAX {
            world.saw(Event::FewerWrites);
        }
        if self.steps == STEPS_MAX {
            world.saw(Event::SeventeenthAtLastStep);
        }
        if self.frames.len() == 1 && self.top().next == length {
            world.saw(Event::SeventeenthAtEnd);
        }
    }
}
