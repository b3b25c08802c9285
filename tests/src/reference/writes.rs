//! The operations on a frame's own object: READ, and those that count as writes,
//! WRITE, CREATE and WITHDRAW.

use super::manager::{Manager, World};
use super::objects::{made_by, Existence};
use super::session::Session;
use crate::limits::*;
use crate::tally::Event;

impl Manager {
    /// NIL where the object is withdrawn.
    pub(super) fn read(&mut self, a: u8, field: u8, session: &Session, world: &mut impl World) {
        let object = self.object();
        if !world.existence(self, object).is_there() {
            world.saw(Event::WithdrawnRead);
            self.lose(a, Event::NilOfWithdrawnRead);
            return;
        }
        self.note_read(object, session, world);
        let value = world.read(self, object, field);
        self.set(a, value);
    }

    pub(super) fn write(&mut self, a: u8, field: u8, session: &Session, world: &mut impl World) {
        let without_effect = [Event::WriteBelow, Event::WithdrawnWrite];
        if self.changeable(without_effect, session, world).is_none() {
            return;
        }
        if !self.count(1) {
            return world.saw(Event::SeventeenthWrite);
        }
        let value = *self.register(a);
        if value.is_none() {
            world.saw(Event::WriteNil);
        }
        if let Some(event) = self.top().lost[usize::from(a)] {
            world.saw(event);
        }
        world.write(self, self.object(), field, value);
    }

    /// Makes an object at the manager's level. Where it does not, the register is NIL.
    pub(super) fn create(&mut self, a: u8, session: &Session, world: &mut impl World) {
        let without_effect = [Event::CreateBelow, Event::WithdrawnCreate];
        let Some(methods_of) = self.changeable(without_effect, session, world) else {
            return self.lose(a, Event::NilOfCreate);
        };
        let never_made = |number: &u8| world.newest_existence(*number) == Existence::NeverMade;
        let Some(number) = made_by(self.level).find(never_made) else {
            self.note_used_up(world);
            return self.lose(a, Event::NilOfFifthCreate);
        };
        self.note_create(a, number, world);
        if !self.count(CREATE_WRITES) {
            return;
        }
        // The fields are the registers as they are before one gets the number.
        let [_, fields @ ..] = self.top().registers;
        for (field, value) in (0..).zip(fields) {
            world.write(self, number, field, value);
        }
        world.change_existence(self, number, Existence::There { methods_of });
        self.set(a, Some(u32::from(number)));
    }

    pub(super) fn withdraw(&mut self, session: &Session, world: &mut impl World) {
        let without_effect = [Event::WithdrawBelow, Event::WithdrawnAgain];
        let changeable = self.changeable(without_effect, session, world);
        if changeable.is_some() {
            self.note_withdraw(world);
            if self.count(1) {
                world.change_existence(self, self.object(), Existence::Withdrawn);
            }
        }
    }

    /// Whose methods the frame's object has, if operations on it take effect: it is of
    /// the manager's level, and there as its reads see it.
    fn changeable(
        &self,
        [below, withdrawn]: [Event; 2],
        session: &Session,
        world: &mut impl World,
    ) -> Option<u8> {
        let object = self.object();
        if session.level_of(object) != self.level {
            world.saw(below);
            return None;
        }
        let methods_of = world.existence(self, object).methods_of();
        if methods_of.is_none() {
            world.saw(withdrawn);
            if self.writes == WRITES_MAX {
                world.saw(Event::WithdrawnAtLimit);
            }
        }
        methods_of
    }

    /// Counts so many writes. If they pass 16 it counts none of them, and the manager
    /// ends.
    fn count(&mut self, writes: u32) -> bool {
        let fits = self.writes + writes <= WRITES_MAX;
        if fits {
            self.writes += writes;
        } else {
            self.ending = Some(2);
        }
        fits
    }
}
