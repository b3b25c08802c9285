//! Which objects there are: those of the session, and those that managers make.

use super::session::Session;
use crate::limits::{FIELDS, MADE_MAX, NUMBERS, OBJECTS_MAX};
use crate::record::Value;
use std::ops::Range;

/// Whether an object is there. Versioned as a field is.
#[derive(Clone, Copy, Debug, PartialEq, Eq)]
pub enum Existence {
    /// Its number was never used.
    NeverMade,
    Withdrawn,
    /// There, with the methods of an object of the session.
    There {
        methods_of: u8,
    },
}

impl Existence {
    /// Of whose methods a new frame is made, if any.
    pub fn methods_of(self) -> Option<u8> {
        match self {
            Existence::There { methods_of } => Some(methods_of),
            Existence::NeverMade | Existence::Withdrawn => None,
        }
    }

    pub fn is_there(self) -> bool {
        self.methods_of().is_some()
    }
}

/// What is kept of an object, each part with its versions or not.
#[derive(Clone, Copy)]
pub struct Object<F, E> {
    pub fields: [F; FIELDS],
    pub existence: E,
}

/// The numbers that a level owns, for the objects that it makes.
pub fn made_by(level: usize) -> Range<u8> {
    let first = OBJECTS_MAX + level * MADE_MAX;
    first as u8..(first + MADE_MAX) as u8
}

/// The level that owns a number; none if it is one of the session's objects.
pub fn owner(number: u8) -> Option<usize> {
    let beyond = usize::from(number).checked_sub(OBJECTS_MAX);
    beyond.map(|place| place / MADE_MAX)
}

/// What is there at first, by number.
pub fn initial(session: &Session) -> Vec<Object<Value, Existence>> {
    (0..NUMBERS as u8)
        .map(|number| match session.objects.get(usize::from(number)) {
            Some(object) => Object {
                fields: object.fields,
                existence: Existence::There { methods_of: number },
            },
            None => Object {
                fields: [None; FIELDS],
                existence: Existence::NeverMade,
            },
        })
        .collect()
}
