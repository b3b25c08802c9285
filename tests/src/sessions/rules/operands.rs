//! The rules of question 7 on a step's operands and unused bytes.

use super::{byte, count, exactly, find, is_step_of, key, nonzero, Rule};
use crate::limits::*;
use crate::random::Random;
use crate::record::{Record, LEVEL, OBJECT, STEP};
use crate::record::{ADD, CREATE, JUMP, QUIT, READ, SEND, SET, WITHDRAW, WRITE};
use crate::reference::made_by;
use std::ops::Range;

const OPERATIONS: [&str; 9] = [
    "SET", "ADD", "JUMP", "READ", "WRITE", "SEND", "QUIT", "CREATE", "WITHDRAW",
];

pub fn rules() -> Vec<Rule> {
    let mut rules = receivers();
    for (operation, name) in (SET..=WITHDRAW).zip(OPERATIONS) {
        rules.extend(operands(operation, name));
        rules.extend(unused_bytes(operation, name));
    }
    rules
}

/// Each operand one above its limit.
fn operands(operation: u8, name: &str) -> Vec<Rule> {
    let rule = |operand: &str, place, limit| {
        let name = format!("{name}'s {operand}");
        byte(7, name, is_step_of(operation), place, exactly(limit))
    };
    let mut rules = Vec::new();
    if operation != WITHDRAW {
        rules.push(rule("register a", 4, REGISTERS));
    }
    match operation {
        ADD => rules.push(rule("register b", 5, REGISTERS)),
        READ | WRITE => rules.push(rule("field b", 5, FIELDS)),
        SEND => rules.push(rule("name b", 5, NAMES)),
        JUMP => rules.push(byte(
            7,
            "JUMP's target b",
            is_step_of(JUMP),
            5,
            beyond_method,
        )),
        _ => {}
    }
    rules
}

/// Numbers that SEND may not name. The first and the last of them are drawn often.
fn receivers() -> Vec<Rule> {
    let rule = |name: &str, wrong: fn(&[Record]) -> Range<usize>| {
        let name = format!("SEND's object c, {name}");
        Rule::new(7, name, move |random, records| {
            let wrong = wrong(records);
            let step = find(random, records, is_step_of(SEND));
            let Some(step) = step.filter(|_| !wrong.is_empty()) else {
                return false;
            };
            records[step][6] = random.size(wrong.start, wrong.end - 1) as u8;
            true
        })
    };
    vec![
        rule("after the session's objects", |records| {
            count(records, OBJECT)..OBJECTS_MAX
        }),
        rule("owned by an absent level", |records| {
            usize::from(made_by(count(records, LEVEL)).start)..NUMBERS
        }),
        rule("owned by no level", |_| NUMBERS..256),
    ]
}

/// One more than the number of steps in a step's method.
fn beyond_method(_: &mut Random, records: &[Record], step: &Record) -> u8 {
    let is_of_method = |other: &&Record| other[0] == STEP && key(other) == key(step);
    records.iter().filter(is_of_method).count() as u8 + 1
}

fn unused_bytes(operation: u8, name: &str) -> Vec<Rule> {
    let operands = match operation {
        WITHDRAW => 4..7,
        SET | QUIT | CREATE => 5..7,
        SEND => 7..7,
        _ => 6..7,
    };
    let number = if operation == SET { 8..8 } else { 8..12 };
    let places = operands.chain(7..8).chain(number).chain(12..16);
    places
        .map(|place| {
            let name = format!("{name}'s byte {place}");
            byte(7, name, is_step_of(operation), place, nonzero)
        })
        .collect()
}
