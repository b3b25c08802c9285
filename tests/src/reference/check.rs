//! Questions 1 to 5, 17, 6, 7 and 8, each put of the whole session before the next.

use super::lattice::Lattice;
use super::objects::made_by;
use crate::limits::*;
use crate::record::{records, Record};
use crate::record::{ADD, CREATE, JUMP, QUIT, READ, SEND, SET, WITHDRAW, WRITE};
use crate::record::{LEVEL, OBJECT, ROOT, STEP};

/// The number of the first question answered no, or 0.
pub fn check(session: &[u8]) -> u32 {
    if !session.len().is_multiple_of(16) || !(1..=RECORDS_MAX).contains(&(session.len() / 16)) {
        return 1;
    }
    let all = records(session);
    let of_kind = |kind| -> Vec<Record> { all.iter().copied().filter(|r| r[0] == kind).collect() };
    let [levels, objects, steps, roots] = [LEVEL, OBJECT, STEP, ROOT].map(of_kind);
    let kinds_fit = all.iter().all(|r| (LEVEL..=ROOT).contains(&r[0]))
        && all.windows(2).all(|pair| pair[0][0] <= pair[1][0]);
    if !kinds_fit || levels.is_empty() || objects.is_empty() || roots.len() != 1 {
        return 2;
    }
    if !counts_fit(&levels, &objects, &steps) {
        return 3;
    }
    let lattice = Lattice::new(levels.iter().map(|level| level[2]).collect());
    if !lattice.is_ordered() {
        return 4;
    }
    if !lattice.has_joins() {
        return 5;
    }
    if !lattice.has_meets() {
        return 17;
    }
    if !objects.iter().all(|o| object_fits(o, levels.len())) {
        return 6;
    }
    if !methods_fit(&steps, objects.len(), levels.len()) {
        return 7;
    }
    if !root_fits(&roots[0], objects.len()) {
        return 8;
    }
    0
}

/// Question 3.
fn counts_fit(levels: &[Record], objects: &[Record], steps: &[Record]) -> bool {
    let numbered = |records: &[Record]| {
        let mut numbers = records.iter().map(|r| usize::from(r[1])).enumerate();
        numbers.all(|(i, number)| i == number)
    };
    levels.len() <= LEVELS_MAX
        && objects.len() <= OBJECTS_MAX
        && steps.len() <= STEP_RECORDS_MAX
        && numbered(levels)
        && numbered(objects)
        && levels.iter().all(|level| is_zero(&level[3..]))
}

/// Question 6 for one object.
fn object_fits(object: &Record, levels: usize) -> bool {
    let nil_is_zero = |k: usize| object[3] >> k & 1 == 1 || is_zero(&object[4 + 4 * k..8 + 4 * k]);
    usize::from(object[2]) < levels && object[3] < 8 && (0..FIELDS).all(nil_is_zero)
}

/// Question 7.
fn methods_fit(steps: &[Record], objects: usize, levels: usize) -> bool {
    let key = |step: &Record| (step[1], step[2]);
    steps.windows(2).all(|pair| key(&pair[0]) <= key(&pair[1]))
        && steps.iter().all(|step| {
            let count = steps.iter().filter(|other| key(other) == key(step)).count();
            usize::from(step[1]) < objects
                && usize::from(step[2]) < NAMES
                && count <= METHOD_STEPS_MAX
                && step_fits(step, count, objects, levels)
        })
}

/// Question 7 for the operation, its operands and the unused bytes of one step
/// of a method with `count` steps.
fn step_fits(step: &Record, count: usize, objects: usize, levels: usize) -> bool {
    let [a, b, c] = [step[4], step[5], step[6]].map(usize::from);
    let operands_fit = match step[3] {
        SET => b == 0 && c == 0,
        ADD => b < REGISTERS && c == 0,
        JUMP => b <= count && c == 0,
        READ | WRITE => b < FIELDS && c == 0,
        SEND => b < NAMES && (c < objects || is_of_a_level(c, levels)),
        QUIT | CREATE => b == 0 && c == 0,
        WITHDRAW => a == 0 && b == 0 && c == 0,
        _ => false,
    };
    let number_fits = step[3] == SET || is_zero(&step[8..12]);
    a < REGISTERS && operands_fit && step[7] == 0 && number_fits && is_zero(&step[12..])
}

/// Whether one of the levels owns the number, for an object that it makes.
fn is_of_a_level(number: usize, levels: usize) -> bool {
    (0..levels).any(|level| made_by(level).contains(&(number as u8)))
}

/// Question 8.
fn root_fits(root: &Record, objects: usize) -> bool {
    usize::from(root[1]) < objects
        && usize::from(root[2]) < NAMES
        && root[3] <= 1
        && (root[3] == 1 || is_zero(&root[4..8]))
        && is_zero(&root[8..])
}

fn is_zero(bytes: &[u8]) -> bool {
    bytes.iter().all(|&byte| byte == 0)
}
