//! The check, each question in as few passes as it takes.

use crate::limits::*;
use crate::record::{Record, JUMP, LEVEL, OBJECT, ROOT, SEND, SET, WITHDRAW};
use std::ops::Range;

const REGISTER_MAX: u8 = REGISTERS as u8 - 1;
const FIELD_MAX: u8 = FIELDS as u8 - 1;
const NAME_MAX: u8 = NAMES as u8 - 1;
/// Numbers of operations, with 0, which is none.
const OPERATIONS: usize = WITHDRAW as usize + 1;

/// The records of an accepted session by kind, or the number of the first
/// question answered no.
pub fn parts(session: &[u8]) -> Result<Parts<'_>, u32> {
    let records = whole_records(session).ok_or(1u32)?;
    let parts = split_by_kind(records).ok_or(2u32)?;
    if !counts_and_numbers_fit(&parts) {
        return Err(3);
    }
    let mut masks = [0; LEVELS_MAX];
    for (mask, level) in masks.iter_mut().zip(parts.levels) {
        *mask = level[2];
    }
    let masks = &masks[..parts.levels.len()];
    if !is_partial_order(masks) {
        return Err(4);
    }
    if !has_least_upper_bounds(masks) {
        return Err(5);
    }
    if !has_lowest_level(masks) {
        return Err(17);
    }
    if !objects_fit(parts.objects, masks.len()) {
        return Err(6);
    }
    if !steps_fit(parts.steps, parts.objects.len(), masks.len()) {
        return Err(7);
    }
    if !root_fits(parts.root, parts.objects.len()) {
        return Err(8);
    }
    Ok(parts)
}

/// Question 1: the session as 1 to 297 whole records.
fn whole_records(session: &[u8]) -> Option<&[Record]> {
    let (records, rest) = session.as_chunks();
    (rest.is_empty() && (1..=RECORDS_MAX).contains(&records.len())).then_some(records)
}

/// The records of a session by kind.
pub struct Parts<'a> {
    pub levels: &'a [Record],
    pub objects: &'a [Record],
    pub steps: &'a [Record],
    pub root: &'a Record,
}

/// Question 2: kinds 1 to 4, never falling, at least one level and one object,
/// exactly one root.
fn split_by_kind(records: &[Record]) -> Option<Parts<'_>> {
    // Looks at every record: leaving at the first fall would slow the loop down.
    let sorted = records
        .windows(2)
        .fold(true, |sorted, pair| sorted & (pair[0][0] <= pair[1][0]));
    if !sorted {
        return None;
    }
    // In sorted records the first and the last kind bound all others.
    let (root, rest) = records.split_last()?;
    if root[0] != ROOT || rest.first()?[0] != LEVEL || rest.last()?[0] == ROOT {
        return None;
    }
    let (levels, rest) = rest.split_at(rest.partition_point(|record| record[0] == LEVEL));
    let (objects, steps) = rest.split_at(rest.partition_point(|record| record[0] == OBJECT));
    (!objects.is_empty()).then_some(Parts {
        levels,
        objects,
        steps,
        root,
    })
}

/// Question 3: at most 8 levels, 32 objects and 256 steps; levels and objects
/// numbered in order; unnamed bytes of levels zero.
fn counts_and_numbers_fit(parts: &Parts) -> bool {
    let numbered = |records: &[Record]| (0..).zip(records).all(|(i, record)| record[1] == i);
    parts.levels.len() <= LEVELS_MAX
        && parts.objects.len() <= OBJECTS_MAX
        && parts.steps.len() <= STEP_RECORDS_MAX
        && numbered(parts.levels)
        && numbered(parts.objects)
        && parts.levels.iter().all(|level| level[3..] == [0; 13])
}

/// Question 4: each mask names only present levels and its own, no two levels
/// dominate each other, dominance is transitive. At most 8 masks.
fn is_partial_order(masks: &[u8]) -> bool {
    masks.iter().enumerate().all(|(i, &mask)| {
        let own = 1 << i;
        u32::from(mask) < 1 << masks.len()
            && mask & own != 0
            && masks.iter().enumerate().all(|(j, &lower)| {
                // Whatever i strictly dominates does not dominate i and brings
                // nothing that i does not dominate too.
                i == j || mask >> j & 1 == 0 || (lower & own == 0 && lower & !mask == 0)
            })
    })
}

/// Question 5: every pair of levels has a least upper bound. The masks, at most
/// 8, have passed question 4.
fn has_least_upper_bounds(masks: &[u8]) -> bool {
    // Bit k of above[i] is set when level k dominates level i.
    let mut above = [0u8; LEVELS_MAX];
    for (k, mask) in masks.iter().enumerate() {
        for (i, set) in above.iter_mut().enumerate() {
            *set |= (mask >> i & 1) << k;
        }
    }
    let above = &above[..masks.len()];
    // Dominance being transitive, a level is the least of a pair's upper bounds
    // just when the levels above it are all of those bounds.
    let mut is_above_some_level = [false; 256];
    for &set in above {
        is_above_some_level[usize::from(set)] = true;
    }
    above.iter().enumerate().all(|(i, x)| {
        above[..i]
            .iter()
            .all(|y| is_above_some_level[usize::from(x & y)])
    })
}

/// Question 17: every pair of levels has a greatest lower bound. The masks, at least
/// one, have passed questions 4 and 5.
fn has_lowest_level(masks: &[u8]) -> bool {
    // If all dominate one level, each pair has lower bounds, and their join is the
    // greatest. If not, there are two lowest levels, without a common lower bound.
    masks.iter().fold(u8::MAX, |common, mask| common & mask) != 0
}

/// Question 6: each object's level present, its mask below 8, each NIL field 0.
fn objects_fit(objects: &[Record], levels: usize) -> bool {
    objects.iter().all(|object| {
        let [_, _, level, mask, fields @ ..] = object;
        let (fields, _) = fields.as_chunks::<4>();
        usize::from(*level) < levels
            && *mask < 8
            && (0..)
                .zip(fields)
                .all(|(k, field)| mask >> k & 1 == 1 || *field == [0; 4])
    })
}

/// Question 7: every method's object present, its name at most 15, methods in
/// order of object and name, at most 16 steps each, and every step well formed.
fn steps_fit(steps: &[Record], objects: usize, levels: usize) -> bool {
    let mut largest = Largest::new(objects, levels);
    let mut last = None;
    // A run of equal (object, name) is a method. Runs end where the pair
    // changes, so "never falling" means rising from run to run.
    steps
        .chunk_by(|x, y| (x[1], x[2]) == (y[1], y[2]))
        .all(|method| {
            let key = (method[0][1], method[0][2]);
            let rising = last < Some(key);
            last = Some(key);
            rising
                && usize::from(key.0) < objects
                && key.1 <= NAME_MAX
                && method.len() <= METHOD_STEPS_MAX
                && largest.all_fit(method)
        })
}

/// The largest operands and the largest n by operation; 0 where unused.
struct Largest {
    a: [u8; OPERATIONS],
    b: [u8; OPERATIONS],
    c: [u8; OPERATIONS],
    n: [u64; OPERATIONS],
    /// Numbers that present levels own, which SEND may name too.
    owned: Range<u8>,
}

impl Largest {
    fn new(objects: usize, levels: usize) -> Self {
        let mut largest = Largest {
            a: [REGISTER_MAX; OPERATIONS],
            b: [
                0,
                0,
                REGISTER_MAX,
                0,
                FIELD_MAX,
                FIELD_MAX,
                NAME_MAX,
                0,
                0,
                0,
            ],
            c: [0; OPERATIONS],
            n: [0; OPERATIONS],
            owned: OBJECTS_MAX as u8..(OBJECTS_MAX + MADE_MAX * levels) as u8,
        };
        largest.a[usize::from(WITHDRAW)] = 0;
        largest.c[usize::from(SEND)] = (objects - 1) as u8;
        largest.n[usize::from(SET)] = u64::from(u32::MAX);
        largest
    }

    /// Question 7 for the steps of one method of at most 16 steps: operation 1 to 9,
    /// operands within their limits, unused bytes 0.
    fn all_fit(&mut self, method: &[Record]) -> bool {
        self.b[usize::from(JUMP)] = method.len() as u8;
        method.iter().all(|step| {
            let [_, _, _, operation, a, b, c, unused, tail @ ..] = *step;
            let i = usize::from(operation);
            (SET..=WITHDRAW).contains(&operation)
                && a <= self.a[i]
                && b <= self.b[i]
                && (c <= self.c[i] || (operation == SEND && self.owned.contains(&c)))
                && unused == 0
                // Bytes 8 to 15 as one number: below 2^32 when 12 to 15 are 0.
                && u64::from_le_bytes(tail) <= self.n[i]
        })
    }
}

/// Question 8: the root's object present, its name at most 15, its tag 0 or 1,
/// a NIL parameter 0, unused bytes 0.
fn root_fits(root: &Record, objects: usize) -> bool {
    let [_, object, name, tag, rest @ ..] = *root;
    usize::from(object) < objects
        && name <= NAME_MAX
        && tag <= 1
        && (tag == 1 || rest[..4] == [0; 4])
        && rest[4..] == [0; 8]
}
