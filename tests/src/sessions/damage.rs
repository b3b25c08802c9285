//! Sessions made from valid ones by damage.

use super::draft::Draft;
use super::{lattices, sized, valid, valid_draft};
use crate::limits::*;
use crate::random::Random;
use crate::record::{level, Record};

/// Byte values next to the limits of documents 01 and 02.
const EDGES: [u8; 20] = [
    0, 1, 2, 3, 4, 5, 7, 8, 9, 10, 15, 16, 17, 31, 32, 63, 64, 127, 128, 255,
];

/// A session made from a valid one by damage, or not from one at all. It may
/// still be valid, as not every change does harm.
pub fn damaged(random: &mut Random) -> Vec<u8> {
    match random.below(32) {
        0 => Vec::new(),
        1 => random_bytes(random),
        2 | 3 => truncated(random),
        4 => {
            let mut records = full(random).records();
            if random.one_in(2) {
                duplicate(random, &mut records);
            }
            records.concat()
        }
        5 | 6 => over_a_limit(random).concat(),
        7..=9 => {
            let levels = random.size(2, LEVELS_MAX);
            let masks = lattices::order(random, levels);
            sized(random, masks, 3, 10, 4).bytes()
        }
        10 => {
            let levels = random.size(1, LEVELS_MAX);
            let masks = (0..levels)
                .map(|i| 1 << i | random.byte_below(1 << levels))
                .collect();
            sized(random, masks, 3, 10, 4).bytes()
        }
        11..=17 => near_lattice(random).concat(),
        _ => {
            let mut records = valid_draft(random).records();
            for _ in 0..random.size(1, 3) {
                damage(random, &mut records);
            }
            records.concat()
        }
    }
}

fn random_bytes(random: &mut Random) -> Vec<u8> {
    let length = if random.one_in(2) {
        16 * random.below(RECORDS_MAX + 3)
    } else {
        random.below(16 * (RECORDS_MAX + 3))
    };
    (0..length).map(|_| random.byte_below(256)).collect()
}

/// A valid session cut short anywhere, or between two records.
fn truncated(random: &mut Random) -> Vec<u8> {
    let mut session = valid(random);
    let end = random.below(session.len());
    session.truncate(if random.one_in(2) { end } else { end / 16 * 16 });
    session
}

/// Valid but for a pair of levels without a greatest lower bound; half of the time
/// damaged once more.
fn near_lattice(random: &mut Random) -> Vec<Record> {
    let levels = random.size(3, LEVELS_MAX);
    let masks = lattices::without_meets(random, levels);
    let mut records = sized(random, masks, 3, 10, 4).records();
    if random.one_in(2) {
        damage(random, &mut records);
    }
    records
}

/// 8 levels, 32 objects, 256 steps and the root: 297 records.
fn full(random: &mut Random) -> Draft {
    let masks = lattices::bounded(random, LEVELS_MAX);
    let longest = random.size(1, METHOD_STEPS_MAX);
    sized(random, masks, OBJECTS_MAX, STEP_RECORDS_MAX, longest)
}

/// Valid but for one count, which is above its limit.
fn over_a_limit(random: &mut Random) -> Vec<Record> {
    let levels = random.size(1, LEVELS_MAX - 1);
    let masks = lattices::bounded(random, levels);
    let steps = random.below(200);
    match random.below(3) {
        0 => {
            let masks = lattices::bounded(random, LEVELS_MAX);
            let mut records = sized(random, masks, 4, steps, METHOD_STEPS_MAX).records();
            records.insert(LEVELS_MAX, level(LEVELS_MAX as u8, u8::MAX));
            records
        }
        1 => sized(random, masks, OBJECTS_MAX + 1, steps, METHOD_STEPS_MAX).records(),
        _ => {
            let steps = STEP_RECORDS_MAX + 1;
            sized(random, masks, OBJECTS_MAX, steps, METHOD_STEPS_MAX).records()
        }
    }
}

/// One change of a byte or of the records' order.
fn damage(random: &mut Random, records: &mut Vec<Record>) {
    match random.below(16) {
        0 => {
            let (i, j) = (random.below(records.len()), random.below(records.len()));
            records.swap(i, j);
        }
        1 if records.len() > 1 => {
            let i = random.below(records.len() - 1);
            records.swap(i, i + 1);
        }
        2 => duplicate(random, records),
        3 if records.len() > 1 => {
            let i = random.below(records.len());
            records.remove(i);
        }
        _ => change_byte(random, records),
    }
}

fn duplicate(random: &mut Random, records: &mut Vec<Record>) {
    let i = random.below(records.len());
    records.insert(i, records[i]);
}

fn change_byte(random: &mut Random, records: &mut [Record]) {
    // Draw the kind first, as most records are steps.
    let kind = 1 + random.byte_below(4);
    let mut of_kind: Vec<&mut Record> = records.iter_mut().filter(|r| r[0] == kind).collect();
    if of_kind.is_empty() {
        return;
    }
    let chosen = random.below(of_kind.len());
    // The first bytes more often, as the last ones are mostly unused.
    let end = if random.one_in(2) { 8 } else { 16 };
    let byte = &mut of_kind[chosen][random.below(end)];
    *byte = match random.below(5) {
        0 => *byte ^ 1 << random.below(8),
        1 => byte.wrapping_add(1),
        2 => byte.wrapping_sub(1),
        3 => random.pick(&EDGES),
        _ => random.byte_below(256),
    };
}
