//! The rules of questions 5 and 17, that each pair of levels has its bounds: each
//! broken alone, both together, and 17's together with one of a question put after it.

use super::{count, insert, methods, objects, root, Rule};
use crate::limits::LEVELS_MAX;
use crate::random::Random;
use crate::record::{level, Record, LEVEL};
use crate::reference::Lattice;
use crate::sessions::lattices;

pub fn rules() -> Vec<Rule> {
    let mut rules = vec![
        Rule::new(5, "least upper bounds", |random, records| {
            put_table(random, records, lattices::without_joins)
        }),
        Rule::new(5, "both bounds", |random, records| {
            put_table(random, records, lattices::without_bounds)
        }),
        Rule::new(17, "greatest lower bounds", |random, records| {
            put_table(random, records, lattices::without_meets)
        }),
        Rule::new(17, "one lowest level", add_lowest),
        Rule::new(17, "a level parted from the lowest", |random, records| {
            part_from_lowest(random, records)
        }),
    ];
    for (question, later) in [(6, objects()), (7, methods()), (8, root())] {
        let name = format!("greatest lower bounds, and question {question}");
        rules.push(Rule::new(17, name, move |random, records| {
            let rule = &later[random.below(later.len())];
            put_table(random, records, lattices::without_meets) && (rule.breaks)(random, records)
        }));
    }
    rules
}

/// Gives the levels other masks. There must be three or more of them.
fn put_table(
    random: &mut Random,
    records: &mut [Record],
    table: impl Fn(&mut Random, usize) -> Vec<u8>,
) -> bool {
    let levels = count(records, LEVEL);
    if levels < 3 {
        return false;
    }
    let masks = table(random, levels);
    for (record, mask) in records.iter_mut().zip(masks) {
        record[2] = mask;
    }
    true
}

fn masks_of(records: &[Record]) -> Vec<u8> {
    let levels = records.iter().filter(|record| record[0] == LEVEL);
    levels.map(|level| level[2]).collect()
}

/// One level more, which dominates no other and stands under one that is not the
/// lowest, and under all that dominate that one: there are two lowest levels then.
fn add_lowest(random: &mut Random, records: &mut Vec<Record>) -> bool {
    let masks = masks_of(records);
    let others = (0..masks.len()).filter(|&i| masks[i].count_ones() > 1);
    let others: Vec<usize> = others.collect();
    if others.is_empty() || masks.len() == LEVELS_MAX {
        return false;
    }
    let upper = random.pick(&others);
    let new = 1 << masks.len();
    for (record, mask) in records.iter_mut().zip(&masks) {
        record[2] |= new * (mask >> upper & 1);
    }
    insert(records, masks.len(), level(masks.len() as u8, new))
}

/// A level that dominated the lowest and no other dominates none now, where each pair
/// still has a least upper bound.
fn part_from_lowest(random: &mut Random, records: &mut [Record]) -> bool {
    let masks = masks_of(records);
    let parted = |i: usize| {
        let mut masks = masks.clone();
        masks[i] = 1 << i;
        masks
    };
    let fits = |i: &usize| masks[*i].count_ones() == 2 && Lattice::new(parted(*i)).has_joins();
    let places: Vec<usize> = (0..masks.len()).filter(fits).collect();
    if places.is_empty() {
        return false;
    }
    let place = random.pick(&places);
    records[place][2] = 1 << place;
    true
}
