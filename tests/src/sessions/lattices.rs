//! Random tables of levels, as masks: lattices, and orders that are none.

use crate::limits::LEVELS_MAX;
use crate::random::Random;
use crate::reference::Lattice;

/// A lattice of up to 8 levels: each pair has both bounds.
pub fn any(random: &mut Random) -> Vec<u8> {
    let levels = random.size(1, LEVELS_MAX);
    match random.below(6) {
        0 => chain(random, levels),
        1 => product(random),
        2 => diamond(random, levels.max(3)),
        3 => two_chains(random, levels.max(4)),
        _ => bounded(random, levels),
    }
}

/// Mostly with incomparable levels, which may step in any order.
pub fn branching(random: &mut Random) -> Vec<u8> {
    let levels = random.between(4, LEVELS_MAX);
    match random.below(5) {
        0 | 1 => product(random),
        2 => two_chains(random, levels),
        3 => diamond(random, levels),
        _ => bounded(random, levels),
    }
}

/// Each level dominates all before it.
pub fn chain(random: &mut Random, levels: usize) -> Vec<u8> {
    let masks: Vec<u8> = (0..levels).map(|i| full(i + 1)).collect();
    renumbered(random, &masks)
}

/// A product of two or three chains: a level dominates those that it dominates in
/// each chain. Chains of two levels make the subsets of 2 or 3 things.
fn product(random: &mut Random) -> Vec<u8> {
    let lengths: &[usize] = match random.below(6) {
        0 | 1 => &[2, 2],
        2 => &[2, 3],
        3 => &[2, 4],
        _ => &[2, 2, 2],
    };
    let masks = lengths.iter().fold(vec![1], copies);
    renumbered(random, &masks)
}

/// The product with one more chain: so many copies, each over those before it.
fn copies(masks: Vec<u8>, length: &usize) -> Vec<u8> {
    let width = masks.len();
    let part = |i: usize, copy: usize| masks[i % width] << (copy * width);
    (0..length * width)
        .map(|i| (0..=i / width).map(|copy| part(i, copy)).sum())
        .collect()
}

/// Incomparable levels under a top, over a bottom.
fn diamond(random: &mut Random, levels: usize) -> Vec<u8> {
    let mut masks: Vec<u8> = (0..levels).map(|i| 1 << i | 1).collect();
    masks[levels - 1] = full(levels);
    renumbered(random, &masks)
}

/// Two chains side by side under a top, over a bottom.
pub fn two_chains(random: &mut Random, levels: usize) -> Vec<u8> {
    let first_end = random.between(2, levels - 2);
    let mut masks: Vec<u8> = (0..levels)
        .map(|i| {
            if i < first_end {
                full(i + 1)
            } else {
                full(i + 1) & !full(first_end) | 1
            }
        })
        .collect();
    masks[levels - 1] = full(levels);
    renumbered(random, &masks)
}

/// A random lattice. With a lowest level and all least upper bounds there are all
/// greatest lower bounds too: these the check asks for itself.
pub fn bounded(random: &mut Random, levels: usize) -> Vec<u8> {
    drawn(random, levels, |masks| {
        lowest_levels(masks) == 1 && has_joins(masks)
    })
}

/// A near-lattice, refused by question 17: each pair has a least upper bound, but there
/// are two lowest levels or more, without a common lower bound. For at least 3 levels.
pub fn without_meets(random: &mut Random, levels: usize) -> Vec<u8> {
    if random.one_in(3) {
        return broom(random, levels);
    }
    drawn(random, levels, |masks| {
        lowest_levels(masks) > 1 && has_joins(masks)
    })
}

/// Two lowest levels or more under a chain.
fn broom(random: &mut Random, levels: usize) -> Vec<u8> {
    let lowest = random.size(2, levels - 1);
    let mask = |i: usize| if i < lowest { 1 << i } else { full(i + 1) };
    let masks: Vec<u8> = (0..levels).map(mask).collect();
    renumbered(random, &masks)
}

/// A near-lattice upside down, refused by question 5: each pair has a greatest lower
/// bound.
pub fn without_joins(random: &mut Random, levels: usize) -> Vec<u8> {
    let masks = without_meets(random, levels);
    let bit = |i: usize, k: usize| (masks[i] >> k & 1) << i;
    (0..levels)
        .map(|k| (0..levels).map(|i| bit(i, k)).sum())
        .collect()
}

/// A random order that questions 5 and 17 refuse: some pair has no least upper bound,
/// and some pair no greatest lower bound. For at least 2 levels.
pub fn without_bounds(random: &mut Random, levels: usize) -> Vec<u8> {
    drawn(random, levels, |masks| {
        lowest_levels(masks) > 1 && !has_joins(masks)
    })
}

/// The first random order that passes.
fn drawn(random: &mut Random, levels: usize, passes: impl Fn(&[u8]) -> bool) -> Vec<u8> {
    loop {
        let masks = order(random, levels);
        if passes(&masks) {
            return masks;
        }
    }
}

/// How many levels dominate no other.
fn lowest_levels(masks: &[u8]) -> usize {
    masks.iter().filter(|mask| mask.count_ones() == 1).count()
}

fn has_joins(masks: &[u8]) -> bool {
    Lattice::new(masks.to_vec()).has_joins()
}

/// A random order; not every pair need have its bounds.
pub fn order(random: &mut Random, levels: usize) -> Vec<u8> {
    // Levels get their masks from the bottom up, so that a mask takes in those
    // of the levels below it whole.
    let with_bottom = random.one_in(2);
    let with_top = !random.one_in(4);
    let density = 1 + random.below(7);
    let mut masks: Vec<u8> = Vec::new();
    for i in 0..levels {
        let mut mask = 1 << i | u8::from(with_bottom);
        for &lower in &masks {
            if random.below(8) < density || (with_top && i + 1 == levels) {
                mask |= lower;
            }
        }
        masks.push(mask);
    }
    renumbered(random, &masks)
}

/// The first levels.
fn full(levels: usize) -> u8 {
    ((1u16 << levels) - 1) as u8
}

/// The same order with the levels' numbers shuffled half of the time, so that a
/// lower number is not always a lower level, nor the lowest level always level 0.
fn renumbered(random: &mut Random, masks: &[u8]) -> Vec<u8> {
    let mut numbers: Vec<usize> = (0..masks.len()).collect();
    if random.one_in(2) {
        random.shuffle(&mut numbers);
    }
    let mut renumbered = vec![0; masks.len()];
    for (i, &mask) in masks.iter().enumerate() {
        renumbered[numbers[i]] = (0..masks.len())
            .filter(|j| mask >> j & 1 == 1)
            .map(|j| 1 << numbers[j])
            .sum();
    }
    renumbered
}
