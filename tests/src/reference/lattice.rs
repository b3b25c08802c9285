//! Levels and their dominance.

/// One mask for each level; bit k of mask i is set when level i dominates level k.
#[derive(Clone, Debug)]
pub struct Lattice {
    masks: Vec<u8>,
}

impl Lattice {
    pub fn new(masks: Vec<u8>) -> Self {
        Lattice { masks }
    }

    pub fn levels(&self) -> std::ops::Range<usize> {
        0..self.masks.len()
    }

    pub fn dominates(&self, upper: usize, lower: usize) -> bool {
        self.masks[upper] >> lower & 1 == 1
    }

    pub fn strictly_dominates(&self, upper: usize, lower: usize) -> bool {
        upper != lower && self.dominates(upper, lower)
    }

    /// Question 4: does each mask name only present levels and its own, do no
    /// two levels dominate each other, and does dominance carry through?
    pub fn is_ordered(&self) -> bool {
        let only_present = self.masks.iter().all(|&mask| {
            let named = (0..8).filter(|k| mask >> k & 1 == 1);
            named.max().is_none_or(|k| k < self.masks.len())
        });
        only_present
            && self.levels().all(|i| self.dominates(i, i))
            && !self.levels().any(|i| {
                self.levels()
                    .any(|j| self.strictly_dominates(i, j) && self.strictly_dominates(j, i))
            })
            && self.levels().all(|i| {
                self.levels().filter(|&j| self.dominates(i, j)).all(|j| {
                    self.levels()
                        .filter(|&k| self.dominates(j, k))
                        .all(|k| self.dominates(i, k))
                })
            })
    }

    /// Question 5: has every pair of levels a least upper bound?
    pub fn has_joins(&self) -> bool {
        self.levels()
            .all(|a| self.levels().all(|b| self.join(a, b).is_some()))
    }

    /// The least upper bound: the upper bound that every upper bound dominates.
    pub fn join(&self, a: usize, b: usize) -> Option<usize> {
        let is_upper = |&u: &usize| self.dominates(u, a) && self.dominates(u, b);
        self.levels().filter(is_upper).find(|&u| {
            self.levels()
                .filter(is_upper)
                .all(|other| self.dominates(other, u))
        })
    }

    /// Question 17: has each pair of levels a greatest lower bound?
    pub fn has_meets(&self) -> bool {
        self.levels()
            .all(|a| self.levels().all(|b| self.meet(a, b).is_some()))
    }

    /// The greatest lower bound: the lower bound that dominates every lower bound.
    pub fn meet(&self, a: usize, b: usize) -> Option<usize> {
        let is_lower = |&l: &usize| self.dominates(a, l) && self.dominates(b, l);
        self.levels().filter(is_lower).find(|&l| {
            self.levels()
                .filter(is_lower)
                .all(|other| self.dominates(l, other))
        })
    }

    /// The level that dominates all, if there is one.
    pub fn top(&self) -> Option<usize> {
        self.levels()
            .find(|&u| self.levels().all(|l| self.dominates(u, l)))
    }

    /// The level that all dominate, if there is one.
    pub fn bottom(&self) -> Option<usize> {
        self.levels()
            .find(|&l| self.levels().all(|u| self.dominates(u, l)))
    }
}
