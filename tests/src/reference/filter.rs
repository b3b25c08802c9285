//! The message filter: what becomes of a message.

use super::lattice::Lattice;

#[derive(Clone, Copy, Debug, PartialEq, Eq)]
pub enum Delivery {
    /// A frame of the sending manager whose reply returns.
    Frame,
    /// A frame of the sending manager whose reply is thrown away.
    FrameWithoutReply,
    /// A manager of its own at this level.
    Fork(usize),
    /// Nothing runs.
    Nothing,
}

/// A frame of an object at level `from`, in a manager at level `m`, sends to an
/// object at level `to`.
pub fn filter(lattice: &Lattice, m: usize, from: usize, to: usize) -> Delivery {
    if lattice.dominates(from, to) {
        return Delivery::Frame;
    }
    if !lattice.dominates(to, from) {
        return Delivery::Nothing;
    }
    let u = lattice
        .join(m, to)
        .expect("in an accepted session every pair has a least upper bound");
    if u == m {
        Delivery::FrameWithoutReply
    } else {
        Delivery::Fork(u)
    }
}
