//! A manager that waits: a message, where it runs, and from whom it comes.

use super::session::Session;
use crate::record::Value;

/// The manager that made a fork, or an ancestor of that one.
#[derive(Clone, Copy)]
pub struct Ancestor {
    pub level: usize,
    pub fork_stamp: u32,
    /// The write stamp carried by its fork on the way.
    pub write_stamp: u32,
}

/// A manager to be: the message and what the fork carries.
pub struct Fork {
    pub level: usize,
    pub stamp: u32,
    /// How many forks deep: 0 for the root.
    pub depth: u32,
    /// From the root's manager to the one that made the fork.
    pub ancestors: Vec<Ancestor>,
    pub object: u8,
    pub name: u8,
    pub parameter: Value,
    /// Whether the object is there when the fork is made. For the tally alone.
    pub was_there: bool,
}

impl Fork {
    pub fn root(session: &Session) -> Fork {
        Fork {
            level: session.root_level(),
            stamp: 0,
            depth: 0,
            ancestors: Vec::new(),
            object: session.root_object,
            name: session.root_name,
            parameter: session.root_parameter,
            was_there: true,
        }
    }
}
