//! Document 01 as document 02 changes it, written from the texts and from nothing
//! else: the check, the timetabled, the plain and the depth-first run, and the page.

mod check;
mod depth_first;
mod filter;
mod fork;
mod lattice;
mod level;
mod manager;
mod notes;
mod objects;
mod outcome;
mod page;
mod permits;
mod runs;
mod scheduler;
mod session;
mod versions;
mod writes;

pub use check::check;
pub use lattice::Lattice;
pub use objects::made_by;
pub use outcome::Outcome;
pub use page::page;
pub use runs::{depth_first, plain, timetabled, Reference};
pub use scheduler::Scheduler;
pub use session::{emptied, Session};
