//! Tests of the library against an independent implementation of documents 01 and 02.

pub mod clearances;
pub mod counts;
pub mod ffi;
pub mod guarded;
pub mod library;
pub mod limits;
pub mod measured;
pub mod padding;
pub mod random;
pub mod record;
pub mod reference;
pub mod request;
pub mod sessions;
pub mod stated;
pub mod tables;
pub mod tally;
pub mod timetables;
pub mod trial;
pub mod tuned;
pub mod vectors;
