//! The other end of the line: an honest keeper of the tree, the list replayed from lines and
//! replies alone, and generators of sessions, probes and direct calls, each decided by a seed.
//!
//! What is made here is run through the second module (package `reference`) and through the
//! proved one, and compared. Nothing here is part of either.

#![forbid(unsafe_code)]

pub mod direct;
pub mod hostile;
pub mod keeper;
pub mod probes;
pub mod random;
pub mod replay;
pub mod sessions;
pub mod tree;
