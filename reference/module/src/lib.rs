//! The second module: the whole of the protocol's paper (docs/PROTOCOL.md) once more in
//! ordinary Rust, written from that page alone. Whole sessions, probes and direct calls are
//! run through it and through the proved module, and compared line by line.
//!
//! This package is all that is compared, and depends on nothing. The keeper and `explain`
//! stand in packages of their own that use it, and cannot change it.

#![forbid(unsafe_code)]

pub mod direct;
pub mod frames;
pub mod module;
pub mod probes;
pub mod program;
pub mod sha256;
pub mod strings;
