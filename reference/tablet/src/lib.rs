//! The second keeper: the tablet's half of the protocol once more in ordinary Rust. It keeps
//! the leaves and the tree, makes the lines for every wish, judges the replies and keeps the
//! store. Its lines, words and stores are compared with those of the proved keeper.

#![forbid(unsafe_code)]

pub mod digests;
pub mod keeper;
pub mod program;
pub mod store;
pub mod talk;
pub mod tree;
pub mod wishes;
pub mod words;
