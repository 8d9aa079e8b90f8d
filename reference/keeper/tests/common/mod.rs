//! What the tests of generators share.

#![allow(dead_code)]

use keeper::probes::Generate;
use std::process::{Command, Output};

/// What a generator makes hangs on its seed alone, a longer list begins as a shorter
/// one, and no probe holds the byte that ends a line.
pub fn assert_decided_by_seed(generate: Generate) {
    let made = |seed, count| {
        let mut all = Vec::new();
        generate(seed, count, &mut |probe| all.push(probe.to_vec()));
        all
    };
    assert!(made(1, 0).is_empty());
    assert_eq!(made(9, 300), made(9, 500)[..300]);
    assert_ne!(made(9, 300), made(10, 300));
    assert!(made(9, 5000).iter().all(|probe| !probe.contains(&b'\n')));
}

pub fn hex(bytes: &[u8]) -> String {
    bytes.iter().map(|byte| format!("{:02x}", byte)).collect()
}

/// Runs a program that reads nothing.
pub fn run(program: &str, arguments: &[&str]) -> Output {
    Command::new(program).args(arguments).output().expect("the program starts")
}
