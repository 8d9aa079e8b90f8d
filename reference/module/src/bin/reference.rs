//! `reference [--trace]` reads lines from standard input and writes one reply line
//! for each (the protocol's paper, §4.1.6). With `--trace` each reply is followed by
//! the refusal number (0 if accepted) and the SHA-256 blocks worked.

#![forbid(unsafe_code)]

use reference::program;
use std::io::{self, BufWriter};
use std::process::exit;

fn main() {
    let arguments: Vec<String> = std::env::args().skip(1).collect();
    let trace = match arguments.as_slice() {
        [] => false,
        [only] if only == "--trace" => true,
        _ => {
            eprintln!("usage: reference [--trace]");
            exit(2);
        }
    };
    let output = BufWriter::new(io::stdout().lock());
    if let Err(fault) = program::run(io::stdin().lock(), output, trace) {
        eprintln!("reference: {}", fault);
        exit(1);
    }
}
