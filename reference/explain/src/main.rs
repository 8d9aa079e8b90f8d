//! `explain [--replies]` reads request lines from standard input and says each in one
//! plain sentence. With `--replies` requests and their replies come by turns,
//! and each reply is told as the answer to its request.

#![forbid(unsafe_code)]

use std::io::{self, BufWriter};
use std::process::exit;

fn main() {
    let arguments: Vec<_> = std::env::args_os().skip(1).collect();
    let replies = match arguments.as_slice() {
        [] => false,
        [only] if only == "--replies" => true,
        _ => {
            eprintln!("explain: the only argument is --replies, and lines come by standard input.");
            exit(2);
        }
    };
    let output = BufWriter::new(io::stdout().lock());
    if let Err(fault) = explain::run(io::stdin().lock(), output, replies) {
        eprintln!("explain: {}", fault);
        exit(1);
    }
}
