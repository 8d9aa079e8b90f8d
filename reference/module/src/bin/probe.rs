//! `probe` reads probes from standard input and writes one answer line for each:
//! lines to be read and frames to be written in a stated space (the protocol's
//! paper, 4.2 and 4.3), and messages to be digested.

#![forbid(unsafe_code)]

use reference::{probes, program};
use std::io::{self, BufWriter};
use std::process::exit;

fn main() {
    if std::env::args().len() > 1 {
        eprintln!("usage: probe");
        exit(2);
    }
    let output = BufWriter::new(io::stdout().lock());
    let served = program::serve(io::stdin().lock(), output, probes::KEPT, &mut probes::answer);
    if let Err(fault) = served {
        eprintln!("probe: {}", fault);
        exit(1);
    }
}
