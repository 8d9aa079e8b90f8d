//! `wishes SEED N` writes N lines for a keeper to standard output, the same ones each time for a
//! seed: wishes that are legal and ones that are not, and lines that are no wish.

#![forbid(unsafe_code)]

use std::io::{self, BufWriter, Write};
use std::process::exit;
use tablet::wishes;

fn main() {
    let arguments: Vec<String> = std::env::args().skip(1).collect();
    let (seed, count) = match parse(&arguments) {
        Some(numbers) => numbers,
        None => {
            eprintln!("usage: wishes SEED N");
            eprintln!("SEED is a number from 0 to 2^64 - 1, N a number of lines.");
            exit(2);
        }
    };
    if let Err(fault) = write(seed, count) {
        eprintln!("wishes: standard output could not be written: {}", fault);
        exit(1);
    }
}

fn parse(arguments: &[String]) -> Option<(u64, usize)> {
    match arguments {
        [seed, count] => Some((seed.parse().ok()?, count.parse().ok()?)),
        _ => None,
    }
}

fn write(seed: u64, count: usize) -> io::Result<()> {
    let mut output = BufWriter::new(io::stdout().lock());
    for line in wishes::generate(seed, count) {
        output.write_all(&line)?;
        output.write_all(b"\n")?;
    }
    output.flush()
}
