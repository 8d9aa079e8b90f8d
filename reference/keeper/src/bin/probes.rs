//! `probes SEED N` writes N probes of the line reader, the line writer and the
//! digest to standard output, the same ones for the same seed, to be run through
//! two programs and compared (the protocol's paper, 4.2 and 4.3). `probes --direct SEED N` writes
//! direct calls of the module instead.

#![forbid(unsafe_code)]

use keeper::direct;
use keeper::probes::{self, Generate};
use std::io::{self, BufWriter, Write};
use std::process::exit;

fn main() {
    let arguments: Vec<String> = std::env::args().skip(1).collect();
    let (generate, seed, count) = match parse(&arguments) {
        Some(wanted) => wanted,
        None => {
            eprintln!("usage: probes [--direct] SEED N");
            eprintln!("SEED is a number from 0 to 2^64 - 1, N a number of probes.");
            exit(2);
        }
    };
    if let Err(fault) = write_probes(generate, seed, count) {
        eprintln!("probes: standard output could not be written: {}", fault);
        exit(1);
    }
}

fn parse(arguments: &[String]) -> Option<(Generate, u64, usize)> {
    let (generate, numbers): (Generate, _) = match arguments {
        [flag, numbers @ ..] if flag == "--direct" => (direct::generate, numbers),
        numbers => (probes::generate, numbers),
    };
    match numbers {
        [seed, count] => Some((generate, seed.parse().ok()?, count.parse().ok()?)),
        _ => None,
    }
}

fn write_probes(generate: Generate, seed: u64, count: usize) -> io::Result<()> {
    let mut output = BufWriter::new(io::stdout().lock());
    let mut written = Ok(());
    generate(seed, count, &mut |probe| {
        if written.is_ok() {
            written = output.write_all(probe).and_then(|()| output.write_all(b"\n"));
        }
    });
    written.and_then(|()| output.flush())
}
