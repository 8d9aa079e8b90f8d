//! `sessions SEED N` writes a session of at least N lines to standard output, the
//! same one for the same seed and N: honest runs with hostile lines in between,
//! to be run through two programs and compared.

#![forbid(unsafe_code)]

use keeper::sessions;
use std::io::{self, BufWriter, Write};
use std::process::exit;

fn main() {
    let arguments: Vec<String> = std::env::args().skip(1).collect();
    let (seed, lines) = match parse(&arguments) {
        Some(numbers) => numbers,
        None => {
            eprintln!("usage: sessions SEED N");
            eprintln!("SEED is a number from 0 to 2^64 - 1, N a number of lines.");
            exit(2);
        }
    };
    if let Err(fault) = write_session(seed, lines) {
        eprintln!("sessions: standard output could not be written: {}", fault);
        exit(1);
    }
}

fn parse(arguments: &[String]) -> Option<(u64, usize)> {
    match arguments {
        [seed, lines] => Some((seed.parse().ok()?, lines.parse().ok()?)),
        _ => None,
    }
}

fn write_session(seed: u64, lines: usize) -> io::Result<()> {
    let mut output = BufWriter::new(io::stdout().lock());
    let mut written = Ok(());
    sessions::generate(seed, lines, &mut |step| {
        if written.is_ok() {
            written = output.write_all(step.line).and_then(|()| output.write_all(b"\n"));
        }
    });
    written.and_then(|()| output.flush())
}
