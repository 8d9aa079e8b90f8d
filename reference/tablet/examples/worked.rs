//! Reads wishes, one to a line, carries each through with the second module in memory, from an
//! empty list, and writes how many digests the second keeper worked for it. For
//! `scripts/bench-keeper`.

#![forbid(unsafe_code)]

use reference::module::{answer, Registers, REPLY_SPACE};
use std::io::{self, BufRead, BufWriter, Write};
use tablet::keeper::{Keeper, Say};
use tablet::words::{self, Word};

/// A line without its 0A.
fn without_end(line: &[u8]) -> &[u8] {
    line.strip_suffix(b"\n").unwrap_or(line)
}

/// Carries a line through, if it is a wish, until there is nothing more for the module.
fn carry(keeper: &mut Keeper, module: &mut Registers, line: &str) {
    let mut next = match words::parse(line.as_bytes()) {
        Some(Word::Wish(wish)) => keeper.wish(wish).ok(),
        _ => None,
    };
    while let Some(line) = next {
        let reply = answer(module, without_end(&line), REPLY_SPACE).reply_line;
        next = match keeper.hear(without_end(&reply)).say {
            Say::Line(line) => Some(line),
            _ => None,
        };
    }
}

fn main() -> io::Result<()> {
    let mut keeper = Keeper::load(b"").expect("an empty store can be loaded");
    let mut module = Registers { secret: [1; 32], opened: true, ..Registers::default() };
    let mut output = BufWriter::new(io::stdout().lock());
    for line in io::stdin().lock().lines() {
        let before = keeper.worked();
        carry(&mut keeper, &mut module, &line?);
        writeln!(output, "{}", keeper.worked() - before)?;
    }
    output.flush()
}
