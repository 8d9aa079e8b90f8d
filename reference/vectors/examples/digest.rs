//! A digest program for `vectors` to drive: messages in lower-case hexadecimal,
//! one to a line, in; each digest, 64 digits and 0A, out at once. A line that is
//! no hexadecimal ends it.

#![forbid(unsafe_code)]

use reference::sha256;
use std::io::{self, BufRead, Write};
use std::process::exit;

fn main() -> io::Result<()> {
    let mut output = io::stdout().lock();
    for line in io::stdin().lock().lines() {
        let message = match vectors::from_hex(&line?) {
            Some(message) => message,
            None => exit(1),
        };
        writeln!(output, "{}", vectors::to_hex(&sha256::digest(&message)))?;
        output.flush()?;
    }
    Ok(())
}
