//! The program round the keeper: wishes and replies in, lines and words out, and the store.
//!
//! Every line that comes gets one line, which is out before the next is read.

use crate::keeper::{Keeper, Say};
use crate::store;
use crate::words::{self, Word};
use std::io::{self, BufRead, Write};
use std::path::Path;

/// Bytes of an input line worth keeping: no wish and no reply has as many.
const KEPT: usize = 256;

/// How the program ended.
#[derive(Clone, Copy, Debug, PartialEq, Eq)]
pub enum Ended {
    /// Standard input ended.
    Input,
    /// The store could not be loaded.
    NotLoaded,
    /// The store could not be written.
    NotWritten,
}

/// Answers every line of `input` on `output`, keeping the store at `path`. A fault is one of
/// input or output.
pub fn run(path: &Path, mut input: impl BufRead, mut output: impl Write) -> io::Result<Ended> {
    let mut keeper = match store::read(path) {
        Ok(leaves) => Keeper::of(leaves),
        Err(broken) => {
            say(&mut output, &words::ended(&words::broken(&broken)))?;
            return Ok(Ended::NotLoaded);
        }
    };
    while let Some(line) = next_line(&mut input)? {
        match answer(&mut keeper, path, &line) {
            Ok(answer) => say(&mut output, &answer)?,
            Err(_) => {
                say(&mut output, &words::ended(words::NOT_WRITTEN))?;
                return Ok(Ended::NotWritten);
            }
        }
    }
    Ok(Ended::Input)
}

/// The answer to one line, with its 0A. A fault is one of writing the store.
fn answer(keeper: &mut Keeper, path: &Path, line: &[u8]) -> io::Result<Vec<u8>> {
    if keeper.awaits() {
        let heard = keeper.hear(line);
        if heard.changed {
            store::write(path, keeper.leaves())?;
        }
        return Ok(words::line(&heard.say));
    }
    Ok(match words::parse(line) {
        Some(Word::Counter(counter)) => {
            keeper.set_counter(counter);
            words::line(&Say::Done)
        }
        Some(Word::Wish(wish)) => match keeper.wish(wish) {
            Ok(line) => line,
            Err(refusal) => words::ended(&words::refused(refusal)),
        },
        None => words::ended(words::WHAT),
    })
}

/// Writes a line, and sees that it is out.
fn say(output: &mut impl Write, line: &[u8]) -> io::Result<()> {
    output.write_all(line).and_then(|()| output.flush()).map_err(|fault| {
        io::Error::new(fault.kind(), format!("the output could not be written: {}", fault))
    })
}

/// The next line without its 0A, as much of it as is worth keeping; none at the end. A last
/// piece without 0A is a line where it is not empty.
fn next_line(input: &mut impl BufRead) -> io::Result<Option<Vec<u8>>> {
    let mut line = Vec::new();
    let mut some = false;
    loop {
        let chunk = match input.fill_buf() {
            Err(fault) if fault.kind() == io::ErrorKind::Interrupted => continue,
            Err(fault) => {
                let told = format!("the input could not be read: {}", fault);
                return Err(io::Error::new(fault.kind(), told));
            }
            Ok(chunk) => chunk,
        };
        if chunk.is_empty() {
            return Ok(some.then_some(line));
        }
        some = true;
        let end = chunk.iter().position(|byte| *byte == b'\n');
        let piece = &chunk[..end.unwrap_or(chunk.len())];
        let used = piece.len() + usize::from(end.is_some());
        line.extend(piece.iter().take(KEPT - line.len()));
        input.consume(used);
        if end.is_some() {
            return Ok(Some(line));
        }
    }
}

#[cfg(test)]
mod tests {
    use super::*;
    use std::io::BufReader;

    fn lines(input: &[u8], buffer: usize) -> Vec<Vec<u8>> {
        let mut input = BufReader::with_capacity(buffer, input);
        std::iter::from_fn(|| next_line(&mut input).unwrap()).collect()
    }

    #[test]
    fn lines_of_the_input() {
        for buffer in [1, 2, 3, 1000] {
            assert!(lines(b"", buffer).is_empty());
            assert_eq!(lines(b"\n", buffer), [b""]);
            assert_eq!(lines(b"ab\n\nc\r\nd", buffer), [&b"ab"[..], b"", b"c\r", b"d"]);
            let long = lines(&[&[b'7'; 5000][..], b"\nx"].concat(), buffer);
            assert_eq!(long, [&[b'7'; KEPT][..], b"x"]);
        }
    }
}
