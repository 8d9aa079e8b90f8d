//! The program round the module: lines in, one reply line out for each.
//!
//! Any line, however damaged, gets one reply. A last piece without 0A is a line too,
//! unless it is empty (the protocol's paper, §4.1.5 and §4.1.6).

use crate::frames::LONGEST_FRAME;
use crate::module::{answer, Answer, Registers, REPLY_SPACE};
use std::io::{self, BufRead, BufReader, Read, Write};

/// Bytes of a line worth keeping. A line with more digits than the longest frame
/// is refused 1 whatever its bytes, so one byte beyond is enough to tell.
pub const KEPT: usize = 2 * LONGEST_FRAME + 1;

/// Answers every line of `input` on `output`, from an unopened module. With
/// `trace`, the refusal number and the block count follow each reply.
pub fn run(input: impl Read, output: impl Write, trace: bool) -> io::Result<()> {
    let mut registers = Registers::default();
    serve(input, output, KEPT, &mut |line| reply(&answer(&mut registers, line, REPLY_SPACE), trace))
}

/// Writes what `reply` gives for each line of `input`, of which the first `kept`
/// bytes are shown to it. Replies are out before it waits for more input. A fault
/// says whether reading or writing failed.
pub fn serve(
    input: impl Read,
    mut output: impl Write,
    kept: usize,
    reply: &mut dyn FnMut(&[u8]) -> Vec<u8>,
) -> io::Result<()> {
    let mut input = BufReader::new(input);
    let mut line = Vec::new();
    loop {
        if input.buffer().is_empty() {
            output.flush().map_err(not_written)?;
        }
        let chunk = match input.fill_buf() {
            Err(fault) if fault.kind() == io::ErrorKind::Interrupted => continue,
            chunk => chunk.map_err(not_read)?,
        };
        if chunk.is_empty() {
            break;
        }
        let end = chunk.iter().position(|byte| *byte == b'\n');
        let piece = &chunk[..end.unwrap_or(chunk.len())];
        keep(&mut line, piece, kept);
        let used = piece.len() + usize::from(end.is_some());
        input.consume(used);
        if end.is_some() {
            output.write_all(&reply(&line)).map_err(not_written)?;
            line.clear();
        }
    }
    if !line.is_empty() {
        output.write_all(&reply(&line)).map_err(not_written)?;
    }
    output.flush().map_err(not_written)
}

fn not_read(fault: io::Error) -> io::Error {
    io::Error::new(fault.kind(), format!("the input could not be read: {}", fault))
}

fn not_written(fault: io::Error) -> io::Error {
    io::Error::new(fault.kind(), format!("the output could not be written: {}", fault))
}

/// Adds a piece to the line, but no more of it than is kept.
fn keep(line: &mut Vec<u8>, piece: &[u8], kept: usize) {
    let room = kept - line.len();
    line.extend_from_slice(&piece[..piece.len().min(room)]);
}

/// The reply line; traced, it is `REPLY REFUSAL BLOCKS`, the refusal being 0 for
/// an accepted line.
fn reply(answer: &Answer, trace: bool) -> Vec<u8> {
    let mut line = answer.reply_line.clone();
    if trace {
        line.pop();
        line.extend(format!(" {} {}\n", answer.refusal.unwrap_or(0), answer.blocks).bytes());
    }
    line
}
