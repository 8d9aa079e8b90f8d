//! Probes of the line reader, the line writer and the digest, and their answers. Direct
//! calls of the module are answered here too.
//!
//! Reading a line and writing a frame refuse 1, 2, 3 and then 15, and a refusal writes
//! nothing; what is accepted writes its own bytes and leaves the others (the protocol's
//! paper, 4.2 and 4.3). So each probe of them names a space, and the answer shows every byte
//! of it afterwards.
//!
//! A probe is a line, one of
//!
//! - `rSSSS` and a line of any bytes: to be read into frame space of SSSS bytes;
//! - `wSSSS` and the digits of a frame: to be written into line space of SSSS bytes;
//! - `mSSSS` or `hSSSS` and digits: a direct call of the module (`direct`);
//! - the digits of a message: to be digested.
//!
//! All digits are lower-case hexadecimal. The answer to `r` and `w` is the refusal
//! number, 00 if accepted, in two digits, and the digest of the whole space; to a
//! message, its digest; to any other line, `?`.

use crate::direct::Call;
use crate::frames::{line_of, read_line, value, write_frame};
use crate::sha256::digest;

/// What every byte of a space is beforehand.
pub const FILLER: u8 = 0xee;

/// The most bytes of space, of a frame to be written and of a message.
pub const MOST_SPACE: usize = 4400;
pub const MOST_FRAME: usize = 4096;
pub const MOST_MESSAGE: usize = 8192;

/// Bytes of a probe worth keeping: one more than the longest message's digits. A
/// longer line is answered like its first bytes.
pub const KEPT: usize = 2 * MOST_MESSAGE + 1;

/// Answers a probe, given without its 0A. The answer ends with 0A.
pub fn answer(probe: &[u8]) -> Vec<u8> {
    let answer = match probe.split_first() {
        Some((b'r', rest)) => answer_read(rest),
        Some((b'w', rest)) => answer_write(rest),
        Some((b'm' | b'h', rest)) => Call::of(rest).map(|call| call.answer()),
        _ => bytes_of(probe, MOST_MESSAGE).map(|message| digest(&message).to_vec()),
    };
    answer.map_or_else(|| b"?\n".to_vec(), |bytes| line_of(&bytes))
}

fn answer_read(rest: &[u8]) -> Option<Vec<u8>> {
    let (space, line) = split_space(rest)?;
    Some(outcome(space, read_line(line, space)))
}

fn answer_write(rest: &[u8]) -> Option<Vec<u8>> {
    let (space, digits) = split_space(rest)?;
    let frame = bytes_of(digits, MOST_FRAME)?;
    Some(outcome(space, write_frame(&frame, space)))
}

/// The space that SSSS names, and what stands behind it.
pub(crate) fn split_space(rest: &[u8]) -> Option<(usize, &[u8])> {
    let named: [u8; 2] = bytes_of(rest.get(..4)?, 2)?.try_into().ok()?;
    let space = usize::from(u16::from_be_bytes(named));
    Some((space, &rest[4..])).filter(|_| space <= MOST_SPACE)
}

/// The bytes of digits, which may be none; at most `most` bytes.
pub(crate) fn bytes_of(digits: &[u8], most: usize) -> Option<Vec<u8>> {
    if digits.len() % 2 != 0 || digits.len() > 2 * most {
        return None;
    }
    let byte = |pair: &[u8]| Some(value(pair[0]).ok()? << 4 | value(pair[1]).ok()?);
    digits.chunks_exact(2).map(byte).collect()
}

/// The refusal number, and the digest of the space after what was written.
fn outcome(space: usize, written: Result<Vec<u8>, u8>) -> Vec<u8> {
    let mut bytes = vec![FILLER; space];
    let refusal = match written {
        Ok(own) => {
            bytes[..own.len()].copy_from_slice(&own);
            0
        }
        Err(number) => number,
    };
    [&[refusal][..], &digest(&bytes)].concat()
}
