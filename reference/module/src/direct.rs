//! Direct calls of the module as probes: registers, a line and a reply space, each of
//! any value.
//!
//! A session from an unopened module would need 2^64 - 1 changes for refusal 7, and a
//! program's reply space is never under 195 bytes, so that its sessions show no 15 (the
//! protocol's paper, 6.2). Here both are a call away.
//!
//! A direct call is the probe `mSSSS` and digits, or `hSSSS` and digits: the call with
//! the registers by value, and where they lie. Here both are answered alike. SSSS is the
//! reply space, each byte of which is ee before, and the digits stand for 73 bytes of
//! registers (root, counter, secret, 01 if open or 00) and the bytes of the line.
//!
//! The answer has the refusal number, the length of the reply's line (2 bytes), the
//! blocks (8 bytes), the registers afterwards and the digest of the whole reply space.

use crate::module::{self, Registers};
use crate::probes::{bytes_of, split_space, FILLER};
use crate::sha256::digest;

/// The bytes of registers, and the most bytes of a line.
pub const REGISTERS: usize = 73;
pub const MOST_LINE: usize = 4300;

/// One call of the module.
#[derive(Clone, Debug, PartialEq, Eq)]
pub struct Call {
    pub space: usize,
    pub registers: Registers,
    pub line: Vec<u8>,
}

impl Call {
    /// The call that a probe asks for, given without its letter.
    pub fn of(rest: &[u8]) -> Option<Call> {
        let (space, digits) = split_space(rest)?;
        let bytes = bytes_of(digits, REGISTERS + MOST_LINE)?;
        let registers = registers_of(bytes.get(..REGISTERS)?)?;
        Some(Call { space, registers, line: bytes[REGISTERS..].to_vec() })
    }

    /// What the call comes to, as the answer's bytes.
    pub fn answer(&self) -> Vec<u8> {
        let mut registers = self.registers.clone();
        let answer = module::answer(&mut registers, &self.line, self.space);
        let length = answer.reply_line.len();
        let mut space = vec![FILLER; self.space];
        space[..length].copy_from_slice(&answer.reply_line);
        let mut bytes = vec![answer.refusal.unwrap_or(0)];
        bytes.extend((length as u16).to_be_bytes());
        bytes.extend(answer.blocks.to_be_bytes());
        bytes.extend(spelled(&registers));
        bytes.extend(digest(&space));
        bytes
    }
}

fn registers_of(bytes: &[u8]) -> Option<Registers> {
    let opened = match bytes[72] {
        0 => false,
        1 => true,
        _ => return None,
    };
    Some(Registers {
        root: bytes[..32].try_into().ok()?,
        counter: u64::from_be_bytes(bytes[32..40].try_into().ok()?),
        secret: bytes[40..72].try_into().ok()?,
        opened,
    })
}

/// The 73 bytes that stand for registers, in a probe and in its answer.
pub fn spelled(registers: &Registers) -> Vec<u8> {
    let Registers { root, counter, secret, opened } = registers;
    [&root[..], &counter.to_be_bytes(), secret, &[u8::from(*opened)]].concat()
}
