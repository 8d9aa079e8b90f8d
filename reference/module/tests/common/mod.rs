//! What the tests share. Strings are put together here from the paper's table
//! by hand, beside the package's own `strings` module, so that a slip there shows.

#![allow(dead_code)]

use reference::module::{answer, Answer, Registers};
use reference::sha256;
use std::fs::File;
use std::io::Write;
use std::process::{Command, Output, Stdio};

pub type Digest = [u8; 32];

pub const ZERO: Digest = [0; 32];
pub const SECRET: Digest = [1; 32];

/// A record as its four numbers: v1, v2, v3, v4.
pub type Numbers = [u64; 4];

pub const NO_RECORD: Numbers = [0; 4];

/// A byte and then fields: a tagged string, or a frame.
pub fn bytes(first: u8, fields: &[&[u8]]) -> Vec<u8> {
    let mut all = vec![first];
    for field in fields {
        all.extend_from_slice(field);
    }
    all
}

pub fn hash(tag: u8, fields: &[&[u8]]) -> Digest {
    sha256::digest(&bytes(tag, fields))
}

pub fn be(number: u64) -> [u8; 8] {
    number.to_be_bytes()
}

/// Several numbers, 8 bytes each.
pub fn numbers(list: &[u64]) -> Vec<u8> {
    list.iter().flat_map(|number| number.to_be_bytes()).collect()
}

pub fn leaf(item: u64, next: u64, hash_of_record: &Digest) -> Digest {
    hash(1, &[&be(item), &be(next), hash_of_record])
}

pub fn node(left: &Digest, right: &Digest) -> Digest {
    hash(2, &[left, right])
}

pub fn record_hash(record: Numbers) -> Digest {
    if record[0] == 0 {
        ZERO
    } else {
        hash(3, &[&numbers(&record)])
    }
}

pub fn u1(x: &Digest, y: &Digest, x_new: &Digest, y_new: &Digest) -> Digest {
    hash(4, &[x, y, x_new, y_new, &SECRET])
}

pub fn v1(x: &Digest, y: &Digest) -> Digest {
    hash(5, &[x, y, &SECRET])
}

pub fn u2(old: [&Digest; 3], new: [&Digest; 3]) -> Digest {
    hash(6, &[old[0], old[1], old[2], new[0], new[1], new[2], &SECRET])
}

pub fn ei(y: &Digest, y_new: &Digest) -> Digest {
    hash(7, &[y, y_new, &SECRET])
}

/// Bytes of a frame of each kind from 02 on, added up by hand from the table: numbers 8,
/// digests and records 32 bytes each, and the kind.
pub const LENGTHS: [usize; 15] = [
    1 + 3 * 32,
    1 + 8 * 32,
    1 + 10 * 32,
    1 + 10 * 32,
    1 + 5 * 32,
    1 + 8,
    1 + 3 * 8 + 4 * 32,
    1 + 3 * 32,
    1 + 5 * 32,
    1 + 3 * 32,
    1 + 2 * 8 + 32 + 3 * 8 + 3 * 32,
    1 + 2 * 8 + 32 + 3 * 32,
    1 + 3 * 8 + 32 + 2 * 32,
    1 + 8,
    1 + 32,
];

/// A good frame of a kind whose bytes differ from place to place and from round to round.
/// A path has a level more each round, from none to 64.
pub fn varied_frame(kind: u8, round: usize) -> Vec<u8> {
    let levels = round % 65;
    let length = if kind == 0x01 { 74 + 32 * levels } else { LENGTHS[usize::from(kind) - 2] };
    let mut frame: Vec<u8> = (0..length).map(|at| (at * 37 + round * 101) as u8).collect();
    frame[0] = kind;
    if kind == 0x01 {
        let below_levels = (1u128 << levels) - 1;
        let sides = 0xa5a5_5a5a_0ff0_3cc3 & below_levels as u64;
        frame[65] = levels as u8;
        frame[66..74].copy_from_slice(&be(sides));
    }
    frame
}

/// A module opened with `SECRET`.
pub fn open_module(root: Digest, counter: u64) -> Registers {
    Registers { root, counter, secret: SECRET, opened: true }
}

pub fn hex(bytes: &[u8]) -> String {
    bytes.iter().map(|byte| format!("{:02x}", byte)).collect()
}

/// Sends a frame with reply space of 195 bytes.
pub fn send(registers: &mut Registers, frame: &[u8]) -> Answer {
    answer(registers, hex(frame).as_bytes(), 195)
}

/// Sends a frame that must be accepted, with this reply and this block count.
pub fn accepted(registers: &mut Registers, frame: &[u8], reply: &[u8], blocks: u64) {
    let got = send(registers, frame);
    assert_eq!(got.refusal, None, "frame {}", hex(frame));
    assert_eq!(String::from_utf8(got.reply_line).unwrap(), hex(reply) + "\n");
    assert_eq!(got.blocks, blocks, "frame {}", hex(frame));
}

/// Sends a frame that must be refused, with this number and this block count, and
/// sees that the registers stay as they were.
pub fn refused(registers: &Registers, frame: &[u8], number: u8, blocks: u64) {
    let mut after = registers.clone();
    let got = send(&mut after, frame);
    assert_eq!(got.refusal, Some(number), "frame {}", hex(frame));
    assert_eq!(String::from_utf8(got.reply_line).unwrap(), format!("00{:02x}\n", number));
    assert_eq!(got.blocks, blocks, "frame {}", hex(frame));
    assert_eq!(got.issued, None);
    assert_eq!(&after, registers);
}

/// A digest that stands for nothing in particular.
pub fn some(n: u8) -> Digest {
    hash(0xff, &[&[n]])
}

/// The digest with one bit turned over.
pub fn damaged(digest: &Digest) -> Digest {
    let mut other = *digest;
    other[31] ^= 1;
    other
}

/// Sees that a program says what it could not do, and fails: reading from a directory, and
/// writing to a full device.
pub fn tells_faults(program: &str) {
    let fails = |input: &str, output: &str| {
        let input = File::open(input).expect("it is there");
        let output = File::create(output).expect("it is there");
        let run = Command::new(program).stdin(input).stdout(output).output().unwrap();
        assert_eq!(run.status.code(), Some(1), "{}", program);
        String::from_utf8(run.stderr).unwrap()
    };
    let told = fails("/", "/dev/null");
    assert!(told.contains(": the input could not be read: "), "{}", told);
    let told = fails(concat!(env!("CARGO_MANIFEST_DIR"), "/Cargo.toml"), "/dev/full");
    assert!(told.contains(": the output could not be written: "), "{}", told);
}

/// Runs a program on some input and gives what it wrote. The input is written
/// from another thread, for the program answers while it reads.
pub fn run(program: &str, arguments: &[&str], input: &[u8]) -> Output {
    let mut child = Command::new(program)
        .args(arguments)
        .stdin(Stdio::piped())
        .stdout(Stdio::piped())
        .stderr(Stdio::piped())
        .spawn()
        .expect("the program starts");
    let mut pipe = child.stdin.take().expect("it has an input");
    let input = input.to_vec();
    let writer = std::thread::spawn(move || {
        // A program that stops early closes the pipe; that is its affair.
        let _ = pipe.write_all(&input);
    });
    let output = child.wait_with_output().expect("the program ends");
    writer.join().expect("the input is written");
    output
}
