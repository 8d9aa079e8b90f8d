//! What a line says, in one plain sentence: the kind of request, the items, masses
//! with their units, and for a refusal what was wrong and what to do about it.
//!
//! The protocol's paper, sections 4 to 6. Which lines are
//! bad is decided by `frames`, and which numbers are refused by the checks of
//! `module`; here that is only put into words. No secret and no root is known here:
//! a sentence tells what a line says, and never that it is true.

#![forbid(unsafe_code)]

mod replies;
mod requests;
mod words;

use reference::frames::{
    parse, read_line, unhex, value, Request, BAD_LENGTH, LONGEST_FRAME, MOST_SIBLINGS, UNKNOWN_KIND,
};
use reference::program::{serve, KEPT};
use std::io::{self, Read, Write};
use words::{count, group};

/// The kinds of the table from 01 on: the name, and the bytes of its frame. A path's
/// are those before its siblings.
const KINDS: [(&str, usize); 16] = [
    ("Path", 74),
    ("Witness", 97),
    ("Join", 257),
    ("Pair", 321),
    ("Raise", 321),
    ("Swap", 161),
    ("First", 9),
    ("Place", 153),
    ("Turn", 97),
    ("Chain", 161),
    ("Adopt", 97),
    ("Set", 169),
    ("Clear", 145),
    ("Ask", 121),
    ("Ask of none", 9),
    ("Open", 33),
];

/// Writes one sentence for each line of `input`. With `replies` every second line is
/// the reply to the request before it; a last request may lack one.
pub fn run(input: impl Read, output: impl Write, replies: bool) -> io::Result<()> {
    let mut unanswered: Option<Vec<u8>> = None;
    serve(input, output, KEPT, &mut |line| {
        let sentence = match unanswered.take() {
            Some(asked) => reply(&asked, line),
            None => {
                unanswered = replies.then(|| line.to_vec());
                request(line)
            }
        };
        (sentence + "\n").into_bytes()
    })
}

/// The sentence for a request line, given without its 0A.
pub fn request(line: &[u8]) -> String {
    match read(line) {
        Ok(request) => requests::sentence(&request),
        Err(bad) => format!("Bad line (refusal {}): {}.", bad.refusal, bad.why),
    }
}

/// The sentence for the reply to a request, both lines given without their 0A.
pub fn reply(asked: &[u8], line: &[u8]) -> String {
    let told = match unhex(line) {
        Ok(frame) => replies::sentence(&read(asked), &frame),
        Err(_) => Err(why_not_digits(line)),
    };
    told.unwrap_or_else(|why| format!("Bad reply: {}.", why))
}

/// A line that is no request: the refusal it gets, and why.
struct Bad {
    refusal: u8,
    why: String,
}

fn read(line: &[u8]) -> Result<Request, Bad> {
    let read = read_line(line, LONGEST_FRAME).and_then(|frame| parse(&frame));
    read.map_err(|refusal| Bad { refusal, why: why_bad(refusal, line) })
}

fn why_bad(refusal: u8, line: &[u8]) -> String {
    let frame = unhex(line).unwrap_or_default();
    match (refusal, frame.first()) {
        (UNKNOWN_KIND, Some(kind)) => format!("there is no kind {:02x}, only 01 to 10", kind),
        (BAD_LENGTH, Some(0x01)) => why_bad_path(&frame),
        (BAD_LENGTH, Some(kind)) => {
            let (_, bytes) = KINDS[usize::from(*kind) - 1];
            wrong_length(&format!("a line of {}", kind_words(*kind)), bytes, frame.len())
        }
        _ => why_not_digits(line),
    }
}

/// Why a line is not one of hexadecimal. The byte itself is not shown: it may be one
/// of a secret.
fn why_not_digits(line: &[u8]) -> String {
    let most = 2 * LONGEST_FRAME;
    let other = line.iter().position(|byte| value(*byte).is_err());
    if line.is_empty() {
        "it is empty".to_string()
    } else if line.len() > most {
        format!("it is longer than {}, the most a line may have", count(most, "digit"))
    } else if let Some(at) = other {
        let found = name_of_byte(line[at]);
        format!("position {} holds {}, and only 0-9 and a-f are allowed", at + 1, found)
    } else {
        format!("it has {}, and they have to come in twos", count(line.len(), "digit"))
    }
}

fn name_of_byte(byte: u8) -> &'static str {
    match byte {
        b'A'..=b'F' => "an upper-case digit",
        b'\r' => "a carriage return",
        b' ' => "a space",
        b'\t' => "a tab",
        _ => "a byte that is no digit",
    }
}

/// Why a path is refused 3. Its n stands behind x and x', then come the sides.
fn why_bad_path(frame: &[u8]) -> String {
    let (siblings, sides) = match (frame.get(65), frame.get(66..74)) {
        (Some(n), Some(sides)) => (usize::from(*n), words::number(sides)),
        _ => return wrong_length("even a path without siblings", 74, frame.len()),
    };
    let path = format!("a path with {}", count(siblings, "sibling"));
    if siblings > MOST_SIBLINGS {
        return format!("it is {}, and {} are the most", path, MOST_SIBLINGS);
    }
    match (siblings..MOST_SIBLINGS).find(|bit| sides >> bit & 1 == 1) {
        Some(bit) => format!("it is {}, and yet bit {} of its sides is 1", path, bit),
        None => wrong_length(&path, 74 + 32 * siblings, frame.len()),
    }
}

/// Lengths are given in bytes and told in digits, as they stand in the line.
fn wrong_length(what: &str, right: usize, wrong: usize) -> String {
    let digits = |bytes: usize| group(2 * bytes as u64);
    format!("{} has {} digits, and this one has {}", what, digits(right), digits(wrong))
}

fn kind_of(request: &Request) -> u8 {
    request.frame()[0]
}

/// A kind of the table by number and name.
fn kind_words(kind: u8) -> String {
    let (name, _) = KINDS[usize::from(kind) - 1];
    format!("kind {:02x} ({})", kind, name.to_lowercase())
}
