//! Direct calls of the module, made from a seed: registers, a line and a reply space,
//! each of any value. How a call is spelled and answered stands in `reference::direct`.

use crate::hostile::{below_bit, digits, digits_of_length, path, random_frame, with_byte};
use crate::probes::{damaged_frame, damaged_line, too_much_space, with_space};
use crate::random::Random;
use reference::direct::{spelled, Call, MOST_LINE, REGISTERS};
use reference::frames::{Request, KINDS, MOST_SIBLINGS};
use reference::module::Registers;
use reference::probes::MOST_SPACE;
use reference::strings::{in_gap, Digest, Formed, One, Record, Two, ZERO};

/// The probe that asks for a call by a letter, m or h.
pub fn probe(call: &Call, letter: u8) -> Vec<u8> {
    let question = [spelled(&call.registers), call.line.clone()].concat();
    with_space(letter, call.space, &digits(&question))
}

/// Makes that many probes and shows each, without 0A, to `sink`. The first of them
/// are the same however many follow.
pub fn generate(seed: u64, probes: usize, sink: &mut dyn FnMut(&[u8])) {
    let mut random = Random::new(seed);
    for _ in 0..probes {
        let letter = if random.percent(60) { b'm' } else { b'h' };
        let probe = probe(&call(&mut random), letter);
        let probe = if random.percent(4) { stray(probe, &mut random) } else { probe };
        sink(&probe);
    }
}

fn call(random: &mut Random) -> Call {
    let counter = counter(random);
    let secret = if random.percent(15) { ZERO } else { random.digest() };
    let opened = random.percent(90);
    let kind = kind(opened, random);
    let mut maker = Maker { counter, secret, formed: Formed::new(), random };
    let request = maker.request(kind);
    let root = root(&request, random);
    let line = line(&request, random);
    Call { space: space(random), registers: Registers { root, counter, secret, opened }, line }
}

/// Edges of the counter, and any.
fn counter(random: &mut Random) -> u64 {
    match random.below(9) {
        0 => 0,
        1 => 1,
        2 => (1 << 32) - 1,
        3 => 1 << 32,
        4 => u64::MAX - 2,
        5 => u64::MAX - 1,
        6 | 7 => u64::MAX,
        _ => random.number(),
    }
}

/// Any kind; oftener those that look at root and counter, and open where it counts.
fn kind(opened: bool, random: &mut Random) -> u8 {
    match random.below(10) {
        0..=4 if opened => 0x0b + random.below(5) as u8,
        0..=4 => 0x10,
        _ => 1 + random.below(usize::from(*KINDS.end())) as u8,
    }
}

/// The y that the request wants to be the root, or else zero or any digest.
fn root(request: &Request, random: &mut Random) -> Digest {
    let wanted = match request {
        Request::Adopt { y, .. } | Request::Set { y, .. } => Some(*y),
        Request::Clear { y, .. } | Request::Ask { y, .. } => Some(*y),
        Request::AskNone { .. } => Some(ZERO),
        _ => None,
    };
    match wanted {
        Some(y) if random.percent(75) => y,
        _ if random.percent(40) => ZERO,
        _ => random.digest(),
    }
}

/// Mostly enough of it; every edge of 195 and of a refusal's line of 5 bytes.
fn space(random: &mut Random) -> usize {
    match random.below(28) {
        0 => 0,
        1 => 1,
        2 => 4,
        3 => 5,
        4 => 194,
        5 => random.below(195),
        6..=12 => 195,
        13..=16 => 196,
        17..=19 => MOST_SPACE,
        _ => 195 + random.below(MOST_SPACE - 194),
    }
}

/// The line of a request, mostly as it is.
fn line(request: &Request, random: &mut Random) -> Vec<u8> {
    let frame = request.frame();
    let mut line = match random.below(24) {
        0 => with_a_bit_turned(frame, random),
        1 => with_another_byte(digits(&frame), random),
        2 => damaged_line(random),
        3 => digits(&damaged_frame(random)),
        4 => digits(&random_frame(frame[0], random)),
        5 if random.percent(50) => digits_of_length(4243 + random.below(4), random),
        5 => longest(random),
        6 => any_bytes(random),
        _ => digits(&frame),
    };
    line.truncate(MOST_LINE);
    line
}

fn with_a_bit_turned(mut frame: Vec<u8>, random: &mut Random) -> Vec<u8> {
    let at = random.below(frame.len());
    frame[at] ^= 1 << random.below(8);
    digits(&frame)
}

/// A byte made any byte, 0A too, or one put behind the line.
fn with_another_byte(mut line: Vec<u8>, random: &mut Random) -> Vec<u8> {
    let byte = if random.percent(30) { b'\n' } else { random.number() as u8 };
    if random.percent(40) {
        line.push(byte);
        return line;
    }
    with_byte(line, random, byte)
}

/// The longest path, whole or with digits more or fewer.
fn longest(random: &mut Random) -> Vec<u8> {
    let sides = random.number();
    let mut line = digits(&path(MOST_SIBLINGS, MOST_SIBLINGS, sides, random));
    line.resize(4243 + random.below(4), b'0');
    line
}

/// Bytes of every value, in a line of any length that a probe may carry.
fn any_bytes(random: &mut Random) -> Vec<u8> {
    let most = if random.percent(20) { MOST_LINE } else { 400 };
    let length = random.below(most + 1);
    random.bytes(length)
}

/// Lines that are no probes: a space too large, too few or too many bytes,
/// registers neither open nor not, other bytes than digits, an odd number of them.
fn stray(probe: Vec<u8>, random: &mut Random) -> Vec<u8> {
    let registers = 5 + 2 * REGISTERS;
    match random.below(7) {
        0 => with_space(probe[0], too_much_space(random), &probe[5..]),
        1 => probe[..1 + random.below(registers - 1)].to_vec(),
        2 => {
            let line = digits_of_length(2 * MOST_LINE + 2, random);
            [&probe[..registers], &line].concat()
        }
        3 => {
            let opened = digits(&[2 + random.below(254) as u8]);
            [&probe[..registers - 2], &opened, &probe[registers..]].concat()
        }
        4 => probe.to_ascii_uppercase(),
        5 => with_byte(probe, random, b'g'),
        _ => [&probe[..], b"0"].concat(),
    }
}

/// Makes requests whose memoranda are those of a module with this secret and this
/// counter, but for some that are spoilt.
struct Maker<'a> {
    counter: u64,
    secret: Digest,
    formed: Formed,
    random: &'a mut Random,
}

impl Maker<'_> {
    fn request(&mut self, kind: u8) -> Request {
        match kind {
            0x01 => self.path(),
            0x02 => {
                let (x, y) = (self.digest(), self.digest());
                Request::Witness { x, y, m: self.u1(One { x, y, x_new: x, y_new: y }) }
            }
            0x03 => {
                let (low, z, z_new) = (self.one(), self.digest(), self.digest());
                let m2 = self.u1(One { x: low.y, y: z, x_new: low.y_new, y_new: z_new });
                Request::Join { low, m1: self.u1(low), z, z_new, m2 }
            }
            0x04 => {
                let (first, second) = (self.one(), self.one());
                Request::Pair { first, m1: self.u1(first), second, m2: self.u1(second) }
            }
            0x05 => self.raise(),
            0x06 => {
                let Two { x1, x2, y, y_new, .. } = self.two();
                let m = self.u2(Two { x1, x2, y, x1_new: x2, x2_new: x1, y_new });
                Request::Swap { x1, x2, y, y_new, m }
            }
            0x07 => Request::First { item: self.item() },
            0x08 => self.place(),
            0x09 => {
                let (x, y) = (self.digest(), self.digest());
                Request::Turn { x, y, m: self.ei(x, y) }
            }
            0x0a => {
                let (x, y, z) = (self.digest(), self.digest(), self.digest());
                Request::Chain { x, y, m1: self.ei(x, y), z, m2: self.ei(y, z) }
            }
            0x0b => {
                let (y, y_new) = (self.digest(), self.digest());
                Request::Adopt { y, y_new, m: self.ei(y, y_new) }
            }
            0x0c => self.set(),
            0x0d => self.clear(),
            0x0e => self.ask(),
            0x0f => Request::AskNone { q: self.item() },
            _ => Request::Open { secret: self.digest() },
        }
    }

    fn path(&mut self) -> Request {
        let levels = match self.random.below(6) {
            0 => self.random.below(MOST_SIBLINGS + 1),
            _ => self.random.below(5),
        };
        let siblings = (0..levels).map(|_| self.digest()).collect();
        let sides = self.random.number() & below_bit(levels);
        Request::Path { x: self.digest(), x_new: self.digest(), sides, siblings }
    }

    fn raise(&mut self) -> Request {
        let (low, z, z_new) = (self.two(), self.digest(), self.digest());
        let m2 = self.u1(One { x: low.y, y: z, x_new: low.y_new, y_new: z_new });
        Request::Raise { low, m1: self.u2(low), z, z_new, m2 }
    }

    /// Both orders of the two places.
    fn place(&mut self) -> Request {
        let [item, next, after] = self.in_order();
        let (hash, y, y_new) = (self.digest(), self.digest(), self.digest());
        let x1 = self.formed.leaf(item, next, hash);
        let x1_new = self.formed.leaf(item, after, hash);
        let x2 = self.formed.leaf(next, after, ZERO);
        let m = if self.random.percent(50) {
            self.u2(Two { x1, x2, y, x1_new, x2_new: ZERO, y_new })
        } else {
            self.u2(Two { x1: x2, x2: x1, y, x1_new: ZERO, x2_new: x1_new, y_new })
        };
        Request::Place { item, next, after, hash, y, y_new, m }
    }

    /// Three item numbers of which the second mostly lies in the gap of the others.
    fn in_order(&mut self) -> [u64; 3] {
        let [item, next, after] = [self.item(), self.item(), self.item()];
        if in_gap(next, item, after) || self.random.percent(15) {
            [item, next, after]
        } else {
            [item, after, next]
        }
    }

    /// The new record is that of the counter's next value. At the top there is none: the
    /// memorandum is then the one that a counter which wraps, or stays, would fit.
    fn set(&mut self) -> Request {
        let (item, next, old) = (self.item(), self.item(), self.record());
        let values = [self.mass(), self.random.number(), self.random.number()];
        let revision = match self.random.below(12) {
            0 => self.counter,
            1 => self.counter.saturating_add(1),
            _ => self.counter.wrapping_add(1),
        };
        let [mass_kg, offset_mm, rigging] = values;
        let new = Record { revision, mass_kg, offset_mm, rigging };
        let [y, y_new, m] = self.change([item, next], [old, new]);
        Request::Set { item, next, old, values, y, y_new, m }
    }

    /// Mostly a mass that a set may give; both of its edges and what lies beyond them.
    fn mass(&mut self) -> u64 {
        match self.random.below(12) {
            0 => 0,
            1 => 1,
            2 => 2_000_000,
            3 => 2_000_001,
            4 => self.random.number(),
            _ => 1 + self.random.below(2_000_000) as u64,
        }
    }

    fn clear(&mut self) -> Request {
        let (item, next, old) = (self.item(), self.item(), self.record());
        let [y, y_new, m] = self.change([item, next], [old, Record::EMPTY]);
        Request::Clear { item, next, old, y, y_new, m }
    }

    /// y, y' and the memorandum of a leaf's change, at times the leaf being the root.
    fn change(&mut self, [item, next]: [u64; 2], [old, new]: [Record; 2]) -> [Digest; 3] {
        let (x, x_new) = (self.leaf(item, next, &old), self.leaf(item, next, &new));
        let alone = self.random.percent(30);
        let [y, y_new] = if alone { [x, x_new] } else { [self.digest(), self.digest()] };
        [y, y_new, self.u1(One { x, y, x_new, y_new })]
    }

    fn ask(&mut self) -> Request {
        let [item, q, next] = self.in_order();
        let q = if self.random.percent(40) { item } else { q };
        let record = self.record();
        let x = self.leaf(item, next, &record);
        let y = if self.random.percent(30) { x } else { self.digest() };
        let m = self.formed.v1(x, y, self.secret);
        Request::Ask { q, item, next, record, y, m: self.spoilt_at_times(m) }
    }

    fn leaf(&mut self, item: u64, next: u64, record: &Record) -> Digest {
        let hash = self.formed.record_hash(record);
        self.formed.leaf(item, next, hash)
    }

    /// Now and then 0.
    fn item(&mut self) -> u64 {
        if self.random.percent(2) {
            0
        } else {
            self.random.item()
        }
    }

    /// A record, at times the empty one, seldom a malformed one.
    fn record(&mut self) -> Record {
        match self.random.below(20) {
            0 => Record { rigging: self.random.number(), ..Record::EMPTY },
            1..=4 => Record::EMPTY,
            _ => Record {
                revision: self.random.item(),
                mass_kg: self.random.number(),
                offset_mm: self.random.number(),
                rigging: self.random.number(),
            },
        }
    }

    fn digest(&mut self) -> Digest {
        if self.random.percent(12) {
            ZERO
        } else {
            self.random.digest()
        }
    }

    fn one(&mut self) -> One {
        One { x: self.digest(), y: self.digest(), x_new: self.digest(), y_new: self.digest() }
    }

    fn two(&mut self) -> Two {
        Two {
            x1: self.digest(),
            x2: self.digest(),
            y: self.digest(),
            x1_new: self.digest(),
            x2_new: self.digest(),
            y_new: self.digest(),
        }
    }

    fn u1(&mut self, change: One) -> Digest {
        let m = self.formed.u1(change, self.secret);
        self.spoilt_at_times(m)
    }

    fn u2(&mut self, change: Two) -> Digest {
        let m = self.formed.u2(change, self.secret);
        self.spoilt_at_times(m)
    }

    fn ei(&mut self, y: Digest, y_new: Digest) -> Digest {
        let m = self.formed.ei(y, y_new, self.secret);
        self.spoilt_at_times(m)
    }

    /// The memorandum, or zero, or one with a bit turned, or any digest.
    fn spoilt_at_times(&mut self, mut m: Digest) -> Digest {
        match self.random.below(30) {
            0 => ZERO,
            1 => self.random.digest(),
            2 => {
                m[self.random.below(32)] ^= 1 << self.random.below(8);
                m
            }
            _ => m,
        }
    }
}
