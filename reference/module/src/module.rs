//! The module itself: registers, the sixteen kinds of request, the refusals in
//! their order, the replies and the block counts.
//!
//! The protocol's paper, section 2 (registers), section 5 (the table of kinds and the rules
//! under it) and section 6 (refusals).

use crate::frames::{line_of, parse, read_line, Frame, Request, LONGEST_FRAME, NO_SPACE};
use crate::strings::{in_gap, Digest, Formed, One, Record, Tagged, Two, ZERO};

/// Reply space a line needs, whatever its reply; with less it is refused 15.
pub const REPLY_SPACE: usize = 195;

/// Refusal: q, A, A' or B' is 0.
pub const ZERO_NUMBER: u8 = 4;
/// Refusal: malformed record.
pub const MALFORMED: u8 = 5;
/// Refusal: A' not in the gap; q neither A nor in the gap.
pub const NOT_IN_GAP: u8 = 6;
/// Refusal: the counter is at its top (§6.2.7).
pub const COUNTER_AT_TOP: u8 = 7;
/// Refusal: first memorandum doesn't match.
pub const FIRST_MEMORANDUM: u8 = 8;
/// Refusal: second memorandum doesn't match.
pub const SECOND_MEMORANDUM: u8 = 9;
/// Refusal: stale, another digest than the root (§6.2.10).
pub const STALE: u8 = 10;
/// Refusal: clear of an empty record.
pub const CLEAR_OF_EMPTY: u8 = 11;
/// Refusal: secret all zero.
pub const ZERO_SECRET: u8 = 12;
/// Refusal: not open, kind other than 10.
pub const NOT_OPEN: u8 = 13;
/// Refusal: already open, kind 10.
pub const ALREADY_OPEN: u8 = 14;
/// Refusal: a set gives a silly mass (§6.2.16).
pub const SILLY_MASS: u8 = 16;

/// The masses in kilograms that a set may give; any other is silly (§3.4.4).
pub const SENSIBLE_KG: std::ops::RangeInclusive<u64> = 1..=2_000_000;

/// The register set. The secret is zero bytes until the module is opened.
#[derive(Clone, Debug, Default, PartialEq, Eq)]
pub struct Registers {
    pub root: Digest,
    pub counter: u64,
    pub secret: Digest,
    pub opened: bool,
}

/// What one line comes to.
#[derive(Clone, Debug, PartialEq, Eq)]
pub struct Answer {
    /// The number of the refusal, or none if the line was accepted.
    pub refusal: Option<u8>,
    /// The reply with its 0A; empty for refusal 15, which writes nothing.
    pub reply_line: Vec<u8>,
    /// SHA-256 blocks worked.
    pub blocks: u64,
    /// The strings the blocks were worked on, in order.
    pub formed: Vec<Tagged>,
    /// The memorandum the reply lists, if it lists one.
    pub issued: Option<Digest>,
}

/// Answers one line, given without its 0A, with `space` bytes of reply space.
/// Registers change only if the line is accepted.
pub fn answer(registers: &mut Registers, line: &[u8], space: usize) -> Answer {
    if space < REPLY_SPACE {
        return Answer {
            refusal: Some(NO_SPACE),
            reply_line: Vec::new(),
            blocks: 0,
            formed: Vec::new(),
            issued: None,
        };
    }
    let mut formed = Formed::new();
    let outcome = work(registers, line, &mut formed);
    let (refusal, reply, issued) = match outcome {
        Ok(accepted) => {
            *registers = accepted.registers;
            (None, accepted.reply, accepted.issued)
        }
        Err(number) => (Some(number), vec![0, number], None),
    };
    Answer {
        refusal,
        reply_line: line_of(&reply),
        blocks: formed.blocks(),
        formed: formed.strings().to_vec(),
        issued,
    }
}

/// An accepted request: the registers after it, the reply frame, and the
/// memorandum issued.
struct Accepted {
    registers: Registers,
    reply: Vec<u8>,
    issued: Option<Digest>,
}

type Outcome = Result<Accepted, u8>;

/// Every check after 15, in the order of the table of refusals.
fn work(registers: &Registers, line: &[u8], formed: &mut Formed) -> Outcome {
    let request = parse(&read_line(line, LONGEST_FRAME)?)?;
    check_open(registers, &request)?;
    check_numbers(&request)?;
    check_record(&request)?;
    check_mass(&request)?;
    check_gap(&request)?;
    check_clear(&request)?;
    check_counter(registers, &request)?;
    Work { registers, formed }.request(&request)
}

/// Refuses if the condition holds.
fn refuse_if(condition: bool, number: u8) -> Result<(), u8> {
    if condition {
        Err(number)
    } else {
        Ok(())
    }
}

/// Refusals 13, 14 and 12.
fn check_open(registers: &Registers, request: &Request) -> Result<(), u8> {
    match request {
        Request::Open { secret } => {
            refuse_if(registers.opened, ALREADY_OPEN)?;
            refuse_if(*secret == ZERO, ZERO_SECRET)
        }
        _ => refuse_if(!registers.opened, NOT_OPEN),
    }
}

/// Refusal 4: item number 0 is reserved, wherever one stands.
pub fn check_numbers(request: &Request) -> Result<(), u8> {
    let some_zero = match request {
        Request::First { item } => *item == 0,
        Request::Place { item, next, after, .. } => [item, next, after].contains(&&0),
        Request::Set { item, next, .. } | Request::Clear { item, next, .. } => {
            [item, next].contains(&&0)
        }
        Request::Ask { q, item, next, .. } => [q, item, next].contains(&&0),
        Request::AskNone { q } => *q == 0,
        _ => false,
    };
    refuse_if(some_zero, ZERO_NUMBER)
}

/// Refusal 5.
pub fn check_record(request: &Request) -> Result<(), u8> {
    let malformed = match request {
        Request::Set { old, .. } | Request::Clear { old, .. } => old.is_malformed(),
        Request::Ask { record, .. } => record.is_malformed(),
        _ => false,
    };
    refuse_if(malformed, MALFORMED)
}

/// Refusal 16: of the mass a set gives, and of no other (§5.2.16).
pub fn check_mass(request: &Request) -> Result<(), u8> {
    let silly =
        matches!(request, Request::Set { values: [kg, ..], .. } if !SENSIBLE_KG.contains(kg));
    refuse_if(silly, SILLY_MASS)
}

/// Refusal 6.
pub fn check_gap(request: &Request) -> Result<(), u8> {
    let outside = match request {
        Request::Place { item, next, after, .. } => !in_gap(*next, *item, *after),
        Request::Ask { q, item, next, .. } => q != item && !in_gap(*q, *item, *next),
        _ => false,
    };
    refuse_if(outside, NOT_IN_GAP)
}

/// Refusal 11.
pub fn check_clear(request: &Request) -> Result<(), u8> {
    let empty = matches!(request, Request::Clear { old, .. } if old.is_empty());
    refuse_if(empty, CLEAR_OF_EMPTY)
}

/// Refusal 7.
fn check_counter(registers: &Registers, request: &Request) -> Result<(), u8> {
    let record_change = matches!(request, Request::Set { .. } | Request::Clear { .. });
    refuse_if(record_change && registers.counter == u64::MAX, COUNTER_AT_TOP)
}

/// The part that forms strings: memoranda (refusals 8 and 9), the root (10), and
/// the reply. A string is formed only where a check or the answer needs it.
struct Work<'a> {
    registers: &'a Registers,
    formed: &'a mut Formed,
}

impl Work<'_> {
    fn request(&mut self, request: &Request) -> Outcome {
        match request {
            Request::Path { x, x_new, sides, siblings } => self.path(*x, *x_new, *sides, siblings),
            Request::Witness { x, y, m } => self.witness(*x, *y, *m),
            Request::Join { low, m1, z, z_new, m2 } => self.join(*low, *m1, *z, *z_new, *m2),
            Request::Pair { first, m1, second, m2 } => self.pair(*first, *m1, *second, *m2),
            Request::Raise { low, m1, z, z_new, m2 } => self.raise(*low, *m1, *z, *z_new, *m2),
            Request::Swap { x1, x2, y, y_new, m } => {
                let (x1, x2, y, y_new) = (*x1, *x2, *y, *y_new);
                self.swap(Two { x1, x2, y, x1_new: x2, x2_new: x1, y_new }, *m)
            }
            Request::First { item } => self.first(*item),
            Request::Place { item, next, after, hash, y, y_new, m } => {
                self.place([*item, *next, *after], *hash, *y, *y_new, *m)
            }
            Request::Turn { x, y, m } => self.turn(*x, *y, *m),
            Request::Chain { x, y, m1, z, m2 } => self.chain(*x, *y, *m1, *z, *m2),
            Request::Adopt { y, y_new, m } => self.adopt(*y, *y_new, *m),
            Request::Set { item, next, old, values, y, y_new, m } => {
                let [mass_kg, offset_mm, rigging] = *values;
                let revision = self.registers.counter + 1;
                let new = Record { revision, mass_kg, offset_mm, rigging };
                self.change_record(0x0c, [*item, *next], [old, &new], [*y, *y_new], *m)
            }
            Request::Clear { item, next, old, y, y_new, m } => {
                let records = [old, &Record::EMPTY];
                self.change_record(0x0d, [*item, *next], records, [*y, *y_new], *m)
            }
            Request::Ask { q, item, next, record, y, m } => {
                self.ask(*q, [*item, *next], record, *y, *m)
            }
            Request::AskNone { q } => self.ask_none(*q),
            Request::Open { secret } => self.open(*secret),
        }
    }

    /// Folds both x and x' up the path, lowest sibling first. Both folds are
    /// formed even where x = x'.
    fn path(&mut self, x: Digest, x_new: Digest, sides: u64, siblings: &[Digest]) -> Outcome {
        let y = self.fold(x, sides, siblings);
        let y_new = self.fold(x_new, sides, siblings);
        let m = self.u1(One { x, y, x_new, y_new });
        self.issue(0x01, &[y, y_new], m)
    }

    fn fold(&mut self, from: Digest, sides: u64, siblings: &[Digest]) -> Digest {
        let mut y = from;
        for (level, sibling) in siblings.iter().enumerate() {
            let sibling_on_left = sides >> level & 1 == 1;
            y = if sibling_on_left {
                self.formed.parent(*sibling, y)
            } else {
                self.formed.parent(y, *sibling)
            };
        }
        y
    }

    fn witness(&mut self, x: Digest, y: Digest, m: Digest) -> Outcome {
        let unchanged = One { x, y, x_new: x, y_new: y };
        refuse_if(self.u1(unchanged) != m, FIRST_MEMORANDUM)?;
        let issued = self.formed.v1(x, y, self.registers.secret);
        self.issue(0x02, &[], issued)
    }

    /// Both halves must meet: the upper U1 starts at the lower one's y and y'.
    fn join(&mut self, low: One, m1: Digest, z: Digest, z_new: Digest, m2: Digest) -> Outcome {
        refuse_if(self.u1(low) != m1, FIRST_MEMORANDUM)?;
        let high = One { x: low.y, y: z, x_new: low.y_new, y_new: z_new };
        refuse_if(self.u1(high) != m2, SECOND_MEMORANDUM)?;
        let issued = self.u1(One { x: low.x, y: z, x_new: low.x_new, y_new: z_new });
        self.issue(0x03, &[], issued)
    }

    fn pair(&mut self, first: One, m1: Digest, second: One, m2: Digest) -> Outcome {
        refuse_if(self.u1(first) != m1, FIRST_MEMORANDUM)?;
        refuse_if(self.u1(second) != m2, SECOND_MEMORANDUM)?;
        let y = self.formed.parent(first.y, second.y);
        let y_new = self.formed.parent(first.y_new, second.y_new);
        let issued = self.u2(Two {
            x1: first.x,
            x2: second.x,
            y,
            x1_new: first.x_new,
            x2_new: second.x_new,
            y_new,
        });
        self.issue(0x04, &[], issued)
    }

    fn raise(&mut self, low: Two, m1: Digest, z: Digest, z_new: Digest, m2: Digest) -> Outcome {
        refuse_if(self.u2(low) != m1, FIRST_MEMORANDUM)?;
        let high = One { x: low.y, y: z, x_new: low.y_new, y_new: z_new };
        refuse_if(self.u1(high) != m2, SECOND_MEMORANDUM)?;
        let issued = self.u2(Two { y: z, y_new: z_new, ..low });
        self.issue(0x05, &[], issued)
    }

    fn swap(&mut self, exchanged: Two, m: Digest) -> Outcome {
        refuse_if(self.u2(exchanged) != m, FIRST_MEMORANDUM)?;
        let issued = self.ei(exchanged.y, exchanged.y_new);
        self.issue(0x06, &[], issued)
    }

    fn first(&mut self, item: u64) -> Outcome {
        let leaf = self.formed.leaf(item, item, ZERO);
        let issued = self.ei(ZERO, leaf);
        self.issue(0x07, &[], issued)
    }

    /// Place takes A' out of the ring: the leaf of A comes to point past it to B',
    /// and the empty leaf of A' becomes nothing. The second order of the two places is
    /// formed only if the first does not fit.
    fn place(
        &mut self,
        [item, next, after]: [u64; 3],
        hash: Digest,
        y: Digest,
        y_new: Digest,
        m: Digest,
    ) -> Outcome {
        let x1 = self.formed.leaf(item, next, hash);
        let x1_new = self.formed.leaf(item, after, hash);
        let x2 = self.formed.leaf(next, after, ZERO);
        let x2_new = ZERO;
        let one_way = Two { x1, x2, y, x1_new, x2_new, y_new };
        let other_way = Two { x1: x2, x2: x1, y, x1_new: x2_new, x2_new: x1_new, y_new };
        let fits = self.u2(one_way) == m || self.u2(other_way) == m;
        refuse_if(!fits, FIRST_MEMORANDUM)?;
        let issued = self.ei(y, y_new);
        self.issue(0x08, &[], issued)
    }

    fn turn(&mut self, x: Digest, y: Digest, m: Digest) -> Outcome {
        refuse_if(self.ei(x, y) != m, FIRST_MEMORANDUM)?;
        let issued = self.ei(y, x);
        self.issue(0x09, &[], issued)
    }

    fn chain(&mut self, x: Digest, y: Digest, m1: Digest, z: Digest, m2: Digest) -> Outcome {
        refuse_if(self.ei(x, y) != m1, FIRST_MEMORANDUM)?;
        refuse_if(self.ei(y, z) != m2, SECOND_MEMORANDUM)?;
        let issued = self.ei(x, z);
        self.issue(0x0a, &[], issued)
    }

    fn adopt(&mut self, y: Digest, y_new: Digest, m: Digest) -> Outcome {
        refuse_if(self.ei(y, y_new) != m, FIRST_MEMORANDUM)?;
        self.check_root(y)?;
        let registers = Registers { root: y_new, ..self.registers.clone() };
        accept(registers, Frame::of(0x8b).digests(&[y_new]))
    }

    /// Set and clear: the leaf with the old record's hash becomes the leaf with
    /// the new one's, and the counter is raised.
    fn change_record(
        &mut self,
        kind: u8,
        [item, next]: [u64; 2],
        [old, new]: [&Record; 2],
        [y, y_new]: [Digest; 2],
        m: Digest,
    ) -> Outcome {
        let x = self.leaf_of(item, next, old);
        let x_new = self.leaf_of(item, next, new);
        refuse_if(self.u1(One { x, y, x_new, y_new }) != m, FIRST_MEMORANDUM)?;
        self.check_root(y)?;
        let counter = self.registers.counter + 1;
        let registers = Registers { root: y_new, counter, ..self.registers.clone() };
        accept(registers, Frame::of(0x80 + kind).digests(&[y_new]).numbers(&[counter]))
    }

    /// Ask: exactly one of three findings, the finding's number being one byte.
    fn ask(
        &mut self,
        q: u64,
        [item, next]: [u64; 2],
        record: &Record,
        y: Digest,
        m: Digest,
    ) -> Outcome {
        let leaf = self.leaf_of(item, next, record);
        let v1 = self.formed.v1(leaf, y, self.registers.secret);
        refuse_if(v1 != m, FIRST_MEMORANDUM)?;
        self.check_root(y)?;
        let finding = |number: u8| {
            let mut reply = Frame::of(0x8e);
            reply.bytes.push(number);
            reply.numbers(&[item])
        };
        let reply = if q != item {
            finding(3).numbers(&[next])
        } else if record.is_empty() {
            finding(2)
        } else {
            finding(1).numbers(&record.numbers())
        };
        accept(self.registers.clone(), reply)
    }

    fn ask_none(&mut self, q: u64) -> Outcome {
        self.check_root(ZERO)?;
        accept(self.registers.clone(), Frame::of(0x8f).numbers(&[q]))
    }

    fn open(&mut self, secret: Digest) -> Outcome {
        let registers = Registers { secret, opened: true, ..self.registers.clone() };
        accept(registers, Frame::of(0x90))
    }

    /// Refusal 10.
    fn check_root(&self, y: Digest) -> Result<(), u8> {
        refuse_if(y != self.registers.root, STALE)
    }

    fn leaf_of(&mut self, item: u64, next: u64, record: &Record) -> Digest {
        let hash = self.formed.record_hash(record);
        self.formed.leaf(item, next, hash)
    }

    fn u1(&mut self, change: One) -> Digest {
        self.formed.u1(change, self.registers.secret)
    }

    fn u2(&mut self, change: Two) -> Digest {
        self.formed.u2(change, self.registers.secret)
    }

    fn ei(&mut self, y: Digest, y_new: Digest) -> Digest {
        self.formed.ei(y, y_new, self.registers.secret)
    }

    /// A reply that lists digests and then a memorandum, which it issues. The
    /// registers stay as they were.
    fn issue(&self, kind: u8, shown: &[Digest], memorandum: Digest) -> Outcome {
        Ok(Accepted {
            registers: self.registers.clone(),
            reply: Frame::of(0x80 + kind).digests(shown).digests(&[memorandum]).bytes,
            issued: Some(memorandum),
        })
    }
}

/// A reply that lists no memorandum.
fn accept(registers: Registers, reply: Frame) -> Outcome {
    Ok(Accepted { registers, reply: reply.bytes, issued: None })
}
