//! Lines and frames: hexadecimal, the reader and the writer with their refusals,
//! and a frame taken apart into the request it carries.
//!
//! The protocol's paper, section 4 and 5.1 (the table of kinds), and refusals 1, 2, 3 and 15 of
//! section 6.

use crate::strings::{Digest, One, Record, Two};

/// The bytes of the longest frame, a path of 64 siblings; twice as many digits.
pub const LONGEST_FRAME: usize = 2122;

/// The most siblings of a path.
pub const MOST_SIBLINGS: usize = 64;

/// The kinds of the table, 01 to 10.
pub const KINDS: std::ops::RangeInclusive<u8> = 0x01..=0x10;

/// Refusal: no line of hexadecimal (§6.2.1).
pub const BAD_LINE: u8 = 1;
/// Refusal: kind not in the table.
pub const UNKNOWN_KIND: u8 = 2;
/// Refusal: not of its kind's length, or no sound path (§6.2.3).
pub const BAD_LENGTH: u8 = 3;
/// Refusal: space shorter than what is to be written.
pub const NO_SPACE: u8 = 15;

/// A request, one case for each kind of the table, fields in its order.
#[derive(Clone, Debug, PartialEq, Eq)]
pub enum Request {
    Path { x: Digest, x_new: Digest, sides: u64, siblings: Vec<Digest> },
    Witness { x: Digest, y: Digest, m: Digest },
    Join { low: One, m1: Digest, z: Digest, z_new: Digest, m2: Digest },
    Pair { first: One, m1: Digest, second: One, m2: Digest },
    Raise { low: Two, m1: Digest, z: Digest, z_new: Digest, m2: Digest },
    Swap { x1: Digest, x2: Digest, y: Digest, y_new: Digest, m: Digest },
    First { item: u64 },
    Place { item: u64, next: u64, after: u64, hash: Digest, y: Digest, y_new: Digest, m: Digest },
    Turn { x: Digest, y: Digest, m: Digest },
    Chain { x: Digest, y: Digest, m1: Digest, z: Digest, m2: Digest },
    Adopt { y: Digest, y_new: Digest, m: Digest },
    Set { item: u64, next: u64, old: Record, values: [u64; 3], y: Digest, y_new: Digest, m: Digest },
    Clear { item: u64, next: u64, old: Record, y: Digest, y_new: Digest, m: Digest },
    Ask { q: u64, item: u64, next: u64, record: Record, y: Digest, m: Digest },
    AskNone { q: u64 },
    Open { secret: Digest },
}

/// Reads a line, given without its 0A, into frame space of `space` bytes.
pub fn read_line(line: &[u8], space: usize) -> Result<Vec<u8>, u8> {
    let frame = unhex(line)?;
    parse(&frame)?;
    if space < frame.len() {
        return Err(NO_SPACE);
    }
    Ok(frame)
}

/// Writes a frame as a line with its 0A into space of `space` bytes.
pub fn write_frame(frame: &[u8], space: usize) -> Result<Vec<u8>, u8> {
    if frame.is_empty() || frame.len() > LONGEST_FRAME {
        return Err(BAD_LINE);
    }
    parse(frame)?;
    if space < 2 * frame.len() + 1 {
        return Err(NO_SPACE);
    }
    Ok(line_of(frame))
}

/// Bytes as a line: their digits, and 0A (§4.1.2).
pub fn line_of(bytes: &[u8]) -> Vec<u8> {
    let mut line = Vec::with_capacity(2 * bytes.len() + 1);
    for byte in bytes {
        line.push(digit(byte >> 4));
        line.push(digit(byte & 15));
    }
    line.push(b'\n');
    line
}

fn digit(value: u8) -> u8 {
    match value {
        0..=9 => b'0' + value,
        _ => b'a' + value - 10,
    }
}

/// The bytes of a line of digits, or refusal 1. Every byte is looked at before
/// anything else is decided, and nothing but 0-9, a-f passes.
pub fn unhex(line: &[u8]) -> Result<Vec<u8>, u8> {
    if line.is_empty() || line.len() % 2 != 0 || line.len() > 2 * LONGEST_FRAME {
        return Err(BAD_LINE);
    }
    line.chunks_exact(2).map(|pair| Ok(value(pair[0])? << 4 | value(pair[1])?)).collect()
}

/// The value of a digit, or refusal 1.
pub fn value(digit: u8) -> Result<u8, u8> {
    match digit {
        b'0'..=b'9' => Ok(digit - b'0'),
        b'a'..=b'f' => Ok(digit - b'a' + 10),
        _ => Err(BAD_LINE),
    }
}

/// The request a frame carries, or refusal 2 or 3. An empty frame has no kind and
/// never comes here from a line; it would be refused 2.
pub fn parse(frame: &[u8]) -> Result<Request, u8> {
    let kind = *frame.first().ok_or(UNKNOWN_KIND)?;
    if !KINDS.contains(&kind) {
        return Err(UNKNOWN_KIND);
    }
    let mut fields = Fields { rest: &frame[1..] };
    match read_fields(kind, &mut fields) {
        Some(request) if fields.rest.is_empty() => Ok(request),
        _ => Err(BAD_LENGTH),
    }
}

/// Takes apart the fields of a kind; none if there are too few of them.
fn read_fields(kind: u8, f: &mut Fields) -> Option<Request> {
    match kind {
        0x01 => read_path(f),
        0x02 => Some(Request::Witness { x: f.digest()?, y: f.digest()?, m: f.digest()? }),
        0x03 => {
            let (low, m1) = (f.one()?, f.digest()?);
            Some(Request::Join { low, m1, z: f.digest()?, z_new: f.digest()?, m2: f.digest()? })
        }
        0x04 => {
            let (first, m1) = (f.one()?, f.digest()?);
            Some(Request::Pair { first, m1, second: f.one()?, m2: f.digest()? })
        }
        0x05 => {
            let (low, m1) = (f.two()?, f.digest()?);
            Some(Request::Raise { low, m1, z: f.digest()?, z_new: f.digest()?, m2: f.digest()? })
        }
        0x06 => {
            let (x1, x2) = (f.digest()?, f.digest()?);
            Some(Request::Swap { x1, x2, y: f.digest()?, y_new: f.digest()?, m: f.digest()? })
        }
        0x07 => Some(Request::First { item: f.number()? }),
        0x08 => {
            let (item, next, after) = (f.number()?, f.number()?, f.number()?);
            let (hash, y, y_new, m) = (f.digest()?, f.digest()?, f.digest()?, f.digest()?);
            Some(Request::Place { item, next, after, hash, y, y_new, m })
        }
        0x09 => Some(Request::Turn { x: f.digest()?, y: f.digest()?, m: f.digest()? }),
        0x0a => {
            let (x, y, m1) = (f.digest()?, f.digest()?, f.digest()?);
            Some(Request::Chain { x, y, m1, z: f.digest()?, m2: f.digest()? })
        }
        0x0b => Some(Request::Adopt { y: f.digest()?, y_new: f.digest()?, m: f.digest()? }),
        0x0c => {
            let (item, next, old) = (f.number()?, f.number()?, f.record()?);
            let values = [f.number()?, f.number()?, f.number()?];
            let (y, y_new, m) = (f.digest()?, f.digest()?, f.digest()?);
            Some(Request::Set { item, next, old, values, y, y_new, m })
        }
        0x0d => {
            let (item, next, old) = (f.number()?, f.number()?, f.record()?);
            let (y, y_new, m) = (f.digest()?, f.digest()?, f.digest()?);
            Some(Request::Clear { item, next, old, y, y_new, m })
        }
        0x0e => {
            let (q, item, next, record) = (f.number()?, f.number()?, f.number()?, f.record()?);
            Some(Request::Ask { q, item, next, record, y: f.digest()?, m: f.digest()? })
        }
        0x0f => Some(Request::AskNone { q: f.number()? }),
        0x10 => Some(Request::Open { secret: f.digest()? }),
        _ => None,
    }
}

/// Path: x, x', n, sides, n siblings; a side bit at n or above is refused.
fn read_path(fields: &mut Fields) -> Option<Request> {
    let (x, x_new) = (fields.digest()?, fields.digest()?);
    let levels = usize::from(fields.byte()?);
    let sides = fields.number()?;
    let stray = levels < MOST_SIBLINGS && sides >> levels != 0;
    if levels > MOST_SIBLINGS || stray {
        return None;
    }
    let siblings = (0..levels).map(|_| fields.digest()).collect::<Option<Vec<_>>>()?;
    Some(Request::Path { x, x_new, sides, siblings })
}

/// The fields of a frame not yet taken. Each taker gives none if too few bytes
/// are left.
struct Fields<'a> {
    rest: &'a [u8],
}

impl Fields<'_> {
    fn take<const N: usize>(&mut self) -> Option<[u8; N]> {
        if self.rest.len() < N {
            return None;
        }
        let (taken, rest) = self.rest.split_at(N);
        self.rest = rest;
        taken.try_into().ok()
    }

    fn byte(&mut self) -> Option<u8> {
        self.take::<1>().map(|[byte]| byte)
    }

    /// A number: 8 bytes, the highest first.
    fn number(&mut self) -> Option<u64> {
        self.take().map(u64::from_be_bytes)
    }

    fn digest(&mut self) -> Option<Digest> {
        self.take()
    }

    fn record(&mut self) -> Option<Record> {
        Some(Record {
            revision: self.number()?,
            mass_kg: self.number()?,
            offset_mm: self.number()?,
            rigging: self.number()?,
        })
    }

    /// x, y, x', y'.
    fn one(&mut self) -> Option<One> {
        Some(One {
            x: self.digest()?,
            y: self.digest()?,
            x_new: self.digest()?,
            y_new: self.digest()?,
        })
    }

    /// x1, x2, y, x1', x2', y'.
    fn two(&mut self) -> Option<Two> {
        Some(Two {
            x1: self.digest()?,
            x2: self.digest()?,
            y: self.digest()?,
            x1_new: self.digest()?,
            x2_new: self.digest()?,
            y_new: self.digest()?,
        })
    }
}

impl Request {
    /// The kind byte and the fields: the frame that carries this request.
    pub fn frame(&self) -> Vec<u8> {
        match self {
            Request::Path { x, x_new, sides, siblings } => {
                let mut f = Frame::of(0x01).digests(&[*x, *x_new]);
                f.bytes.push(siblings.len() as u8);
                f.numbers(&[*sides]).digests(siblings)
            }
            Request::Witness { x, y, m } => Frame::of(0x02).digests(&[*x, *y, *m]),
            Request::Join { low, m1, z, z_new, m2 } => {
                Frame::of(0x03).one(low).digests(&[*m1, *z, *z_new, *m2])
            }
            Request::Pair { first, m1, second, m2 } => {
                Frame::of(0x04).one(first).digests(&[*m1]).one(second).digests(&[*m2])
            }
            Request::Raise { low, m1, z, z_new, m2 } => {
                Frame::of(0x05).two(low).digests(&[*m1, *z, *z_new, *m2])
            }
            Request::Swap { x1, x2, y, y_new, m } => {
                Frame::of(0x06).digests(&[*x1, *x2, *y, *y_new, *m])
            }
            Request::First { item } => Frame::of(0x07).numbers(&[*item]),
            Request::Place { item, next, after, hash, y, y_new, m } => {
                Frame::of(0x08).numbers(&[*item, *next, *after]).digests(&[*hash, *y, *y_new, *m])
            }
            Request::Turn { x, y, m } => Frame::of(0x09).digests(&[*x, *y, *m]),
            Request::Chain { x, y, m1, z, m2 } => Frame::of(0x0a).digests(&[*x, *y, *m1, *z, *m2]),
            Request::Adopt { y, y_new, m } => Frame::of(0x0b).digests(&[*y, *y_new, *m]),
            Request::Set { item, next, old, values, y, y_new, m } => Frame::of(0x0c)
                .numbers(&[*item, *next])
                .numbers(&old.numbers())
                .numbers(values)
                .digests(&[*y, *y_new, *m]),
            Request::Clear { item, next, old, y, y_new, m } => Frame::of(0x0d)
                .numbers(&[*item, *next])
                .numbers(&old.numbers())
                .digests(&[*y, *y_new, *m]),
            Request::Ask { q, item, next, record, y, m } => Frame::of(0x0e)
                .numbers(&[*q, *item, *next])
                .numbers(&record.numbers())
                .digests(&[*y, *m]),
            Request::AskNone { q } => Frame::of(0x0f).numbers(&[*q]),
            Request::Open { secret } => Frame::of(0x10).digests(&[*secret]),
        }
        .bytes
    }
}

/// A frame, or a reply, being put together.
pub struct Frame {
    pub bytes: Vec<u8>,
}

impl Frame {
    pub fn of(kind: u8) -> Frame {
        Frame { bytes: vec![kind] }
    }

    pub fn numbers(mut self, numbers: &[u64]) -> Frame {
        for number in numbers {
            self.bytes.extend_from_slice(&number.to_be_bytes());
        }
        self
    }

    pub fn digests(mut self, digests: &[Digest]) -> Frame {
        for digest in digests {
            self.bytes.extend_from_slice(digest);
        }
        self
    }

    fn one(self, change: &One) -> Frame {
        self.digests(&[change.x, change.y, change.x_new, change.y_new])
    }

    fn two(self, change: &Two) -> Frame {
        let Two { x1, x2, y, x1_new, x2_new, y_new } = change;
        self.digests(&[*x1, *x2, *y, *x1_new, *x2_new, *y_new])
    }
}
