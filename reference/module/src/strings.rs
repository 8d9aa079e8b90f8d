//! The tagged strings of the protocol's paper, their digests, and the log of strings
//! formed from which every block count is taken.
//!
//! The protocol's paper, section 3: the table of tags, H(u,v), the record's
//! hash, malformed records, the gap, and the count of SHA-256 blocks.

use crate::sha256::{blocks, digest};

pub use crate::sha256::Digest;

/// The digest called 0: 32 zero bytes.
pub const ZERO: Digest = [0; 32];

/// A record: four numbers that must not be mixed up, so each has its name.
#[derive(Clone, Copy, Debug, Default, PartialEq, Eq)]
pub struct Record {
    pub revision: u64,
    pub mass_kg: u64,
    pub offset_mm: u64,
    pub rigging: u64,
}

impl Record {
    /// The record of a listed item that holds none.
    pub const EMPTY: Record = Record { revision: 0, mass_kg: 0, offset_mm: 0, rigging: 0 };

    /// The four numbers in the order of the paper: v1, v2, v3, v4.
    pub fn numbers(&self) -> [u64; 4] {
        [self.revision, self.mass_kg, self.offset_mm, self.rigging]
    }

    /// Without a revision every other field has to be 0.
    pub fn is_malformed(&self) -> bool {
        self.revision == 0 && *self != Record::EMPTY
    }

    /// Whether the record hashes to 0.
    pub fn is_empty(&self) -> bool {
        self.revision == 0
    }
}

/// A U1's four digests: y stands above x, and with x' there it is y' (§3.6.2).
#[derive(Clone, Copy, Debug, PartialEq, Eq)]
pub struct One {
    pub x: Digest,
    pub y: Digest,
    pub x_new: Digest,
    pub y_new: Digest,
}

/// A U2's six digests: as a U1's, of two places (§3.6.4).
#[derive(Clone, Copy, Debug, PartialEq, Eq)]
pub struct Two {
    pub x1: Digest,
    pub x2: Digest,
    pub y: Digest,
    pub x1_new: Digest,
    pub x2_new: Digest,
    pub y_new: Digest,
}

/// A string as the paper tags it. Memoranda carry the secret as their last
/// field.
#[derive(Clone, Copy, Debug, PartialEq, Eq)]
pub enum Tagged {
    Leaf { item: u64, next: u64, hash: Digest },
    Node { left: Digest, right: Digest },
    Record(Record),
    U1 { change: One, secret: Digest },
    V1 { x: Digest, y: Digest, secret: Digest },
    U2 { change: Two, secret: Digest },
    Ei { y: Digest, y_new: Digest, secret: Digest },
}

impl Tagged {
    /// The tag byte and the fields.
    pub fn bytes(&self) -> Vec<u8> {
        match self {
            Tagged::Leaf { item, next, hash } => {
                tagged(1, &[&item.to_be_bytes(), &next.to_be_bytes(), hash])
            }
            Tagged::Node { left, right } => tagged(2, &[left, right]),
            Tagged::Record(record) => {
                let [v1, v2, v3, v4] = record.numbers().map(u64::to_be_bytes);
                tagged(3, &[&v1, &v2, &v3, &v4])
            }
            Tagged::U1 { change, secret } => {
                let One { x, y, x_new, y_new } = change;
                tagged(4, &[x, y, x_new, y_new, secret])
            }
            Tagged::V1 { x, y, secret } => tagged(5, &[x, y, secret]),
            Tagged::U2 { change, secret } => {
                let Two { x1, x2, y, x1_new, x2_new, y_new } = change;
                tagged(6, &[x1, x2, y, x1_new, x2_new, y_new, secret])
            }
            Tagged::Ei { y, y_new, secret } => tagged(7, &[y, y_new, secret]),
        }
    }
}

fn tagged(tag: u8, fields: &[&[u8]]) -> Vec<u8> {
    let mut bytes = vec![tag];
    for field in fields {
        bytes.extend_from_slice(field);
    }
    bytes
}

/// Every string formed, in order. A string is hashed only by being pushed here,
/// so the block count cannot miss one. A string formed twice counts twice.
#[derive(Clone, Debug, Default, PartialEq, Eq)]
pub struct Formed {
    strings: Vec<Tagged>,
}

impl Formed {
    pub fn new() -> Formed {
        Formed::default()
    }

    pub fn strings(&self) -> &[Tagged] {
        &self.strings
    }

    /// The SHA-256 blocks worked on all strings formed so far.
    pub fn blocks(&self) -> u64 {
        let lengths = self.strings.iter().map(|string| string.bytes().len());
        lengths.map(blocks).sum()
    }

    /// Forms a string and gives its digest.
    pub fn digest(&mut self, string: Tagged) -> Digest {
        self.strings.push(string);
        digest(&string.bytes())
    }

    /// The parent H(u,v): the other side if one is 0, which forms no string, and else
    /// the node's digest.
    pub fn parent(&mut self, left: Digest, right: Digest) -> Digest {
        if right == ZERO {
            left
        } else if left == ZERO {
            right
        } else {
            self.digest(Tagged::Node { left, right })
        }
    }

    /// A record's hash. An empty record's is 0, and forms no string.
    pub fn record_hash(&mut self, record: &Record) -> Digest {
        if record.is_empty() {
            ZERO
        } else {
            self.digest(Tagged::Record(*record))
        }
    }

    /// leaf(A, A', ω).
    pub fn leaf(&mut self, item: u64, next: u64, hash: Digest) -> Digest {
        self.digest(Tagged::Leaf { item, next, hash })
    }

    pub fn u1(&mut self, change: One, secret: Digest) -> Digest {
        self.digest(Tagged::U1 { change, secret })
    }

    pub fn v1(&mut self, x: Digest, y: Digest, secret: Digest) -> Digest {
        self.digest(Tagged::V1 { x, y, secret })
    }

    pub fn u2(&mut self, change: Two, secret: Digest) -> Digest {
        self.digest(Tagged::U2 { change, secret })
    }

    pub fn ei(&mut self, y: Digest, y_new: Digest, secret: Digest) -> Digest {
        self.digest(Tagged::Ei { y, y_new, secret })
    }
}

/// Whether `number` lies in the gap of `item` and `next` on the ring: between them, or
/// where the ring closes above the one or below the other. 0 lies in none.
pub fn in_gap(number: u64, item: u64, next: u64) -> bool {
    if number == 0 {
        false
    } else if item < next {
        item < number && number < next
    } else {
        number > item || number < next
    }
}

#[cfg(test)]
mod tests {
    use super::*;

    #[test]
    fn gaps_of_the_paper() {
        let listed = [
            (500, 432, 562, true),
            (432, 432, 562, false),
            (562, 432, 562, false),
            (900, 796, 241, true),
            (100, 796, 241, true),
            (500, 796, 241, false),
            (5, 241, 241, true),
            (241, 241, 241, false),
        ];
        for (number, item, next, expected) in listed {
            assert_eq!(in_gap(number, item, next), expected, "{} in ({}, {})", number, item, next);
        }
    }

    #[test]
    fn zero_is_in_no_gap() {
        for (item, next) in [(1, 9), (9, 1), (5, 5), (0, 5), (5, 0), (0, 0)] {
            assert!(!in_gap(0, item, next));
        }
    }

    #[test]
    fn parents_with_an_empty_side_form_nothing() {
        let mut formed = Formed::new();
        let some = [7; 32];
        assert_eq!(formed.parent(ZERO, ZERO), ZERO);
        assert_eq!(formed.parent(some, ZERO), some);
        assert_eq!(formed.parent(ZERO, some), some);
        assert_eq!(formed.blocks(), 0);
        assert_eq!(formed.parent(some, some), digest(&[&[2][..], &some, &some].concat()));
        assert_eq!(formed.blocks(), 2);
    }

    #[test]
    fn empty_and_malformed_records_of_the_paper() {
        let mut formed = Formed::new();
        assert_eq!(formed.record_hash(&Record::EMPTY), ZERO);
        assert_eq!(formed.blocks(), 0);
        assert!(!Record::EMPTY.is_malformed());
        assert!(Record { mass_kg: 5, ..Record::EMPTY }.is_malformed());
        assert!(Record { offset_mm: 5, ..Record::EMPTY }.is_malformed());
        assert!(Record { rigging: 5, ..Record::EMPTY }.is_malformed());
        assert!(!Record { revision: 1, mass_kg: 5, ..Record::EMPTY }.is_malformed());
    }

    /// The table of tags and lengths, with the blocks the formula gives each.
    #[test]
    fn tags_lengths_and_blocks_of_the_table() {
        let d = [9; 32];
        let one = One { x: d, y: d, x_new: d, y_new: d };
        let two = Two { x1: d, x2: d, y: d, x1_new: d, x2_new: d, y_new: d };
        let table = [
            (Tagged::Leaf { item: 1, next: 2, hash: d }, 1, 49, 1),
            (Tagged::Node { left: d, right: d }, 2, 65, 2),
            (Tagged::Record(Record::EMPTY), 3, 33, 1),
            (Tagged::U1 { change: one, secret: d }, 4, 161, 3),
            (Tagged::V1 { x: d, y: d, secret: d }, 5, 97, 2),
            (Tagged::U2 { change: two, secret: d }, 6, 225, 4),
            (Tagged::Ei { y: d, y_new: d, secret: d }, 7, 97, 2),
        ];
        for (string, tag, length, count) in table {
            assert_eq!(string.bytes()[0], tag);
            assert_eq!(string.bytes().len(), length);
            let mut formed = Formed::new();
            formed.digest(string);
            assert_eq!(formed.blocks(), count);
        }
    }

    /// Each field of each string stands where the table lists it.
    #[test]
    fn fields_stand_in_the_order_of_the_table() {
        let field = |n: u8| [n; 32];
        let flat = |tag: u8, count: u8| {
            let fields: Vec<u8> = (1..=count).flat_map(|n| [n; 32]).collect();
            [vec![tag], fields].concat()
        };
        let one = One { x: field(1), y: field(2), x_new: field(3), y_new: field(4) };
        assert_eq!(Tagged::U1 { change: one, secret: field(5) }.bytes(), flat(4, 5));
        let v1 = Tagged::V1 { x: field(1), y: field(2), secret: field(3) };
        assert_eq!(v1.bytes(), flat(5, 3));
        let two = Two {
            x1: field(1),
            x2: field(2),
            y: field(3),
            x1_new: field(4),
            x2_new: field(5),
            y_new: field(6),
        };
        assert_eq!(Tagged::U2 { change: two, secret: field(7) }.bytes(), flat(6, 7));
        let ei = Tagged::Ei { y: field(1), y_new: field(2), secret: field(3) };
        assert_eq!(ei.bytes(), flat(7, 3));
        let leaf = Tagged::Leaf { item: 0x0102, next: 3, hash: field(4) };
        let expected =
            [&[1, 0, 0, 0, 0, 0, 0, 1, 2, 0, 0, 0, 0, 0, 0, 0, 3][..], &field(4)].concat();
        assert_eq!(leaf.bytes(), expected);
    }
}
