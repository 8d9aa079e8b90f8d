//! The digests of records, leaves and nodes, and how many were worked.
//!
//! The protocol's paper, 3.2 to 3.5. Where a hash is 0, or a digest is handed up as it is, none
//! is worked, and none counted.

use reference::sha256;
use reference::strings::{Digest, Record, Tagged, ZERO};

/// Works digests and counts them.
#[derive(Clone, Debug, Default, PartialEq, Eq)]
pub struct Digests {
    worked: u64,
}

impl Digests {
    pub fn new() -> Digests {
        Digests::default()
    }

    /// How many digests were worked so far.
    pub fn worked(&self) -> u64 {
        self.worked
    }

    /// The parent H(u, v) of two digests (§3.3.1).
    pub fn parent(&mut self, left: Digest, right: Digest) -> Digest {
        if right == ZERO {
            left
        } else if left == ZERO {
            right
        } else {
            self.work(Tagged::Node { left, right })
        }
    }

    /// A record's hash (§3.4.2).
    pub fn record(&mut self, record: &Record) -> Digest {
        if record.is_empty() {
            ZERO
        } else {
            self.work(Tagged::Record(*record))
        }
    }

    /// leaf(A, A', ω), by A, A' and the hash ω (§3.2.1).
    pub fn leaf(&mut self, item: u64, next: u64, hash: Digest) -> Digest {
        self.work(Tagged::Leaf { item, next, hash })
    }

    fn work(&mut self, string: Tagged) -> Digest {
        self.worked += 1;
        sha256::digest(&string.bytes())
    }
}

#[cfg(test)]
mod tests {
    use super::*;

    #[test]
    fn only_what_is_worked_counts() {
        let mut digests = Digests::new();
        let some = [7; 32];
        assert_eq!(digests.parent(ZERO, ZERO), ZERO);
        assert_eq!(digests.parent(some, ZERO), some);
        assert_eq!(digests.parent(ZERO, some), some);
        assert_eq!(digests.record(&Record::EMPTY), ZERO);
        assert_eq!(digests.worked(), 0);
        let node = sha256::digest(&[&[2][..], &some, &[8; 32]].concat());
        assert_eq!(digests.parent(some, [8; 32]), node);
        assert_eq!(digests.worked(), 1);
    }

    #[test]
    fn a_record_and_a_leaf_by_hand() {
        let mut digests = Digests::new();
        let record = Record { revision: 1, mass_kg: 2, offset_mm: 3, rigging: 4 };
        let mut string = [0; 33];
        (string[0], string[8], string[16], string[24], string[32]) = (3, 1, 2, 3, 4);
        let hash = digests.record(&record);
        assert_eq!(hash, sha256::digest(&string));
        let mut leaf = [0; 49];
        (leaf[0], leaf[8], leaf[16]) = (1, 5, 9);
        leaf[17..].copy_from_slice(&hash);
        assert_eq!(digests.leaf(5, 9, hash), sha256::digest(&leaf));
        assert_eq!(digests.worked(), 2);
    }
}
