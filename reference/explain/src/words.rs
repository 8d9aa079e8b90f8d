//! Words for what stands in lines: numbers with their units, records, items, digests.
//!
//! The protocol's paper, §3.4.1: what the four numbers of a record are.

use reference::strings::{Digest, One, Record, Two, ZERO};

// Numbers.

/// The number that bytes stand for, the highest byte first.
pub fn number(bytes: &[u8]) -> u64 {
    bytes.iter().fold(0, |all, byte| all << 8 | u64::from(*byte))
}

/// A number with a comma before each three digits: 61,400.
pub fn group(number: u64) -> String {
    let digits = number.to_string();
    let mut grouped = String::new();
    for (at, digit) in digits.chars().enumerate() {
        if at > 0 && (digits.len() - at) % 3 == 0 {
            grouped.push(',');
        }
        grouped.push(digit);
    }
    grouped
}

pub fn count(number: usize, thing: &str) -> String {
    let ending = if number == 1 { "" } else { "s" };
    format!("{} {}{}", group(number as u64), thing, ending)
}

pub fn kilograms(mass_kg: u64) -> String {
    format!("{} kg", group(mass_kg))
}

// Items and records.

pub fn leaf(item: u64, next: u64) -> String {
    format!("item {} (next item {})", item, next)
}

/// What a leaf says of the ring: the highest item's next is the lowest, and a lone
/// item's is itself. The item is called as `called` has it.
pub fn neighbours(item: u64, called: &str, next: u64) -> String {
    if item == next {
        format!("{} is the only one", called)
    } else if item < next {
        format!("item {} comes next after {}", next, called)
    } else {
        format!("{} is the highest and item {} the lowest", called, next)
    }
}

pub fn record(record: &Record) -> String {
    let Record { revision, mass_kg, offset_mm, rigging } = *record;
    let held = format!("revision {}, {}", revision, load([mass_kg, offset_mm, rigging]));
    if record.is_malformed() {
        format!("a malformed record ({})", held)
    } else if record.is_empty() {
        "no record".to_string()
    } else {
        held
    }
}

/// Mass, offset and rigging code: what a set gives an item.
pub fn load([mass_kg, offset_mm, rigging]: [u64; 3]) -> String {
    format!("{}, offset {} mm, rigging code {}", kilograms(mass_kg), group(offset_mm), rigging)
}

pub fn hash_of_record(hash: &Digest) -> String {
    or_short(hash, "no record", "record hash ")
}

// Digests. An all-zero one is called by what it stands for: an empty place, the empty
// list. An all-zero memorandum is never "none given", so it keeps its name.

/// The first 8 digits, with a word before them; an all-zero digest has a name.
fn or_short(digest: &[u8], if_zero: &str, before: &str) -> String {
    if digest == ZERO {
        return if_zero.to_string();
    }
    let first: String = digest[..4].iter().map(|byte| format!("{:02x}", byte)).collect();
    format!("{}{}…", before, first)
}

/// What stands at some place in the tree.
pub fn spot(digest: &Digest) -> String {
    or_short(digest, "an empty place", "")
}

pub fn root(digest: &Digest) -> String {
    or_short(digest, "the empty list", "root ")
}

pub fn list(root: &Digest) -> String {
    or_short(root, "the empty list", "the list of root ")
}

/// What a new root makes of the list.
pub fn now(root: &Digest) -> String {
    or_short(root, "the list is now empty", "the list now has root ")
}

pub fn memo(m: &[u8]) -> String {
    or_short(m, "the all-zero memorandum", "memorandum ")
}

pub fn memos(m1: &Digest, m2: &Digest) -> String {
    format!("{} and {}", memo(m1), memo(m2))
}

/// One root for another, as a memorandum should show.
pub fn roots(old: &Digest, new: &Digest, m: &Digest) -> String {
    format!("{} becoming {}, as {} should show", root(old), root(new), memo(m))
}

pub fn change(old: &Digest, new: &Digest) -> String {
    if old == new {
        spot(old)
    } else {
        format!("{} becoming {}", spot(old), spot(new))
    }
}

/// A U1's four digests.
pub fn one(low: &One) -> String {
    format!("{} under {}", change(&low.x, &low.x_new), change(&low.y, &low.y_new))
}

/// A U2's six digests.
pub fn two(low: &Two) -> String {
    let (first, second) = (change(&low.x1, &low.x1_new), change(&low.x2, &low.x2_new));
    format!("{} and {} under {}", first, second, change(&low.y, &low.y_new))
}
