//! The store: the file that keeps the leaves, a line for each slot of the tree in order.
//!
//! A line is A, A' and the record in 96 digits, and 0A. A store is loaded only where every line
//! can be read, there are not too many, and they are one ascending ring with each number once.

use reference::frames::{line_of, unhex, Frame};
use reference::strings::{in_gap, Record};
use std::ffi::OsString;
use std::fmt;
use std::fs::{self, File};
use std::io::{self, Write};
use std::path::{Path, PathBuf};

/// The most lines of a store: the slots of the tree.
pub const MOST_LINES: usize = 1024;

/// The digits of a line, without its 0A.
const DIGITS: usize = 96;

/// A listed item: its number, the next one's, and its record.
#[derive(Clone, Copy, Debug, PartialEq, Eq)]
pub struct Leaf {
    pub item: u64,
    pub next: u64,
    pub record: Record,
}

/// Why a store is not loaded. Lines are counted from 1.
#[derive(Debug)]
pub enum Broken {
    /// The file cannot be read at all.
    File(io::Error),
    /// The first line that cannot be read.
    Line(usize),
    /// There are more lines than slots.
    TooMany,
    /// The first pair of lines that breaks the ring.
    Pair(usize, usize),
}

impl fmt::Display for Broken {
    fn fmt(&self, f: &mut fmt::Formatter) -> fmt::Result {
        match self {
            Broken::File(_) => write!(f, "cannot be read"),
            Broken::Line(line) => write!(f, "line {} cannot be read", line),
            Broken::TooMany => write!(f, "has more than {} lines", MOST_LINES),
            Broken::Pair(first, second) => {
                write!(f, "lines {} and {} break the ring", first, second)
            }
        }
    }
}

/// The leaves in a store's bytes, or the first thing that is wrong with them.
pub fn load(bytes: &[u8]) -> Result<Vec<Leaf>, Broken> {
    let mut leaves = Vec::new();
    for (at, line) in bytes.split_inclusive(|byte| *byte == b'\n').enumerate() {
        leaves.push(leaf_of(line).ok_or(Broken::Line(at + 1))?);
    }
    if leaves.len() > MOST_LINES {
        return Err(Broken::TooMany);
    }
    match first_break(&leaves) {
        Some((first, second)) => Err(Broken::Pair(first + 1, second + 1)),
        None => Ok(leaves),
    }
}

/// The leaf that a line with its 0A holds, if it can be read.
fn leaf_of(line: &[u8]) -> Option<Leaf> {
    let digits = line.strip_suffix(b"\n")?;
    if digits.len() != DIGITS {
        return None;
    }
    let bytes = unhex(digits).ok()?;
    let number =
        |at: usize| bytes[8 * at..8 * at + 8].iter().fold(0, |n, b| n << 8 | u64::from(*b));
    let record = Record {
        revision: number(2),
        mass_kg: number(3),
        offset_mm: number(4),
        rigging: number(5),
    };
    let leaf = Leaf { item: number(0), next: number(1), record };
    let sound = leaf.item != 0 && leaf.next != 0 && !record.is_malformed();
    sound.then_some(leaf)
}

/// The first pair of leaves that breaks the ring, by the first and then by the second;
/// counted from 0.
fn first_break(leaves: &[Leaf]) -> Option<(usize, usize)> {
    let all = 0..leaves.len();
    all.clone()
        .flat_map(|first| all.clone().map(move |second| (first, second)))
        .find(|(first, second)| breaks(leaves, *first, *second))
}

/// Whether two leaves break the ring: both have one number, or the second's lies in the first's
/// gap. A leaf breaks it with itself where its next number is no leaf's.
fn breaks(leaves: &[Leaf], first: usize, second: usize) -> bool {
    let (one, other) = (&leaves[first], &leaves[second]);
    if first == second {
        !leaves.iter().any(|leaf| leaf.item == one.next)
    } else {
        one.item == other.item || in_gap(other.item, one.item, one.next)
    }
}

/// The bytes of the store that keeps these leaves.
pub fn bytes(leaves: &[Leaf]) -> Vec<u8> {
    leaves.iter().flat_map(line).collect()
}

/// A leaf's line, with its 0A.
fn line(leaf: &Leaf) -> Vec<u8> {
    let fields = Frame { bytes: Vec::new() };
    line_of(&fields.numbers(&[leaf.item, leaf.next]).numbers(&leaf.record.numbers()).bytes)
}

/// The leaves in a store's file. A missing file is an empty store.
pub fn read(path: &Path) -> Result<Vec<Leaf>, Broken> {
    match fs::read(path) {
        Ok(bytes) => load(&bytes),
        Err(fault) if fault.kind() == io::ErrorKind::NotFound => Ok(Vec::new()),
        Err(fault) => Err(Broken::File(fault)),
    }
}

/// Puts the leaves on disk in place of what the store's file held: written whole under another
/// name, synced, and renamed over it.
pub fn write(path: &Path, leaves: &[Leaf]) -> io::Result<()> {
    let other = other_name(path);
    let mut file = File::create(&other)?;
    file.write_all(&bytes(leaves))?;
    file.sync_all()?;
    fs::rename(&other, path)?;
    File::open(folder(path))?.sync_all()
}

/// The store's name with `.new` behind it.
fn other_name(path: &Path) -> PathBuf {
    let mut name = OsString::from(path);
    name.push(".new");
    PathBuf::from(name)
}

/// The folder that a file stands in.
fn folder(path: &Path) -> &Path {
    match path.parent() {
        Some(parent) if parent != Path::new("") => parent,
        _ => Path::new("."),
    }
}

#[cfg(test)]
mod tests {
    use super::*;

    /// Item 5, its own next, with revision 1, 61,400 kg, 1,250 mm and rigging code 3.
    const LINE: &[u8] = b"00000000000000050000000000000005\
        0000000000000001000000000000efd800000000000004e20000000000000003\n";

    /// Items and the next ones'.
    type Numbers = [(u64, u64)];

    fn broken(bytes: &[u8]) -> String {
        load(bytes).unwrap_err().to_string()
    }

    /// Lines of items without records.
    fn lines(numbers: &Numbers) -> Vec<u8> {
        numbers
            .iter()
            .flat_map(|(item, next)| format!("{:016x}{:016x}{:064x}\n", item, next, 0).into_bytes())
            .collect()
    }

    /// The pair that breaks the ring, or none.
    fn pair(numbers: &Numbers) -> Option<(usize, usize)> {
        match load(&lines(numbers)) {
            Ok(_) => None,
            Err(Broken::Pair(first, second)) => Some((first, second)),
            Err(other) => panic!("{}", other),
        }
    }

    #[test]
    fn one_line_by_hand() {
        let record = Record { revision: 1, mass_kg: 61_400, offset_mm: 1_250, rigging: 3 };
        let leaves = load(LINE).unwrap();
        assert_eq!(leaves, [Leaf { item: 5, next: 5, record }]);
        assert_eq!(bytes(&leaves), LINE);
    }

    #[test]
    fn an_empty_file_is_an_empty_store() {
        assert_eq!(load(b"").unwrap(), []);
        assert_eq!(bytes(&[]), b"");
    }

    /// One line, damaged in each way, stands first, and then behind a good one.
    #[test]
    fn lines_that_cannot_be_read() {
        let text = |place: usize, byte: u8| {
            let mut line = LINE.to_vec();
            line[place] = byte;
            line
        };
        let cases = [
            LINE[..96].to_vec(),
            [&LINE[..95], b"\n"].concat(),
            [&LINE[..96], b"0\n"].concat(),
            [&LINE[..96], b"\r\n"].concat(),
            b"\n".to_vec(),
            b"0".to_vec(),
            text(0, b'A'),
            text(0, b'g'),
            text(95, b' '),
            text(95, 0),
            text(15, b'0'),
            text(31, b'0'),
            text(47, b'0'),
        ];
        for case in cases {
            assert_eq!(broken(&case), "line 1 cannot be read", "{:?}", case);
            assert_eq!(broken(&[LINE, &case].concat()), "line 2 cannot be read", "{:?}", case);
        }
    }

    #[test]
    fn each_number_of_a_record_without_revision_is_malformed() {
        for place in [48, 64, 80] {
            let mut line = lines(&[(5, 5)]);
            line[place + 15] = b'1';
            assert_eq!(broken(&line), "line 1 cannot be read");
        }
    }

    /// The first unreadable line counts, also behind a pair that breaks the ring and behind more
    /// lines than there are slots.
    #[test]
    fn the_order_of_the_refusals() {
        let twice = [LINE, LINE].concat();
        assert_eq!(broken(&twice), "lines 1 and 2 break the ring");
        assert_eq!(broken(&[&twice[..], b"x\n", b"y\n"].concat()), "line 3 cannot be read");
        let many = LINE.repeat(1025);
        assert_eq!(broken(&many), "has more than 1024 lines");
        assert_eq!(broken(&LINE.repeat(1024)), "lines 1 and 2 break the ring");
        assert_eq!(broken(&[&many[..], b"\n"].concat()), "line 1026 cannot be read");
        assert_eq!(broken(&many[..many.len() - 1]), "line 1025 cannot be read");
    }

    #[test]
    fn rings_in_any_order_pass() {
        let top = u64::MAX;
        let rings: [&Numbers; 6] = [
            &[(5, 5)],
            &[(1, top), (top, 1)],
            &[(top, 1), (1, top)],
            &[(1, 2), (2, 3), (3, 1)],
            &[(3, 1), (1, 2), (2, 3)],
            &[(9, 20), (4, 9), (20, 2), (2, 4)],
        ];
        for ring in rings {
            assert_eq!(pair(ring), None, "{:?}", ring);
            assert_eq!(bytes(&load(&lines(ring)).unwrap()), lines(ring));
        }
    }

    #[test]
    fn pairs_that_break_the_ring() {
        let top = u64::MAX;
        let cases: [(&Numbers, (usize, usize)); 13] = [
            (&[(5, 7)], (1, 1)),
            // One number twice, in lines that are alike and in ones that are not.
            (&[(5, 5), (5, 5)], (1, 2)),
            (&[(5, 9), (9, 5), (9, 5)], (2, 3)),
            (&[(5, 9), (9, 5), (5, 9)], (1, 3)),
            // The second's number in the first's gap, which closes behind the highest.
            (&[(9, 2), (2, 9), (1, 2)], (1, 3)),
            (&[(9, 2), (2, 9), (top, 2)], (1, 3)),
            (&[(2, 9), (9, 2), (5, 9)], (1, 3)),
            (&[(5, 5), (7, 7)], (1, 2)),
            // Two rings beside each other.
            (&[(1, 2), (2, 1), (3, 4), (4, 3)], (2, 3)),
            // The second stands before the first.
            (&[(7, 9), (5, 9), (9, 5)], (2, 1)),
            // Not (2,2), though line 2's next number is no line's: (1,5) comes first.
            (&[(10, 30), (30, 77), (40, 50), (50, 10), (20, 30)], (1, 5)),
            // And (2,2) before (2,3).
            (&[(10, 30), (30, 77), (40, 10)], (2, 2)),
            (&[(10, 30), (40, 10), (30, 77)], (3, 2)),
        ];
        for (numbers, expected) in cases {
            assert_eq!(pair(numbers), Some(expected), "{:?}", numbers);
        }
    }

    /// Every set of up to three lines with numbers from 1 to 3: loaded exactly where it is a ring.
    #[test]
    fn small_stores_pass_exactly_where_they_are_rings() {
        let leaves: Vec<(u64, u64)> = (1..=3).flat_map(|a| (1..=3).map(move |b| (a, b))).collect();
        let mut stores: Vec<Vec<(u64, u64)>> = vec![Vec::new()];
        for length in 0..3 {
            let longer: Vec<_> = stores
                .iter()
                .filter(|store| store.len() == length)
                .flat_map(|store| leaves.iter().map(move |leaf| [&store[..], &[*leaf]].concat()))
                .collect();
            stores.extend(longer);
        }
        assert_eq!(stores.len(), 1 + 9 + 81 + 729);
        let passed = stores.iter().filter(|store| pair(store).is_none()).count();
        assert!(stores.iter().all(|store| pair(store).is_none() == is_ring(store)));
        // None; each alone; each two in either order; all three in six orders.
        assert_eq!(passed, 1 + 3 + 6 + 6);
    }

    /// Sorted, each number is once there, and each next number is the one behind it.
    fn is_ring(store: &Numbers) -> bool {
        let mut sorted = store.to_vec();
        sorted.sort_unstable();
        let behind = |at: usize| sorted[(at + 1) % sorted.len()].0;
        let once = sorted.windows(2).all(|two| two[0].0 != two[1].0);
        once && (0..sorted.len()).all(|at| sorted[at].1 == behind(at))
    }

    #[test]
    fn names_and_folders() {
        assert_eq!(other_name(Path::new("a/b.store")), Path::new("a/b.store.new"));
        assert_eq!(folder(Path::new("a/b.store")), Path::new("a"));
        assert_eq!(folder(Path::new("b.store")), Path::new("."));
        assert_eq!(folder(Path::new("/b.store")), Path::new("/"));
    }
}
