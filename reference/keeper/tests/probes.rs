//! The generated probes of the reader, the writer and the digest: every outcome, space and
//! damage occurs among them.

#![forbid(unsafe_code)]

mod common;

use common::{assert_decided_by_seed, hex};
use keeper::hostile::random_frame;
use keeper::probes::generate;
use keeper::random::Random;
use reference::frames::{unhex, value, KINDS, LONGEST_FRAME};
use reference::probes::{answer, KEPT};
use reference::sha256::digest;
use std::collections::{BTreeMap, BTreeSet};

/// Sees that the probe, its parts put together, gets this answer.
fn answers(probe: &[&str], expected: &[&str]) {
    let got = String::from_utf8(answer(probe.concat().as_bytes())).unwrap();
    assert_eq!(got, expected.concat() + "\n", "probe {:?}", probe);
}

/// The probes of one seed, with their answers.
fn probes(seed: u64) -> Vec<(Vec<u8>, Vec<u8>)> {
    let mut all = Vec::new();
    generate(seed, 20_000, &mut |probe| all.push((probe.to_vec(), answer(probe))));
    assert_eq!(all.len(), 20_000);
    all
}

/// The letter of a probe that got a refusal number, and that number.
fn number(probe: &[u8], answer: &[u8]) -> Option<(u8, u8)> {
    let letter = *probe.first().filter(|_| answer.len() == 67)?;
    Some((letter, unhex(&answer[..2]).ok()?[0]))
}

#[test]
fn every_outcome_occurs_often() {
    let mut counts = BTreeMap::new();
    for (probe, answer) in probes(1) {
        assert_eq!(answer.last(), Some(&b'\n'));
        assert!([2, 65, 67].contains(&answer.len()));
        *counts.entry((answer.len(), number(&probe, &answer))).or_insert(0) += 1;
    }
    let letters = [b'r', b'w'].iter();
    let outcomes = letters.flat_map(|letter| [0, 1, 2, 3, 15].map(|n| (67, Some((*letter, n)))));
    let mut expected: BTreeSet<_> = outcomes.collect();
    expected.extend([(2, None), (65, None)]);
    assert_eq!(counts.keys().copied().collect::<BTreeSet<_>>(), expected);
    assert!(counts.values().all(|count| *count >= 300), "{:?}", counts);
}

#[test]
fn every_kind_and_every_path_is_accepted() {
    let mut kinds = BTreeSet::new();
    let mut levels = BTreeSet::new();
    for (probe, answer) in probes(2) {
        if let Some((letter, 0)) = number(&probe, &answer) {
            let frame = unhex(&probe[5..]).unwrap();
            kinds.insert((letter, frame[0]));
            if frame[0] == 0x01 {
                levels.insert((letter, frame[65]));
            }
        }
    }
    for letter in [b'r', b'w'] {
        assert!(KINDS.clone().all(|kind| kinds.contains(&(letter, kind))));
        assert!((0..=64).all(|n| levels.contains(&(letter, n))));
    }
}

/// Just enough, one short, none, one more and the most, for all that is good.
#[test]
fn good_ones_meet_every_sort_of_space() {
    let mut met = BTreeSet::new();
    for (probe, answer) in probes(3) {
        if let Some((letter, 0 | 15)) = number(&probe, &answer) {
            let frame = probe[5..].len() / 2;
            let need = if letter == b'r' { frame } else { 2 * frame + 1 };
            let space = named_space(&probe);
            met.insert((letter, "none", space == 0));
            met.insert((letter, "one short", space + 1 == need));
            met.insert((letter, "enough", space == need));
            met.insert((letter, "one more", space == need + 1));
            met.insert((letter, "most", space == 4400));
        }
    }
    assert_eq!(met.iter().filter(|(_, _, true_of_some)| *true_of_some).count(), 10, "{:?}", met);
}

fn named_space(probe: &[u8]) -> usize {
    let named = std::str::from_utf8(&probe[1..5]).unwrap();
    usize::from_str_radix(named, 16).unwrap()
}

/// A sort of damage, and how it is known.
type Damage = (&'static str, fn(&[u8]) -> bool);

const LINE_DAMAGE: [Damage; 11] = [
    ("empty", |line| line.is_empty()),
    ("upper case", |line| line.iter().any(u8::is_ascii_uppercase)),
    ("odd digits", |line| line.len() % 2 == 1 && line.iter().all(u8::is_ascii_hexdigit)),
    ("CR behind", |line| line.len() % 2 == 1 && line.ends_with(b"\r")),
    ("CR in place", |line| line.len() % 2 == 0 && line.ends_with(b"\r")),
    ("NUL within", |line| line.len() % 2 == 0 && line.contains(&0)),
    ("beside 0", |line| line.contains(&b'/')),
    ("beside 9", |line| line.contains(&b':')),
    ("beside a", |line| line.contains(&b'`')),
    ("beside f", |line| line.contains(&b'g')),
    ("high bytes", |line| line.iter().any(|byte| *byte >= 0x80)),
];

#[test]
fn every_damage_to_lines_occurs() {
    let lines: Vec<Vec<u8>> = damaged(b'r').map(|probe| probe[5..].to_vec()).collect();
    for (name, known) in LINE_DAMAGE {
        assert!(lines.iter().any(|line| known(line)), "{}", name);
    }
    for length in (4242..=4248).chain([9000]) {
        assert!(lines.iter().any(|line| line.len() == length), "{}", length);
    }
    let bytes: BTreeSet<u8> = lines.iter().flatten().copied().collect();
    assert_eq!(bytes.len(), 255);
}

/// The probes of that letter that were refused 1, 2 or 3.
fn damaged(letter: u8) -> impl Iterator<Item = Vec<u8>> {
    let refused = move |(probe, answer): (Vec<u8>, Vec<u8>)| match number(&probe, &answer) {
        Some((found, 1..=3)) if found == letter => Some(probe),
        _ => None,
    };
    probes(4).into_iter().chain(probes(5)).filter_map(refused)
}

/// The n of a path, and the length of its frame.
fn path_of(frame: &[u8]) -> Option<(usize, usize)> {
    let n = frame.get(65).filter(|_| frame[0] == 0x01)?;
    Some((usize::from(*n), frame.len()))
}

/// True of a path of `least` levels or more, with that many siblings more or fewer.
fn is_path(frame: &[u8], least: usize, more: isize) -> bool {
    let whole = |n: usize| 74 + 32 * (n as isize + more);
    path_of(frame).map_or(false, |(n, length)| n >= least && length as isize == whole(n))
}

const FRAME_DAMAGE: [Damage; 12] = [
    ("empty", |frame| frame.is_empty()),
    ("kind alone", |frame| frame.len() == 1 && frame[0] <= 0x10),
    ("refusal's kind", |frame| frame.first() == Some(&0x00)),
    ("kind above the last", |frame| frame.first() == Some(&0x11)),
    ("65 levels whole", |frame| path_of(frame) == Some((65, 74 + 65 * 32))),
    ("65 levels in the longest", |frame| path_of(frame) == Some((65, LONGEST_FRAME))),
    ("more levels whole", |frame| is_path(frame, 66, 0)),
    ("255 levels", |frame| path_of(frame).map_or(false, |(n, _)| n == 255)),
    ("sibling missing", |frame| is_path(frame, 0, -1)),
    ("sibling too many", |frame| is_path(frame, 0, 1)),
    ("one more than the longest", |frame| frame.len() == LONGEST_FRAME + 1),
    ("the most a probe carries", |frame| frame.len() == 4096),
];

#[test]
fn every_damage_to_frames_occurs() {
    for letter in [b'r', b'w'] {
        let frames: Vec<Vec<u8>> = damaged(letter).filter_map(|probe| bytes(&probe[5..])).collect();
        for (name, known) in FRAME_DAMAGE {
            assert!(frames.iter().any(|frame| known(frame)), "{} {}", letter, name);
        }
        let kinds: BTreeSet<u8> = frames.iter().filter_map(|f| f.first().copied()).collect();
        assert!((0x81..=0x90).all(|kind| kinds.contains(&kind)));
        assert!((2121..=2124).all(|length| frames.iter().any(|frame| frame.len() == length)));
        every_length_is_off_by_one(&frames);
    }
}

/// The bytes of digits, as many as they may be.
fn bytes(digits: &[u8]) -> Option<Vec<u8>> {
    let byte = |pair: &[u8]| match pair {
        [high, low] => Some(value(*high).ok()? << 4 | value(*low).ok()?),
        _ => None,
    };
    digits.chunks(2).map(byte).collect()
}

fn every_length_is_off_by_one(frames: &[Vec<u8>]) {
    let met: BTreeSet<_> = frames.iter().map(|f| (f.first().copied(), f.len())).collect();
    let mut random = Random::new(1);
    for kind in KINDS.skip(1) {
        let length = random_frame(kind, &mut random).len();
        assert!(met.contains(&(Some(kind), length - 1)) && met.contains(&(Some(kind), length + 1)));
    }
}

/// Over more probes: for each n its length off by one either way, a highest side
/// bit just at n, and each bit as the highest stray one.
#[test]
fn every_path_is_damaged_in_every_way() {
    let mut lengths = BTreeSet::new();
    let mut at_n = BTreeSet::new();
    let mut highest = BTreeSet::new();
    generate(9, 200_000, &mut |probe| {
        let frame = probe.get(5..).and_then(bytes).unwrap_or_default();
        lengths.extend(path_of(&frame).map(|(n, length)| (probe[0], n, length)));
        if is_path(&frame, 0, 0) {
            let sides = u64::from_be_bytes(frame[66..74].try_into().unwrap());
            let stray = (frame[65]..64).find(|bit| sides >> bit == 1);
            highest.extend(stray.map(|bit| (probe[0], bit)));
            at_n.extend(stray.filter(|bit| *bit == frame[65]).map(|bit| (probe[0], bit)));
        }
    });
    for letter in [b'r', b'w'] {
        let met = |n, length| lengths.contains(&(letter, n, length));
        assert!((0..=64).all(|n| met(n, 73 + 32 * n) && met(n, 75 + 32 * n)));
        assert!((0..64).all(|bit| at_n.contains(&(letter, bit))), "{:?}", at_n);
        assert!((0..64).all(|bit| highest.contains(&(letter, bit))), "{:?}", highest);
    }
}

#[test]
fn messages_and_strays_are_of_every_sort() {
    let made = probes(6);
    let with_answer = |length| made.iter().filter(move |(_, a)| a.len() == length).map(|(p, _)| p);
    let lengths: BTreeSet<usize> = with_answer(65).map(|probe| probe.len() / 2).collect();
    assert!((0..=200).all(|length| lengths.contains(&length)));
    assert!(lengths.contains(&8192) && lengths.iter().any(|length| (300..8000).contains(length)));
    let strays: Vec<&Vec<u8>> = with_answer(2).collect();
    let sorts: [Damage; 10] = [
        ("letter alone", |line| line == b"r" || line == b"w"),
        ("space of 4,401", |line| line.starts_with(b"r1131") || line.starts_with(b"w1131")),
        ("w odd", |line| line.starts_with(b"w1130") && line.len() % 2 == 0),
        ("w other byte", |line| line.starts_with(b"w1130") && line.iter().any(|b| *b > b'w')),
        ("w of 4,097 bytes", |line| line.starts_with(b"w1130") && line.len() == 5 + 2 * 4097),
        ("other letter", |line| line.starts_with(b"R") || line.starts_with(b"W")),
        ("message odd", |line| line.len() % 2 == 1 && line.iter().all(u8::is_ascii_hexdigit)),
        ("message with CR", |line| line.starts_with(b"0") && line.ends_with(b"\r")),
        ("message too long", |line| line.iter().all(u8::is_ascii_hexdigit) && line.len() > KEPT),
        ("w too long", |line| line.starts_with(b"w0") && line.len() > KEPT),
    ];
    for (name, known) in sorts {
        assert!(strays.iter().any(|line| known(line)), "{}", name);
    }
    assert!(made.iter().any(|(probe, _)| probe.starts_with(b"r0") && probe.len() > KEPT));
}

/// A line that was read is the line its frame is written as, and the other way.
#[test]
fn what_is_accepted_comes_back() {
    let mut seen = 0;
    for (probe, answer) in probes(7) {
        if let Some((_, 0)) = number(&probe, &answer) {
            let digits = std::str::from_utf8(&probe[5..]).unwrap();
            let frame = unhex(&probe[5..]).unwrap();
            let line = digits.to_string() + "\n";
            let (read, written) = (hex(&digest(&frame)), hex(&digest(line.as_bytes())));
            answers(&["w", &format!("{:04x}", line.len()), &hex(&frame)], &["00", &written]);
            answers(&["r", &format!("{:04x}", frame.len()), digits], &["00", &read]);
            seen += 1;
        }
    }
    assert!(seen > 4000);
}

#[test]
fn a_long_line_is_answered_like_its_first_bytes() {
    let long: Vec<_> = probes(8).into_iter().filter(|(probe, _)| probe.len() > KEPT).collect();
    assert!(long.len() > 20);
    for (probe, whole) in long {
        assert_eq!(answer(&probe[..KEPT]), whole);
    }
}

#[test]
fn probes_are_decided_by_their_seed() {
    assert_decided_by_seed(generate);
}
