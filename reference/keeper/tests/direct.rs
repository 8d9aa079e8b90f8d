//! The generated direct calls of the module meet every refusal, every edge of counter and
//! reply space, and every kind.

#![forbid(unsafe_code)]

mod common;

use common::{assert_decided_by_seed, hex};
use keeper::direct::{generate, probe as probe_of};
use reference::direct::{Call, MOST_LINE};
use reference::frames::{parse, unhex, Request};
use reference::module::Registers;
use reference::probes::answer;
use reference::strings::ZERO;
use std::collections::{BTreeMap, BTreeSet};

const TOP: u64 = u64::MAX;

fn registers(registers: &Registers) -> String {
    let Registers { root, counter, secret, opened } = registers;
    format!("{}{:016x}{}{:02x}", hex(root), counter, hex(secret), u8::from(*opened))
}

/// The calls of one seed, with what they came to: refusal, and registers afterwards. The
/// registers are by value in some and where they lie in others.
fn calls(seed: u64) -> Vec<(Call, u8, String)> {
    let mut all = Vec::new();
    let mut there = 0;
    generate(seed, 20_000, &mut |probe| {
        let letter = probe[0];
        if let Some(call) = Call::of(&probe[1..]).filter(|_| letter == b'm' || letter == b'h') {
            let answer = String::from_utf8(answer(probe)).unwrap();
            assert_eq!(answer.len(), 233);
            assert_eq!(probe_of(&call, letter), probe);
            let refusal = u8::from_str_radix(&answer[..2], 16).unwrap();
            all.push((call, refusal, answer[22..168].to_string()));
            there += usize::from(letter == b'h');
        } else {
            assert_eq!(answer(probe), b"?\n");
        }
    });
    assert!((19_000..19_900).contains(&all.len()) && (7000..9000).contains(&there));
    all
}

/// The kind of a line that is a frame's, or 0.
fn kind(call: &Call) -> u8 {
    let digits = call.line.get(..2).and_then(|pair| std::str::from_utf8(pair).ok());
    digits.and_then(|pair| u8::from_str_radix(pair, 16).ok()).unwrap_or(0)
}

#[test]
fn every_refusal_occurs_often() {
    let mut counts = BTreeMap::new();
    for (_, refusal, _) in calls(1) {
        *counts.entry(refusal).or_insert(0) += 1;
    }
    assert_eq!(counts.keys().copied().collect::<Vec<u8>>(), (0..=16).collect::<Vec<u8>>());
    assert!(counts.values().all(|count| *count >= 30), "{:?}", counts);
}

/// Each kind is accepted, set and clear at every counter but the top.
#[test]
fn every_kind_is_accepted() {
    let accepted: Vec<Call> = calls(2)
        .into_iter()
        .filter(|(_, refusal, _)| *refusal == 0)
        .map(|(call, ..)| call)
        .collect();
    let kinds: BTreeSet<u8> = accepted.iter().map(kind).collect();
    assert_eq!(kinds, (0x01..=0x10).collect());
    for kind_of_change in [0x0c, 0x0d] {
        let changes = accepted.iter().filter(|call| kind(call) == kind_of_change);
        let counters: BTreeSet<u64> = changes.map(|call| call.registers.counter).collect();
        for counter in [0, 1, u64::from(u32::MAX), 1 << 32, TOP - 2, TOP - 1] {
            assert!(counters.contains(&counter), "{:02x} {}", kind_of_change, counter);
        }
        assert!(!counters.contains(&TOP));
    }
}

/// Registers change where a line is accepted that changes them, and nowhere else.
#[test]
fn registers_stay_where_they_should() {
    let mut changed = BTreeSet::new();
    for (call, refusal, after) in calls(3) {
        if registers(&call.registers) != after {
            assert_eq!(refusal, 0);
            changed.insert(kind(&call));
        }
    }
    assert_eq!(changed, [0x0b, 0x0c, 0x0d, 0x10].into_iter().collect());
}

/// At the top set and clear are refused 7, also where the memorandum fits a counter
/// that wraps or stays.
#[test]
fn the_top_is_met_in_every_way() {
    let at_top: Vec<_> =
        calls(4).into_iter().filter(|(c, ..)| c.registers.counter == TOP).collect();
    let refused_7: BTreeSet<u8> = at_top
        .iter()
        .filter(|(_, refusal, _)| *refusal == 7)
        .map(|(call, ..)| kind(call))
        .collect();
    assert_eq!(refused_7, [0x0c, 0x0d].into_iter().collect());
    let kinds: BTreeSet<u8> = at_top
        .iter()
        .filter(|(_, refusal, _)| *refusal == 0)
        .map(|(call, ..)| kind(call))
        .collect();
    assert!([0x0b, 0x0e, 0x0f].iter().all(|kind| kinds.contains(kind)));
}

/// A set, open and with item numbers above 0 and a sound old record, gets 16 by its mass alone,
/// at the counter's top too; both edges are accepted.
#[test]
fn masses_of_sets_are_met_at_every_edge() {
    let mut met = BTreeSet::new();
    for (call, refusal, _) in calls(7) {
        let frame = unhex(&call.line).ok().and_then(|frame| parse(&frame).ok());
        if let Some(Request::Set { values: [mass, ..], .. }) = frame {
            assert!(refusal != 16 || mass == 0 || mass > 2_000_000);
            assert!(refusal != 0 || (1..=2_000_000).contains(&mass));
            met.insert((mass, refusal, call.registers.counter == TOP));
        }
    }
    for mass in [0, 2_000_001] {
        assert!(met.contains(&(mass, 16, false)) && met.contains(&(mass, 16, true)));
    }
    for mass in [1, 2_000_000] {
        assert!(met.contains(&(mass, 0, false)) && met.contains(&(mass, 7, true)));
    }
}

#[test]
fn every_edge_of_the_reply_space_is_met() {
    let mut met = BTreeSet::new();
    for (call, refusal, _) in calls(5) {
        assert_eq!(refusal == 15, call.space < 195);
        met.insert((call.space, refusal == 0));
    }
    for space in [0, 1, 4, 5, 194] {
        assert!(met.contains(&(space, false)));
    }
    for space in [195, 196, 4400] {
        assert!(met.contains(&(space, false)) && met.contains(&(space, true)));
    }
}

/// Roots zero, random and wanted; secrets zero and not; open and not; lines of every
/// byte and of the lengths about the longest.
#[test]
fn registers_and_lines_are_of_every_sort() {
    let made: Vec<Call> = calls(6).into_iter().map(|(call, ..)| call).collect();
    let sorts: BTreeSet<_> = made
        .iter()
        .map(|call| &call.registers)
        .map(|r| (r.root == ZERO, r.secret == ZERO, r.opened))
        .collect();
    assert_eq!(sorts.len(), 8);
    let bytes: BTreeSet<u8> = made.iter().flat_map(|call| call.line.iter().copied()).collect();
    assert_eq!(bytes.len(), 256);
    let lengths: BTreeSet<usize> = made.iter().map(|call| call.line.len()).collect();
    assert!([0, 4243, 4244, 4245, 4246, MOST_LINE].iter().all(|length| lengths.contains(length)));
}

#[test]
fn calls_are_decided_by_their_seed() {
    assert_decided_by_seed(generate);
}
