//! Generated sessions: every line against the answer aimed at, the block counts
//! and their ceilings, the registers, and the abstract list of the replay.

#![forbid(unsafe_code)]

use keeper::hostile::Trick;
use keeper::replay::Replay;
use keeper::sessions::{generate, Source, Step};
use reference::frames::{parse, unhex, Request};
use reference::module::Registers;
use std::collections::{BTreeMap, BTreeSet, HashSet};

const SEEDS: std::ops::Range<u64> = 1..9;
const LINES: usize = 6000;

/// Shows every step of the standard sessions.
fn every_step(watch: &mut dyn FnMut(u64, &Step)) {
    for seed in SEEDS {
        generate(seed, LINES, &mut |step| watch(seed, step));
    }
}

fn request_of(line: &[u8]) -> Option<Request> {
    parse(&unhex(line).ok()?).ok()
}

#[test]
fn every_line_gets_the_answer_it_aims_at() {
    every_step(&mut |seed, step| match step.source {
        Source::Honest => assert_eq!(step.answer.refusal, None, "seed {}", seed),
        Source::Trick(trick) => assert_eq!(step.answer.refusal, trick.aim(), "{:?}", trick),
        Source::Repeated | Source::Mutated => {}
    });
}

#[test]
fn every_trick_is_played() {
    let mut played = HashSet::new();
    every_step(&mut |_, step| {
        if let Source::Trick(trick) = step.source {
            played.insert(trick);
        }
    });
    let missing: Vec<Trick> =
        Trick::all().into_iter().filter(|trick| !played.contains(trick)).collect();
    assert!(missing.is_empty(), "never played: {:?}", missing);
}

#[test]
fn every_refusal_but_7_and_15_is_met() {
    let mut met = BTreeSet::new();
    every_step(&mut |_, step| {
        met.extend(step.answer.refusal);
    });
    let expected: BTreeSet<u8> = (1..=16).filter(|number| ![7, 15].contains(number)).collect();
    assert_eq!(met, expected);
}

/// Repeats and mutations reach both sides: some are accepted, some refused, and
/// some repeats change the root.
#[test]
fn repeats_and_mutations_are_of_both_sorts() {
    let mut met = BTreeMap::new();
    let mut root = [0; 32];
    every_step(&mut |_, step| {
        let moved = step.registers.root != root;
        root = step.registers.root;
        let sort = match step.source {
            Source::Repeated => "repeated",
            Source::Mutated => "mutated",
            _ => return,
        };
        *met.entry((sort, step.answer.refusal.is_none(), moved)).or_insert(0) += 1;
    });
    for sort in [("repeated", true, true), ("repeated", true, false), ("repeated", false, false)] {
        assert!(met.contains_key(&sort), "{:?} in {:?}", sort, met);
    }
    assert!(
        met.contains_key(&("mutated", true, false)) && met.contains_key(&("mutated", false, false))
    );
}

#[test]
fn replies_fit_and_refusals_change_nothing() {
    let mut before = Registers::default();
    let mut longest = 0;
    let mut seed_before = 0;
    every_step(&mut |seed, step| {
        if seed != seed_before {
            before = Registers::default();
            seed_before = seed;
        }
        let reply = &step.answer.reply_line;
        assert!(reply.len() <= 195 && reply.last() == Some(&b'\n'));
        longest = longest.max(reply.len());
        if let Some(number) = step.answer.refusal {
            assert_eq!(reply, format!("00{:02x}\n", number).as_bytes());
            assert_eq!(step.registers, &before);
            assert_eq!(step.answer.issued, None);
        }
        before = step.registers.clone();
    });
    assert_eq!(longest, 195);
}

/// The paper's ceilings: 4n + 3 for a path, then kinds 02 to 0f, then open.
const CEILINGS: [u64; 16] = [0, 5, 9, 14, 11, 6, 3, 13, 4, 6, 2, 7, 6, 4, 0, 0];

#[test]
fn ceilings_are_reached_and_never_passed() {
    let mut reached = BTreeSet::new();
    let mut path_levels = BTreeSet::new();
    every_step(&mut |_, step| {
        let request = match request_of(step.line) {
            Some(request) => request,
            None => return assert_eq!(step.answer.blocks, 0),
        };
        let kind = request.frame()[0];
        let levels = match &request {
            Request::Path { siblings, .. } => Some(siblings.len()),
            _ => None,
        };
        let ceiling = levels.map_or(CEILINGS[usize::from(kind) - 1], |n| 4 * n as u64 + 3);
        assert!(step.answer.blocks <= ceiling, "kind {:02x}", kind);
        if step.answer.blocks == ceiling && step.answer.refusal.is_none() {
            reached.insert(kind);
            path_levels.extend(levels);
        }
    });
    assert_eq!(reached, (0x01..=0x10).collect());
    for levels in [0, 1, 2, 3, 10, 63, 64] {
        assert!(path_levels.contains(&levels), "no path of {} levels at its ceiling", levels);
    }
}

/// Nodes a path forms for one start: one where neither side is zero. No digest is
/// zero, so a start once above something stays not zero.
fn nodes_formed(start: &[u8; 32], siblings: &[[u8; 32]]) -> u64 {
    let mut at_zero = *start == [0; 32];
    let mut nodes = 0;
    for sibling in siblings {
        let zero_sibling = *sibling == [0; 32];
        nodes += u64::from(!at_zero && !zero_sibling);
        at_zero &= zero_sibling;
    }
    nodes
}

fn node_blocks(left: &[u8; 32], right: &[u8; 32]) -> u64 {
    2 * nodes_formed(left, &[*right])
}

/// The block counts an accepted request, or one refused 8, 9 or 10, may have, by
/// the paper's formula: leaf and record 1, node, V1 and EI 2, U1 3, U2 4.
fn counts_allowed(request: &Request, refusal: Option<u8>) -> Vec<u64> {
    let done = |full: u64, at_8: u64, at_9: u64| match refusal {
        Some(8) => at_8,
        Some(9) => at_9,
        _ => full,
    };
    let recorded = |record: &reference::strings::Record| u64::from(record.revision != 0);
    match request {
        Request::Path { x, x_new, siblings, .. } => {
            vec![2 * (nodes_formed(x, siblings) + nodes_formed(x_new, siblings)) + 3]
        }
        Request::Witness { .. } => vec![done(5, 3, 0)],
        Request::Join { .. } => vec![done(9, 3, 6)],
        Request::Pair { first, second, .. } => {
            let nodes = node_blocks(&first.y, &second.y) + node_blocks(&first.y_new, &second.y_new);
            vec![done(10 + nodes, 3, 6)]
        }
        Request::Raise { .. } => vec![done(11, 4, 7)],
        Request::Swap { .. } => vec![done(6, 4, 0)],
        Request::First { .. } => vec![3],
        Request::Place { .. } if refusal == Some(8) => vec![11],
        Request::Place { .. } => vec![9, 13],
        Request::Turn { .. } => vec![done(4, 2, 0)],
        Request::Chain { .. } => vec![done(6, 2, 4)],
        Request::Adopt { .. } => vec![2],
        Request::Set { old, .. } => vec![6 + recorded(old)],
        Request::Clear { .. } => vec![6],
        Request::Ask { record, .. } => vec![3 + recorded(record)],
        Request::AskNone { .. } | Request::Open { .. } => vec![0],
    }
}

#[test]
fn block_counts_are_those_of_the_strings() {
    let mut both_orders = BTreeSet::new();
    every_step(&mut |_, step| {
        let request = match request_of(step.line) {
            Some(request) => request,
            None => return,
        };
        let refusal = step.answer.refusal;
        let past_numbers = matches!(refusal, None | Some(8..=10));
        let allowed = if past_numbers { counts_allowed(&request, refusal) } else { vec![0] };
        assert!(allowed.contains(&step.answer.blocks), "{:?} {:?}", request, refusal);
        if matches!(request, Request::Place { .. }) && refusal.is_none() {
            both_orders.insert(step.answer.blocks);
        }
    });
    assert_eq!(both_orders, BTreeSet::from([9, 13]));
}

/// What must hold after every line: the root is that of the keeper's
/// tree, whose leaves are the ring of the replayed list in some order; the counter
/// says how many record changes were accepted; every finding is true of the list.
fn follows_the_replay(seeds: std::ops::Range<u64>) {
    for seed in seeds {
        let mut replay = Replay::new();
        let mut number = 0;
        generate(seed, LINES, &mut |step| {
            number += 1;
            let place = format!("seed {} line {}", seed, number);
            let heard = replay.line(step.line, &step.answer.reply_line);
            assert_eq!(heard, Ok(()), "{}", place);
            assert_eq!(step.registers.counter, replay.counter(), "{}", place);
            assert_eq!(step.registers.root, step.tree.root_from_leaves(), "{}", place);
            let mut leaves = step.tree.leaves();
            leaves.sort_by_key(|leaf| leaf.0);
            assert_eq!(leaves, replay.ring(), "{}", place);
        });
        assert!(number >= LINES);
    }
}

#[test]
fn sessions_follow_the_replay_1() {
    follows_the_replay(1..5);
}

#[test]
fn sessions_follow_the_replay_2() {
    follows_the_replay(5..9);
}

/// The list really grows and shrinks, records come and go, all findings are met,
/// and trees get deeper than one path reaches.
#[test]
fn sessions_are_lively() {
    let mut sizes = BTreeSet::new();
    let mut findings = BTreeSet::new();
    let mut deepest = 0;
    let mut accepted = BTreeMap::new();
    every_step(&mut |_, step| {
        sizes.insert(step.tree.len());
        let reply = unhex(&step.answer.reply_line[..step.answer.reply_line.len() - 1]).unwrap();
        *accepted.entry(reply[0]).or_insert(0) += 1;
        if reply[0] == 0x8e {
            findings.insert(reply[1]);
        }
        if reply[0] == 0x83 {
            let depths = step.tree.items().into_iter().filter_map(|item| step.tree.place_of(item));
            deepest = depths.map(|place| step.tree.depth(place)).max().unwrap_or(0).max(deepest);
        }
    });
    assert!(sizes.contains(&0) && sizes.contains(&1) && sizes.iter().any(|size| *size > 64));
    assert_eq!(findings, BTreeSet::from([1, 2, 3]));
    assert!(deepest > 128);
    for kind in 0x81..=0x8f {
        assert!(accepted.get(&kind).map_or(false, |count| *count > 20), "{:?}", accepted);
    }
}

/// A tree deep by its leaves, not only by empty places, is met as well.
#[test]
fn some_trees_are_deep_without_empty_places() {
    let mut deepest = 0;
    let mut checked = 0;
    every_step(&mut |_, step| {
        checked += 1;
        if checked % 50 == 0 && step.tree.len() > 64 {
            let tidy = step.tree.tidied();
            let places = tidy.items().into_iter().filter_map(|item| tidy.place_of(item));
            deepest = places.map(|place| tidy.depth(place)).max().unwrap_or(0).max(deepest);
        }
    });
    assert!(deepest > 64, "deepest is {}", deepest);
}

#[test]
fn a_session_is_decided_by_its_seed() {
    let lines = |seed: u64| {
        let mut all = Vec::new();
        generate(seed, 500, &mut |step| all.push(step.line.to_vec()));
        all
    };
    assert_eq!(lines(7), lines(7));
    assert_ne!(lines(7), lines(8));
    assert!(lines(7).len() >= 500);
}

#[test]
fn no_line_holds_a_newline() {
    every_step(&mut |_, step| assert!(!step.line.contains(&b'\n')));
}
