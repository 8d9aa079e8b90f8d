//! The protocol's paper by its numbers, worked out by hand: the whole run, the ceilings
//! and block counts, and the order of the refusals, each by a direct call.

#![forbid(unsafe_code)]

mod common;

use common::*;
use reference::module::{answer, Registers};
use reference::program;

const RUN_IN: &str =
    "7\nff\n0f\n0f0000000000000005\n10Z\n10S\n10Z\n0f0000000000000005\n070000000000000000\n";
const RUN_OUT: &str = "0001\n0002\n0003\n000d\n000c\n90\n000e\n8f0000000000000005\n0004\n";

/// The lines in of the whole run, with S and Z written out.
fn whole_run_in() -> String {
    RUN_IN.replace('S', &"01".repeat(32)).replace('Z', &"0".repeat(64))
}

#[test]
fn whole_run_line_by_line() {
    let mut registers = Registers::default();
    let mut out = String::new();
    for line in whole_run_in().lines() {
        let got = answer(&mut registers, line.as_bytes(), 195);
        assert_eq!(got.blocks, 0);
        out += std::str::from_utf8(&got.reply_line).unwrap();
    }
    assert_eq!(out, RUN_OUT);
    assert_eq!(registers, open_module(ZERO, 0));
}

#[test]
fn whole_run_through_the_program() {
    let mut out = Vec::new();
    program::run(whole_run_in().as_bytes(), &mut out, false).unwrap();
    assert_eq!(String::from_utf8(out).unwrap(), RUN_OUT);
}

/// A path frame with n and the number of siblings given apart, so that they can
/// be made to differ.
fn path_frame(x: &Digest, x_new: &Digest, n: u8, sides: u64, siblings: &[Digest]) -> Vec<u8> {
    bytes(0x01, &[x, x_new, &[n], &be(sides), &siblings.concat()])
}

fn siblings(count: u8) -> Vec<Digest> {
    (0..count).map(some).collect()
}

#[test]
fn a_path_of_n_levels_costs_four_n_and_three() {
    for n in [0, 1, 2, 3, 17, 63, 64u8] {
        let sides = if n == 0 { 0 } else { 0xa5a5_5a5a_0ff0_3cc3 >> (64 - n) };
        let (x, x_new) = (some(100), some(101));
        let mut y = [x, x_new];
        for (level, sibling) in siblings(n).iter().enumerate() {
            for digest in &mut y {
                let left = sides >> level & 1 == 1;
                *digest = if left { node(sibling, digest) } else { node(digest, sibling) };
            }
        }
        let reply = bytes(0x81, &[&y[0], &y[1], &u1(&x, &y[0], &x_new, &y[1])]);
        let frame = path_frame(&x, &x_new, n, sides, &siblings(n));
        assert_eq!(frame.len(), 74 + 32 * usize::from(n));
        accepted(&mut open_module(ZERO, 0), &frame, &reply, 4 * u64::from(n) + 3);
    }
}

#[test]
fn a_path_of_64_costs_259() {
    let frame = path_frame(&some(1), &some(2), 64, u64::MAX, &siblings(64));
    assert_eq!(frame.len(), 2122);
    let got = send(&mut open_module(ZERO, 0), &frame);
    assert_eq!((got.refusal, got.blocks, got.reply_line.len()), (None, 259, 195));
}

#[test]
fn both_folds_are_formed_where_nothing_changes() {
    let frame = path_frame(&some(1), &some(1), 10, 0, &siblings(10));
    assert_eq!(send(&mut open_module(ZERO, 0), &frame).blocks, 43);
}

#[test]
fn zero_siblings_and_zero_starts_form_no_node() {
    let (x, y) = (some(1), some(2));
    let module = open_module(ZERO, 0);
    let frame = path_frame(&x, &x, 3, 0b101, &[ZERO, ZERO, ZERO]);
    accepted(&mut module.clone(), &frame, &bytes(0x81, &[&x, &x, &u1(&x, &x, &x, &x)]), 3);
    let frame = path_frame(&x, &ZERO, 1, 0, &[y]);
    let top = node(&x, &y);
    let reply = bytes(0x81, &[&top, &y, &u1(&x, &top, &ZERO, &y)]);
    accepted(&mut module.clone(), &frame, &reply, 5);
}

#[test]
fn paths_of_65_levels() {
    let module = open_module(ZERO, 0);
    refused(&module, &path_frame(&some(1), &some(1), 65, 0, &siblings(64)), 3, 0);
    refused(&module, &path_frame(&some(1), &some(1), 65, 0, &siblings(65)), 1, 0);
}

#[test]
fn side_bits_at_n_and_above() {
    let module = open_module(ZERO, 0);
    for (n, sides) in [(0, 1), (1, 2), (3, 8), (63, 1 << 63), (2, u64::MAX)] {
        refused(&module, &path_frame(&some(1), &some(2), n, sides, &siblings(n)), 3, 0);
    }
}

#[test]
fn paths_too_short_to_hold_n() {
    let module = open_module(ZERO, 0);
    for length in 1..74 {
        let mut frame = vec![0; length];
        frame[0] = 1;
        refused(&module, &frame, 3, 0);
    }
}

#[test]
fn reply_space_under_195_gets_15() {
    let open = format!("10{}", "01".repeat(32));
    for space in [0, 1, 4, 5, 194] {
        for line in ["", "7", "ff", "0f", open.as_str()] {
            let mut registers = Registers::default();
            let got = answer(&mut registers, line.as_bytes(), space);
            assert_eq!((got.refusal, got.blocks), (Some(15), 0));
            assert!(got.reply_line.is_empty());
            assert_eq!(registers, Registers::default());
        }
    }
    let mut registers = Registers::default();
    assert_eq!(answer(&mut registers, open.as_bytes(), 195).refusal, None);
    assert!(registers.opened);
}

/// Two leaves under one node, 5 with a record and 10 without, and the memoranda a
/// module with `SECRET` would issue on them.
struct Pairing {
    record: Numbers,
    five: Digest,
    ten: Digest,
    root: Digest,
}

fn pairing() -> Pairing {
    let record = [1, 61_400, 20, 3];
    let five = leaf(5, 10, &record_hash(record));
    let ten = leaf(10, 5, &ZERO);
    Pairing { record, five, ten, root: node(&five, &ten) }
}

fn set_frame(item: u64, next: u64, old: Numbers, new: [u64; 3], rest: [&Digest; 3]) -> Vec<u8> {
    let front = numbers(&[&[item, next][..], &old, &new].concat());
    bytes(0x0c, &[&front, rest[0], rest[1], rest[2]])
}

fn clear_frame(item: u64, next: u64, old: Numbers, rest: [&Digest; 3]) -> Vec<u8> {
    let front = numbers(&[&[item, next][..], &old].concat());
    bytes(0x0d, &[&front, rest[0], rest[1], rest[2]])
}

fn ask_frame(q: u64, item: u64, next: u64, record: Numbers, y: &Digest, m: &Digest) -> Vec<u8> {
    let front = numbers(&[&[q, item, next][..], &record].concat());
    bytes(0x0e, &[&front, y, m])
}

fn place_frame(three: [u64; 3], hash: &Digest, rest: [&Digest; 3]) -> Vec<u8> {
    bytes(0x08, &[&numbers(&three), hash, rest[0], rest[1], rest[2]])
}

#[test]
fn witness_costs_5_and_refused_3() {
    let (x, y) = (some(1), some(2));
    let m = u1(&x, &y, &x, &y);
    let module = open_module(ZERO, 0);
    accepted(&mut module.clone(), &bytes(2, &[&x, &y, &m]), &bytes(0x82, &[&v1(&x, &y)]), 5);
    refused(&module, &bytes(2, &[&x, &y, &damaged(&m)]), 8, 3);
    refused(&module, &bytes(2, &[&x, &y, &ZERO]), 8, 3);
    refused(&module, &bytes(2, &[&x, &y, &u1(&x, &y, &x, &some(3))]), 8, 3);
}

#[test]
fn join_costs_9_and_refused_3_or_6() {
    let [x, y, x_new, y_new, z, z_new] = [1, 2, 3, 4, 5, 6].map(some);
    let m1 = u1(&x, &y, &x_new, &y_new);
    let m2 = u1(&y, &z, &y_new, &z_new);
    let frame = |m1: &Digest, m2: &Digest| bytes(3, &[&x, &y, &x_new, &y_new, m1, &z, &z_new, m2]);
    let module = open_module(ZERO, 0);
    let reply = bytes(0x83, &[&u1(&x, &z, &x_new, &z_new)]);
    accepted(&mut module.clone(), &frame(&m1, &m2), &reply, 9);
    refused(&module, &frame(&damaged(&m1), &m2), 8, 3);
    refused(&module, &frame(&damaged(&m1), &damaged(&m2)), 8, 3);
    refused(&module, &frame(&m1, &damaged(&m2)), 9, 6);
    let only_old_halves_meet = u1(&y, &z, &some(7), &z_new);
    refused(&module, &frame(&m1, &only_old_halves_meet), 9, 6);
    let only_new_halves_meet = u1(&some(7), &z, &y_new, &z_new);
    refused(&module, &frame(&m1, &only_new_halves_meet), 9, 6);
}

#[test]
fn pair_costs_14_and_refused_3_or_6() {
    let [x1, y, x1_new, y_new, x2, z, x2_new, z_new] = [1, 2, 3, 4, 5, 6, 7, 8].map(some);
    let m1 = u1(&x1, &y, &x1_new, &y_new);
    let m2 = u1(&x2, &z, &x2_new, &z_new);
    let frame = |m1: &Digest, m2: &Digest| {
        bytes(4, &[&x1, &y, &x1_new, &y_new, m1, &x2, &z, &x2_new, &z_new, m2])
    };
    let module = open_module(ZERO, 0);
    let (above, above_new) = (node(&y, &z), node(&y_new, &z_new));
    let issued = u2([&x1, &x2, &above], [&x1_new, &x2_new, &above_new]);
    accepted(&mut module.clone(), &frame(&m1, &m2), &bytes(0x84, &[&issued]), 14);
    refused(&module, &frame(&damaged(&m1), &m2), 8, 3);
    refused(&module, &frame(&m1, &damaged(&m2)), 9, 6);
}

#[test]
fn raise_costs_11_and_refused_4_or_7() {
    let [x1, x2, y, x1_new, x2_new, y_new, z, z_new] = [1, 2, 3, 4, 5, 6, 7, 8].map(some);
    let m1 = u2([&x1, &x2, &y], [&x1_new, &x2_new, &y_new]);
    let m2 = u1(&y, &z, &y_new, &z_new);
    let frame = |m1: &Digest, m2: &Digest| {
        bytes(5, &[&x1, &x2, &y, &x1_new, &x2_new, &y_new, m1, &z, &z_new, m2])
    };
    let module = open_module(ZERO, 0);
    let issued = u2([&x1, &x2, &z], [&x1_new, &x2_new, &z_new]);
    accepted(&mut module.clone(), &frame(&m1, &m2), &bytes(0x85, &[&issued]), 11);
    refused(&module, &frame(&damaged(&m1), &m2), 8, 4);
    refused(&module, &frame(&m1, &damaged(&m2)), 9, 7);
    refused(&module, &frame(&m1, &u1(&y, &z, &some(9), &z_new)), 9, 7);
}

#[test]
fn swap_costs_6_and_refused_4() {
    let [x1, x2, y, y_new] = [1, 2, 3, 4].map(some);
    let m = u2([&x1, &x2, &y], [&x2, &x1, &y_new]);
    let module = open_module(ZERO, 0);
    let frame = |m: &Digest| bytes(6, &[&x1, &x2, &y, &y_new, m]);
    accepted(&mut module.clone(), &frame(&m), &bytes(0x86, &[&ei(&y, &y_new)]), 6);
    refused(&module, &frame(&damaged(&m)), 8, 4);
    refused(&module, &frame(&u2([&x1, &x2, &y], [&x1, &x2, &y_new])), 8, 4);
}

#[test]
fn first_costs_3_and_refused_0() {
    let module = open_module(ZERO, 0);
    let reply = bytes(0x87, &[&ei(&ZERO, &leaf(7, 7, &ZERO))]);
    accepted(&mut module.clone(), &bytes(7, &[&be(7)]), &reply, 3);
    refused(&module, &bytes(7, &[&be(0)]), 4, 0);
}

#[test]
fn place_costs_9_or_13_and_refused_11() {
    let (y, y_new, hash) = (some(1), some(2), some(3));
    let x1 = leaf(5, 8, &hash);
    let x1_new = leaf(5, 10, &hash);
    let x2 = leaf(8, 10, &ZERO);
    let first_order = u2([&x1, &x2, &y], [&x1_new, &ZERO, &y_new]);
    let second_order = u2([&x2, &x1, &y], [&ZERO, &x1_new, &y_new]);
    let frame = |m: &Digest| place_frame([5, 8, 10], &hash, [&y, &y_new, m]);
    let module = open_module(ZERO, 0);
    let reply = bytes(0x88, &[&ei(&y, &y_new)]);
    accepted(&mut module.clone(), &frame(&first_order), &reply, 9);
    accepted(&mut module.clone(), &frame(&second_order), &reply, 13);
    refused(&module, &frame(&damaged(&first_order)), 8, 11);
    for outside in [5, 10, 20, 3, u64::MAX] {
        let frame = place_frame([5, outside, 10], &hash, [&y, &y_new, &first_order]);
        refused(&module, &frame, 6, 0);
    }
}

#[test]
fn turn_costs_4_and_refused_2() {
    let (x, y) = (some(1), some(2));
    let module = open_module(ZERO, 0);
    let reply = bytes(0x89, &[&ei(&y, &x)]);
    accepted(&mut module.clone(), &bytes(9, &[&x, &y, &ei(&x, &y)]), &reply, 4);
    refused(&module, &bytes(9, &[&x, &y, &ei(&y, &x)]), 8, 2);
}

#[test]
fn chain_costs_6_and_refused_2_or_4() {
    let [x, y, z] = [1, 2, 3].map(some);
    let module = open_module(ZERO, 0);
    let frame = |m1: &Digest, m2: &Digest| bytes(0x0a, &[&x, &y, m1, &z, m2]);
    let (m1, m2) = (ei(&x, &y), ei(&y, &z));
    accepted(&mut module.clone(), &frame(&m1, &m2), &bytes(0x8a, &[&ei(&x, &z)]), 6);
    refused(&module, &frame(&damaged(&m1), &damaged(&m2)), 8, 2);
    refused(&module, &frame(&m1, &damaged(&m2)), 9, 4);
}

#[test]
fn adopt_costs_2_and_keeps_the_new_root() {
    let (y, y_new) = (some(1), some(2));
    let frame = bytes(0x0b, &[&y, &y_new, &ei(&y, &y_new)]);
    let mut module = open_module(y, 9);
    accepted(&mut module, &frame, &bytes(0x8b, &[&y_new]), 2);
    assert_eq!(module, open_module(y_new, 9));
    refused(&module, &frame, 10, 2);
    refused(&module, &bytes(0x0b, &[&y_new, &y, &ei(&y, &y_new)]), 8, 2);
    let same = bytes(0x0b, &[&y_new, &y_new, &ei(&y_new, &y_new)]);
    accepted(&mut module, &same, &bytes(0x8b, &[&y_new]), 2);
    let to_none = bytes(0x0b, &[&y_new, &ZERO, &ei(&y_new, &ZERO)]);
    accepted(&mut module, &to_none, &bytes(0x8b, &[&ZERO]), 2);
}

#[test]
fn set_costs_7_and_of_an_empty_item_6() {
    let p = pairing();
    let recorded = |record: Numbers| leaf(5, 10, &record_hash(record));
    let five_new = recorded([42, 68_900, 20, 3]);
    let top = node(&five_new, &p.ten);
    let m = u1(&p.five, &p.root, &five_new, &top);
    let frame = set_frame(5, 10, p.record, [68_900, 20, 3], [&p.root, &top, &m]);
    let mut module = open_module(p.root, 41);
    let reply = bytes(0x8c, &[&top, &be(42)]);
    accepted(&mut module, &frame, &reply, 7);
    assert_eq!(module, open_module(top, 42));
    refused(&module, &frame, 8, 7);
    refused(&open_module(top, 41), &frame, 10, 7);

    let ten_new = leaf(10, 5, &record_hash([43, 1, 0, 0]));
    let higher = node(&five_new, &ten_new);
    let m = u1(&p.ten, &top, &ten_new, &higher);
    let frame = set_frame(10, 5, NO_RECORD, [1, 0, 0], [&top, &higher, &m]);
    accepted(&mut module, &frame, &bytes(0x8c, &[&higher, &be(43)]), 6);
    assert_eq!(module, open_module(higher, 43));
}

/// A set of 5's record from `old` to this mass, right in all else; the root it leads to.
fn weighing(old: Numbers, mass: u64, counter: u64) -> (Registers, Vec<u8>, Digest) {
    let ten = leaf(10, 5, &ZERO);
    let five = leaf(5, 10, &record_hash(old));
    let five_new = leaf(5, 10, &record_hash([counter + 1, mass, 20, 3]));
    let (root, top) = (node(&five, &ten), node(&five_new, &ten));
    let m = u1(&five, &root, &five_new, &top);
    let frame = set_frame(5, 10, old, [mass, 20, 3], [&root, &top, &m]);
    (open_module(root, counter), frame, top)
}

/// §9.1.10: 61,400 kg typed in grams among them.
#[test]
fn a_set_to_a_silly_mass_gets_16() {
    for mass in [1, 2, 61_400, 1_999_999, 2_000_000] {
        let (mut module, frame, top) = weighing([1, 500, 20, 3], mass, 41);
        accepted(&mut module, &frame, &bytes(0x8c, &[&top, &be(42)]), 7);
        assert_eq!(module, open_module(top, 42));
    }
    for mass in [0, 2_000_001, 61_400_000, 1 << 32, u64::MAX] {
        let (module, frame, _) = weighing([1, 500, 20, 3], mass, 41);
        refused(&module, &frame, 16, 0);
        let (module, frame, _) = weighing(NO_RECORD, mass, 41);
        refused(&module, &frame, 16, 0);
    }
}

/// §9.1.12: of every other mass nothing is asked; nor of a set's offset and rigging.
#[test]
fn no_other_mass_is_looked_at() {
    for mass in [0, 2_000_001, 3_000_000, u64::MAX] {
        let record = [7, mass, 20, 3];
        let (mut module, frame, top) = weighing(record, 500, 41);
        accepted(&mut module, &frame, &bytes(0x8c, &[&top, &be(42)]), 7);

        let ten = leaf(10, 5, &ZERO);
        let (five, cleared) = (leaf(5, 10, &record_hash(record)), leaf(5, 10, &ZERO));
        let (root, below) = (node(&five, &ten), node(&cleared, &ten));
        let m = u1(&five, &root, &cleared, &below);
        let clear = clear_frame(5, 10, record, [&root, &below, &m]);
        accepted(&mut open_module(root, 41), &clear, &bytes(0x8d, &[&below, &be(42)]), 6);
        let ask = ask_frame(5, 5, 10, record, &root, &v1(&five, &root));
        let finding = bytes(0x8e, &[&[1], &be(5), &numbers(&record)]);
        accepted(&mut open_module(root, 41), &ask, &finding, 4);

        let five_new = leaf(5, 10, &record_hash([42, 500, mass, mass]));
        let top = node(&five_new, &ten);
        let m = u1(&five, &root, &five_new, &top);
        let far = set_frame(5, 10, record, [500, mass, mass], [&root, &top, &m]);
        accepted(&mut open_module(root, 41), &far, &bytes(0x8c, &[&top, &be(42)]), 7);
    }
}

#[test]
fn clear_costs_6_and_may_come_again_when_the_root_does() {
    let p = pairing();
    let five_new = leaf(5, 10, &ZERO);
    let top = node(&five_new, &p.ten);
    let m = u1(&p.five, &p.root, &five_new, &top);
    let frame = clear_frame(5, 10, p.record, [&p.root, &top, &m]);
    let mut module = open_module(p.root, 1);
    accepted(&mut module, &frame, &bytes(0x8d, &[&top, &be(2)]), 6);
    assert_eq!(module, open_module(top, 2));
    refused(&module, &frame, 10, 6);
    accepted(&mut open_module(p.root, 7), &frame, &bytes(0x8d, &[&top, &be(8)]), 6);
    refused(&module, &clear_frame(5, 10, NO_RECORD, [&p.root, &top, &m]), 11, 0);
}

#[test]
fn ask_costs_4_and_of_an_empty_leaf_3() {
    let p = pairing();
    let module = open_module(p.root, 1);
    let (on_five, on_ten) = (v1(&p.five, &p.root), v1(&p.ten, &p.root));
    let five = |q: u64| ask_frame(q, 5, 10, p.record, &p.root, &on_five);
    let ten = |q: u64| ask_frame(q, 10, 5, NO_RECORD, &p.root, &on_ten);
    let recorded = bytes(0x8e, &[&[1], &be(5), &numbers(&p.record)]);
    accepted(&mut module.clone(), &five(5), &recorded, 4);
    accepted(&mut module.clone(), &five(7), &bytes(0x8e, &[&[3], &be(5), &be(10)]), 4);
    accepted(&mut module.clone(), &ten(10), &bytes(0x8e, &[&[2], &be(10)]), 3);
    for q in [11, u64::MAX, 1, 4] {
        accepted(&mut module.clone(), &ten(q), &bytes(0x8e, &[&[3], &be(10), &be(5)]), 3);
    }
    for q in [10, 11, 4, 1] {
        refused(&module, &five(q), 6, 0);
    }
    for q in [5, 6, 9] {
        refused(&module, &ten(q), 6, 0);
    }
    refused(&open_module(some(1), 1), &five(5), 10, 4);
    refused(&open_module(some(1), 1), &ten(10), 10, 3);
    let wrong_record = ask_frame(7, 5, 10, [1, 61_401, 20, 3], &p.root, &on_five);
    refused(&module, &wrong_record, 8, 4);
    let empty_five = leaf(5, 10, &ZERO);
    let root = node(&empty_five, &p.ten);
    let weight_on_empty = ask_frame(5, 5, 10, [0, 5000, 0, 0], &root, &v1(&empty_five, &root));
    refused(&open_module(root, 1), &weight_on_empty, 5, 0);
}

#[test]
fn ask_of_none_and_open_cost_nothing() {
    let frame = bytes(0x0f, &[&be(6)]);
    accepted(&mut open_module(ZERO, 0), &frame, &bytes(0x8f, &[&be(6)]), 0);
    refused(&open_module(some(1), 0), &frame, 10, 0);
    let mut module = Registers::default();
    accepted(&mut module, &bytes(0x10, &[&SECRET]), &[0x90], 0);
    assert_eq!(module, open_module(ZERO, 0));
}

#[test]
fn counter_at_its_top_gets_7() {
    let p = pairing();
    let nearly = u64::MAX - 1;
    let five_new = leaf(5, 10, &record_hash([u64::MAX, 1, 2, 3]));
    let top = node(&five_new, &p.ten);
    let m = u1(&p.five, &p.root, &five_new, &top);
    let frame = set_frame(5, 10, p.record, [1, 2, 3], [&p.root, &top, &m]);
    let mut module = open_module(p.root, nearly);
    accepted(&mut module, &frame, &bytes(0x8c, &[&top, &be(u64::MAX)]), 7);

    let at_top = open_module(p.root, u64::MAX);
    refused(&at_top, &frame, 7, 0);
    let cleared = leaf(5, 10, &ZERO);
    let below = node(&cleared, &p.ten);
    let m = u1(&p.five, &p.root, &cleared, &below);
    let frame = clear_frame(5, 10, p.record, [&p.root, &below, &m]);
    refused(&at_top, &frame, 7, 0);
    accepted(&mut open_module(p.root, nearly), &frame, &bytes(0x8d, &[&below, &be(u64::MAX)]), 6);
    let ask = ask_frame(5, 5, 10, p.record, &p.root, &v1(&p.five, &p.root));
    assert_eq!(send(&mut at_top.clone(), &ask).refusal, None);
}

/// Each line here meets two conditions of the table; the earlier one is given.
#[test]
fn the_first_condition_to_apply_is_given() {
    let p = pairing();
    let d = some(1);
    let rest = [&d, &d, &d];
    let bad = [0, 5000, 0, 0];
    let unopened = Registers::default();
    let opened = open_module(p.root, 3);
    let at_top = open_module(p.root, u64::MAX);

    // 1 before 2: an unknown kind with an odd digit.
    let odd = answer(&mut unopened.clone(), b"fff", 195);
    assert_eq!(odd.refusal, Some(1));
    // 2 before 13, 3 before 13, 3 before 14, 3 before 12.
    refused(&unopened, &[0xff], 2, 0);
    refused(&unopened, &[0x07], 3, 0);
    refused(&opened, &[0x10], 3, 0);
    refused(&unopened, &[&[0x10][..], &[0; 31]].concat(), 3, 0);
    // 13 before 4; 14 before 12.
    refused(&unopened, &bytes(7, &[&be(0)]), 13, 0);
    refused(&opened, &bytes(0x10, &[&ZERO]), 14, 0);
    refused(&unopened, &bytes(0x10, &[&ZERO]), 12, 0);
    // 4 before 5, 16, 6, 11, 7, 8, 10.
    refused(&at_top, &set_frame(0, 5, bad, [0; 3], rest), 4, 0);
    refused(&opened, &set_frame(0, 5, p.record, [0; 3], rest), 4, 0);
    refused(&at_top, &clear_frame(5, 0, bad, rest), 4, 0);
    refused(&at_top, &clear_frame(5, 0, NO_RECORD, rest), 4, 0);
    refused(&opened, &ask_frame(0, 5, 10, bad, &d, &d), 4, 0);
    refused(&opened, &ask_frame(7, 0, 5, NO_RECORD, &d, &d), 4, 0);
    refused(&opened, &place_frame([5, 0, 10], &d, rest), 4, 0);
    refused(&opened, &bytes(0x0f, &[&be(0)]), 4, 0);
    // 5 before 16, 6, 11, 7.
    refused(&opened, &ask_frame(20, 5, 10, bad, &d, &d), 5, 0);
    refused(&at_top, &clear_frame(5, 10, bad, rest), 5, 0);
    refused(&at_top, &set_frame(5, 10, bad, [0; 3], rest), 5, 0);
    refused(&opened, &set_frame(5, 10, bad, [2_000_001, 0, 0], rest), 5, 0);
    // 16 before 7, 8 and 10.
    refused(&at_top, &set_frame(5, 10, p.record, [0; 3], rest), 16, 0);
    refused(&at_top, &set_frame(5, 10, p.record, [2_000_001, 0, 0], rest), 16, 0);
    refused(&opened, &set_frame(5, 10, p.record, [0; 3], rest), 16, 0);
    // 6 before 8; 11 before 7; 7 before 8 and 10.
    refused(&opened, &ask_frame(20, 5, 10, p.record, &d, &d), 6, 0);
    refused(&opened, &place_frame([5, 20, 10], &d, rest), 6, 0);
    refused(&at_top, &clear_frame(5, 10, NO_RECORD, rest), 11, 0);
    refused(&at_top, &clear_frame(5, 10, p.record, rest), 7, 0);
    refused(&at_top, &set_frame(5, 10, p.record, [1, 0, 0], rest), 7, 0);
    // 8 before 10.
    refused(&opened, &bytes(0x0b, &[&d, &d, &d]), 8, 2);
    refused(&opened, &set_frame(5, 10, p.record, [1, 0, 0], rest), 8, 7);
    refused(&opened, &ask_frame(5, 5, 10, p.record, &d, &d), 8, 4);
}

#[test]
fn zero_in_every_number_gets_4() {
    let d = some(1);
    let rest = [&d, &d, &d];
    let module = open_module(d, 0);
    for spot in 0..3 {
        let mut three = [5, 8, 10];
        three[spot] = 0;
        refused(&module, &place_frame(three, &d, rest), 4, 0);
        let [q, item, next] = three;
        refused(&module, &ask_frame(q, item, next, NO_RECORD, &d, &d), 4, 0);
    }
    for (item, next) in [(0, 5), (5, 0), (0, 0)] {
        refused(&module, &set_frame(item, next, NO_RECORD, [0; 3], rest), 4, 0);
        refused(&module, &clear_frame(item, next, [1, 0, 0, 0], rest), 4, 0);
    }
}

/// An all-zero memorandum is a memorandum like any other, and wrong.
#[test]
fn an_all_zero_memorandum_is_not_none_given() {
    let d = some(1);
    let module = open_module(d, 0);
    refused(&module, &bytes(0x0b, &[&d, &d, &ZERO]), 8, 2);
    refused(&module, &bytes(0x09, &[&d, &d, &ZERO]), 8, 2);
    refused(&module, &set_frame(5, 5, NO_RECORD, [1, 0, 0], [&d, &d, &ZERO]), 8, 6);
    let [x, y, z] = [1, 2, 3].map(some);
    let m1 = u1(&x, &y, &x, &y);
    refused(&module, &bytes(3, &[&x, &y, &x, &y, &m1, &z, &z, &ZERO]), 9, 6);
}
