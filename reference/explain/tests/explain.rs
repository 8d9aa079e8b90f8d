//! `explain`: one plain sentence for each line, whatever the line. The sentences here
//! are written by hand from the tables of the protocol's paper.

#![forbid(unsafe_code)]

#[path = "../../module/tests/common/mod.rs"]
mod common;

use common::{
    be, bytes, hex, leaf, node, numbers, record_hash, run, tells_faults, Digest, SECRET, ZERO,
};
use keeper::keeper::{Keeper, Module};
use keeper::random::Random;
use keeper::sessions::generate;
use reference::module::{answer, Registers};

const EXPLAIN: &str = env!("CARGO_BIN_EXE_explain");

/// A digest told by one byte: `d(0xa1)` is called a1a1a1a1… in a sentence.
fn d(n: u8) -> Digest {
    [n; 32]
}

fn told(frame: &[u8]) -> String {
    explain::request(hex(frame).as_bytes())
}

fn told_reply(frame: &[u8], reply: &[u8]) -> String {
    explain::reply(hex(frame).as_bytes(), hex(reply).as_bytes())
}

/// Rotor 432 at revision 3, as the tablet had it.
const ROTOR: [u64; 4] = [3, 61_400, 1_120, 7];

fn path(x: &Digest, x_new: &Digest, sides: u64, siblings: &[Digest]) -> Vec<u8> {
    bytes(0x01, &[x, x_new, &[siblings.len() as u8], &be(sides), &siblings.concat()])
}

fn witness() -> Vec<u8> {
    bytes(0x02, &[&d(0x11), &d(0x22), &d(0xa1)])
}

fn join() -> Vec<u8> {
    let low: [&[u8]; 5] = [&d(0x11), &d(0x22), &d(0x33), &d(0x44), &d(0xa1)];
    bytes(0x03, &[&low.concat(), &d(0x55), &d(0x66), &d(0xa2)])
}

fn pair() -> Vec<u8> {
    let first: [&[u8]; 5] = [&d(0x11), &d(0x22), &d(0x33), &d(0x44), &d(0xa1)];
    let second: [&[u8]; 5] = [&d(0x55), &d(0x66), &d(0x77), &d(0x88), &d(0xa2)];
    bytes(0x04, &[&first.concat(), &second.concat()])
}

fn raise() -> Vec<u8> {
    let low: [&[u8]; 6] = [&d(0x11), &d(0x22), &d(0x33), &d(0x44), &d(0x55), &d(0x66)];
    bytes(0x05, &[&low.concat(), &d(0xa1), &d(0x77), &d(0x88), &d(0xa2)])
}

fn swap() -> Vec<u8> {
    bytes(0x06, &[&d(0x11), &d(0x22), &d(0x33), &d(0x44), &d(0xa1)])
}

fn first(item: u64) -> Vec<u8> {
    bytes(0x07, &[&be(item)])
}

fn place(items: [u64; 3], hash: &Digest) -> Vec<u8> {
    bytes(0x08, &[&numbers(&items), hash, &d(0x33), &d(0x44), &d(0xa1)])
}

fn turn(x: &Digest) -> Vec<u8> {
    bytes(0x09, &[x, &d(0x22), &d(0xa1)])
}

fn chain() -> Vec<u8> {
    bytes(0x0a, &[&d(0x11), &d(0x22), &d(0xa1), &d(0x33), &d(0xa2)])
}

fn adopt(y: &Digest, y_new: &Digest) -> Vec<u8> {
    bytes(0x0b, &[y, y_new, &d(0xa1)])
}

fn set(item: u64, next: u64, old: [u64; 4], values: [u64; 3]) -> Vec<u8> {
    let all = [&[item, next][..], &old, &values].concat();
    bytes(0x0c, &[&numbers(&all), &d(0x33), &d(0x44), &d(0xa1)])
}

fn clear(item: u64, next: u64, old: [u64; 4]) -> Vec<u8> {
    bytes(0x0d, &[&numbers(&[item, next]), &numbers(&old), &d(0x33), &d(0x44), &d(0xa1)])
}

fn ask(q: u64, item: u64, next: u64, record: [u64; 4]) -> Vec<u8> {
    bytes(0x0e, &[&numbers(&[q, item, next]), &numbers(&record), &d(0x33), &d(0xa1)])
}

fn ask_none(q: u64) -> Vec<u8> {
    bytes(0x0f, &[&be(q)])
}

fn open(secret: &Digest) -> Vec<u8> {
    bytes(0x10, &[secret])
}

/// One lawful frame of each kind, 01 to 10.
fn one_of_each() -> Vec<Vec<u8>> {
    vec![
        path(&d(0x11), &d(0x33), 0b101, &[d(0x55), d(0x66), d(0x77)]),
        witness(),
        join(),
        pair(),
        raise(),
        swap(),
        first(432),
        place([432, 562, 796], &d(0x11)),
        turn(&d(0x11)),
        chain(),
        adopt(&d(0x33), &d(0x44)),
        set(432, 562, ROTOR, [68_900, 1_120, 7]),
        clear(432, 562, ROTOR),
        ask(432, 432, 562, ROTOR),
        ask_none(5),
        open(&SECRET),
    ]
}

/// What every sentence must be, bad lines' too: one sentence on one line.
fn check_is_one_sentence(sentence: &str) {
    assert!(sentence.ends_with('.'), "{}", sentence);
    assert!(!sentence.contains(". "), "{}", sentence);
    assert!(!sentence.chars().any(char::is_control), "{}", sentence);
    assert!(sentence.chars().next().unwrap().is_uppercase(), "{}", sentence);
}

#[test]
fn every_kind_is_told_in_one_sentence() {
    let expected = [
        "Path: work out what stands above 11111111… becoming 33333333…, past 3 siblings, 2 on the \
         left and 1 on the right.",
        "Witness: certify that 22222222… stands above 11111111…, as memorandum a1a1a1a1… should \
         show.",
        "Join: make two steps up one, 11111111… becoming 33333333… under 22222222… becoming \
         44444444… under 55555555… becoming 66666666…, as memorandum a1a1a1a1… and memorandum \
         a2a2a2a2… should show.",
        "Pair: put two changes side by side, 11111111… becoming 33333333… under 22222222… becoming \
         44444444… on the left and 55555555… becoming 77777777… under 66666666… becoming \
         88888888… on the right, as memorandum a1a1a1a1… and memorandum a2a2a2a2… should show.",
        "Raise: carry two changes further up, 11111111… becoming 44444444… and 22222222… becoming \
         55555555… under 33333333… becoming 66666666… under 77777777… becoming 88888888…, as \
         memorandum a1a1a1a1… and memorandum a2a2a2a2… should show.",
        "Swap: exchange the places of 11111111… and 22222222…, root 33333333… becoming root \
         44444444…, as memorandum a1a1a1a1… should show.",
        "First: allow item 432 to be the first in the empty list.",
        "Place: allow item 562 without a record to be taken out between item 432 (record hash \
         11111111…) and item 796, root 33333333… becoming root 44444444…, as memorandum \
         a1a1a1a1… should show.",
        "Turn: reverse the exchange of root 11111111… for root 22222222… that memorandum \
         a1a1a1a1… should allow.",
        "Chain: make one exchange of root 11111111… for root 33333333… out of two by way of root \
         22222222… that memorandum a1a1a1a1… and memorandum a2a2a2a2… should allow.",
        "Adopt: change the list from root 33333333… to root 44444444…, as memorandum a1a1a1a1… \
         should allow.",
        "Set: give item 432 (next item 562) 68,900 kg, offset 1,120 mm, rigging code 7 in place of \
         revision 3, 61,400 kg, offset 1,120 mm, rigging code 7, root 33333333… becoming root \
         44444444…, as memorandum a1a1a1a1… should show.",
        "Clear: take revision 3, 61,400 kg, offset 1,120 mm, rigging code 7 away from item 432 \
         (next item 562), root 33333333… becoming root 44444444…, as memorandum a1a1a1a1… should \
         show.",
        "Ask: find whether item 432 (next item 562) has revision 3, 61,400 kg, offset 1,120 mm, \
         rigging code 7, in the list of root 33333333…, as memorandum a1a1a1a1… should show.",
        "Ask of none: find whether item 5 is not listed because nothing is.",
        "Open: open the module with the secret this line carries, which is not shown.",
    ];
    for (frame, sentence) in one_of_each().iter().zip(expected) {
        assert_eq!(told(frame), sentence);
        check_is_one_sentence(sentence);
    }
}

#[test]
fn zero_digests_and_missing_records_have_words() {
    let cases = [
        (
            path(&ZERO, &ZERO, 0, &[]),
            "Path: work out what stands above an empty place, past no siblings.",
        ),
        (
            path(&ZERO, &d(0x11), 1, &[d(0x22)]),
            "Path: work out what stands above an empty place becoming 11111111…, past 1 sibling, 1 \
             on the left and 0 on the right.",
        ),
        (
            bytes(0x02, &[&ZERO, &d(0x22), &ZERO]),
            "Witness: certify that 22222222… stands above an empty place, as the all-zero \
             memorandum should show.",
        ),
        (
            place([796, 900, 241], &ZERO),
            "Place: allow item 900 without a record to be taken out between item 796 (no record) \
             and item 241, root 33333333… becoming root 44444444…, as memorandum a1a1a1a1… should \
             show.",
        ),
        (
            turn(&ZERO),
            "Turn: reverse the exchange of the empty list for root 22222222… that memorandum \
             a1a1a1a1… should allow.",
        ),
        (
            adopt(&d(0x33), &ZERO),
            "Adopt: change the list from root 33333333… to the empty list, as memorandum \
             a1a1a1a1… should allow.",
        ),
        (
            set(432, 432, [0; 4], [1, 0, 0]),
            "Set: give item 432 (next item 432) 1 kg, offset 0 mm, rigging code 0 in place of no \
             record, root 33333333… becoming root 44444444…, as memorandum a1a1a1a1… should show.",
        ),
        (
            ask(432, 432, 562, [0; 4]),
            "Ask: find whether item 432 (next item 562) has no record, in the list of root \
             33333333…, as memorandum a1a1a1a1… should show.",
        ),
        (
            bytes(0x0e, &[&numbers(&[5, 5, 5, 0, 0, 0, 0]), &ZERO, &d(0xa1)]),
            "Ask: find whether item 5 (next item 5) has no record, in the empty list, as \
             memorandum a1a1a1a1… should show.",
        ),
    ];
    for (frame, sentence) in cases {
        assert_eq!(told(&frame), sentence);
    }
}

/// The paper's gaps: 500 in (432, 562), 900 in (796, 241), 5 in (241, 241).
#[test]
fn asks_in_a_gap_name_the_neighbours() {
    let end = ", in the list of root 33333333…, as memorandum a1a1a1a1… should show.";
    let cases = [
        (
            ask(500, 432, 562, ROTOR),
            "item 500 is not listed because item 562 comes next after item 432 (revision 3, 61,400 \
             kg, offset 1,120 mm, rigging code 7)",
        ),
        (
            ask(900, 796, 241, [0; 4]),
            "item 900 is not listed because item 796 (no record) is the highest and item 241 the \
             lowest",
        ),
        (
            ask(5, 241, 241, [0; 4]),
            "item 5 is not listed because item 241 (no record) is the only one",
        ),
    ];
    for (frame, words) in cases {
        assert_eq!(told(&frame), format!("Ask: find whether {}{}", words, end));
    }
}

#[test]
fn masses_have_commas_and_units() {
    let cases = [
        (0, "0 kg,"),
        (999, "999 kg,"),
        (1_000, "1,000 kg,"),
        (61_400, "61,400 kg,"),
        (1_061_400, "1,061,400 kg,"),
        (u64::MAX, "18,446,744,073,709,551,615 kg,"),
    ];
    for (mass, words) in cases {
        let frame = set(432, 562, ROTOR, [mass, 1, 1]);
        let start = format!("Set: give item 432 (next item 562) {} offset 1 mm,", words);
        assert!(told(&frame).starts_with(&start), "{}", told(&frame));
    }
}

#[test]
fn every_answer_is_told_as_the_answer_to_its_request() {
    let siblings = [d(0x55), d(0x66), d(0x77)];
    // Siblings 0 and 2 stand on the left.
    let above = |x: &Digest| node(&d(0x77), &node(&node(&d(0x55), x), &d(0x66)));
    let (y, y_new) = (above(&d(0x11)), above(&d(0x33)));
    let (short, short_new) = (&hex(&y)[..8], &hex(&y_new)[..8]);
    let moving = format!("that {}… becoming {}… stands above it", short, short_new);
    let still = format!("that {}… stands above it", short);
    let issued = |what: &str| {
        let start = "Answer: the module issues memorandum b1b1b1b1…";
        format!("{} {}, and the list stays as it is.", start, what)
    };
    let paths = [
        (path(&d(0x11), &d(0x33), 0b101, &siblings), [y, y_new], issued(&moving)),
        (path(&d(0x11), &d(0x11), 0b101, &siblings), [y, y], issued(&still)),
        (path(&ZERO, &ZERO, 0, &[]), [ZERO, ZERO], issued("that an empty place stands above it")),
    ];
    for (frame, shown, sentence) in paths {
        assert_eq!(told_reply(&frame, &bytes(0x81, &[&shown.concat(), &d(0xb1)])), sentence);
    }
    let memoranda = [
        "that the one stands above the other",
        "for the two steps up as one",
        "for the two changes side by side",
        "for the two changes further up",
        "for exchanging the two places",
        "for item 432 as the first",
        "for taking item 562 out",
        "for the exchange turned round",
        "for the two exchanges as one",
    ];
    for (frame, what) in one_of_each()[1..10].iter().zip(memoranda) {
        assert_eq!(told_reply(frame, &bytes(0x80 + frame[0], &[&d(0xb1)])), issued(what));
    }
    let others: [(Vec<u8>, Vec<u8>, &str); 11] = [
        (
            adopt(&d(0x33), &d(0x44)),
            bytes(0x8b, &[&d(0x44)]),
            "Answer: done, the list now has root 44444444…, and no record has changed.",
        ),
        (
            adopt(&d(0x33), &ZERO),
            bytes(0x8b, &[&ZERO]),
            "Answer: done, the list is now empty, and no record has changed.",
        ),
        (
            set(432, 562, ROTOR, [68_900, 1_120, 7]),
            bytes(0x8c, &[&d(0x44), &be(4)]),
            "Answer: done, the list now has root 44444444…, the change counter is 4, and item 432 \
             has revision 4, 68,900 kg, offset 1,120 mm, rigging code 7.",
        ),
        (
            clear(432, 562, ROTOR),
            bytes(0x8d, &[&d(0x44), &be(5)]),
            "Answer: done, the list now has root 44444444…, the change counter is 5, and item 432 \
             has no record.",
        ),
        (
            ask(432, 432, 562, ROTOR),
            bytes(0x8e, &[&[1], &be(432), &numbers(&ROTOR)]),
            "Answer: the module vouches that item 432 has revision 3, 61,400 kg, offset 1,120 mm, \
             rigging code 7.",
        ),
        (
            ask(432, 432, 562, [0; 4]),
            bytes(0x8e, &[&[2], &be(432)]),
            "Answer: item 432 is listed and has no record, so there is no mass to lift by.",
        ),
        (
            ask(500, 432, 562, ROTOR),
            bytes(0x8e, &[&[3], &be(432), &be(562)]),
            "Answer: item 500 is not listed because item 562 comes next after item 432.",
        ),
        (
            ask(100, 796, 241, ROTOR),
            bytes(0x8e, &[&[3], &be(796), &be(241)]),
            "Answer: item 100 is not listed because item 796 is the highest and item 241 the \
             lowest.",
        ),
        (
            ask(5, 241, 241, ROTOR),
            bytes(0x8e, &[&[3], &be(241), &be(241)]),
            "Answer: item 5 is not listed because item 241 is the only one.",
        ),
        (ask_none(5), bytes(0x8f, &[&be(5)]), "Answer: item 5 is not listed because nothing is."),
        (open(&SECRET), vec![0x90], "Answer: the module is open."),
    ];
    for (frame, reply, sentence) in others {
        assert_eq!(told_reply(&frame, &reply), sentence);
        check_is_one_sentence(sentence);
    }
}

#[test]
fn every_refusal_says_what_was_wrong_and_what_to_do() {
    let rotor = ask(432, 432, 562, ROTOR);
    let cases: Vec<(Vec<u8>, u8, &str)> = vec![
        (
            vec![],
            1,
            "Refused (1): that is no line of hexadecimal; send an even number of digits 0-9 and \
             a-f, at most 4,244.",
        ),
        (
            vec![0xff],
            2,
            "Refused (2): there is no such kind of request; use one of the kinds 01 to 10.",
        ),
        (
            vec![0x0f],
            3,
            "Refused (3): the request is cut short, too long or at odds with itself; send it \
             again, whole.",
        ),
        (first(0), 4, "Refused (4): item number 0 does not exist; use item numbers above 0."),
        (
            set(432, 562, [0, 5_000, 0, 0], [1, 1, 1]),
            5,
            "Refused (5): a record without a revision may hold nothing else; fetch the present \
             record and ask again.",
        ),
        (
            ask(432, 432, 562, [0, 5_000, 0, 0]),
            5,
            "Refused (5): a record without a revision may hold nothing else – do not lift by it; \
             fetch the present record and ask again.",
        ),
        (
            set(432, 562, ROTOR, [61_400_000, 1_120, 7]),
            16,
            "Refused (16): 61,400,000 kg is above 2,000,000 kg, which no load is; give the mass in \
             kilograms, and not in grams.",
        ),
        (
            set(432, 562, ROTOR, [0, 1_120, 7]),
            16,
            "Refused (16): 0 kg is no load's mass; give the mass in kilograms, or clear the record.",
        ),
        (
            place([5, 20, 10], &ZERO),
            6,
            "Refused (6): item 20 does not lie between item 5 and item 10; send its true \
             neighbours in the list, or the item itself when asking.",
        ),
        (
            ask(900, 432, 562, ROTOR),
            6,
            "Refused (6): item 432 with item 562 next says nothing about item 900; send its true \
             neighbours in the list, or the item itself when asking.",
        ),
        (
            set(432, 562, ROTOR, [1, 1, 1]),
            7,
            "Refused (7): the change counter is used up; no record can be changed any more, so \
             replace the module.",
        ),
        (
            rotor.clone(),
            8,
            "Refused (8): the memorandum does not fit what the tablet sent about item 432 (61,400 \
             kg) – do not lift by it; have the memorandum made again from the present records.",
        ),
        (
            place([432, 562, 796], &ZERO),
            8,
            "Refused (8): the memorandum does not fit what the tablet sent about item 562; have \
             the memorandum made again from the present records.",
        ),
        (
            witness(),
            8,
            "Refused (8): the memorandum does not fit what the tablet sent; have the memorandum \
             made again from the present records.",
        ),
        (
            chain(),
            8,
            "Refused (8): the first memorandum does not fit what the tablet sent; have the \
             memorandum made again from the present records.",
        ),
        (
            chain(),
            9,
            "Refused (9): the second memorandum does not fit what the tablet sent; have the \
             memorandum made again from the present records.",
        ),
        (
            rotor.clone(),
            10,
            "Refused (10): the copy the tablet used for item 432 (61,400 kg) is stale – do not \
             lift by it; fetch the present records and ask again.",
        ),
        (
            ask(500, 432, 562, ROTOR),
            10,
            "Refused (10): the copy the tablet used for item 500 is stale – do not lift by it; \
             fetch the present records and ask again.",
        ),
        (
            adopt(&d(0x33), &d(0x44)),
            10,
            "Refused (10): the copy the tablet used is stale – do not lift by it; fetch the \
             present records and ask again.",
        ),
        (
            clear(432, 562, [0; 4]),
            11,
            "Refused (11): the item has no record, so there is nothing to clear; leave it as it \
             is.",
        ),
        (
            open(&ZERO),
            12,
            "Refused (12): the secret is all zero; open the module with a secret that is not.",
        ),
        (rotor, 13, "Refused (13): the module is not open; open it with its secret first."),
        (
            open(&SECRET),
            14,
            "Refused (14): the module is open already, and it opens only once; go on without \
             opening it.",
        ),
    ];
    for (frame, number, sentence) in cases {
        assert_eq!(told_reply(&frame, &[0, number]), sentence);
        check_is_one_sentence(sentence);
    }
    assert_eq!(
        told_reply(&ask_none(5), &[0, 15]),
        "Bad reply: refusal 15 (too little room for a reply: lend 195 bytes or more) is never \
         written as a line."
    );
}

/// Which refusals each kind can get, read off the paper's two tables, for a request
/// whose own numbers are in order.
#[test]
fn refusals_that_cannot_be_are_bad_replies() {
    let possible: [&[u8]; 16] = [
        &[13],
        &[8, 13],
        &[8, 9, 13],
        &[8, 9, 13],
        &[8, 9, 13],
        &[8, 13],
        &[13],
        &[8, 13],
        &[8, 13],
        &[8, 9, 13],
        &[8, 10, 13],
        &[7, 8, 10, 13],
        &[7, 8, 10, 13],
        &[8, 10, 13],
        &[10, 13],
        &[14],
    ];
    for (frame, possible) in one_of_each().iter().zip(possible) {
        for number in 0..=255 {
            let sentence = told_reply(frame, &[0, number]);
            let start = match number {
                _ if possible.contains(&number) => format!("Refused ({}): ", number),
                15 => "Bad reply: refusal 15 (".to_string(),
                1..=14 | 16 => {
                    format!("Bad reply: refusal {} does not belong to that request.", number)
                }
                _ => format!("Bad reply: there is no refusal {}.", number),
            };
            assert!(sentence.starts_with(&start), "{:02x}: {}", frame[0], sentence);
        }
    }
    // Where a check of the numbers fails, no later one is come to; 13 or 14 is earlier.
    let stopped: [(Vec<u8>, &[u8]); 10] = [
        (first(0), &[4, 13]),
        (ask(0, 432, 562, [0, 1, 0, 0]), &[4, 13]),
        (ask(900, 432, 562, [0, 1, 0, 0]), &[5, 13]),
        (set(432, 562, [0, 1, 0, 0], [0, 1, 1]), &[5, 13]),
        (set(432, 562, ROTOR, [0, 1, 1]), &[16, 13]),
        (set(432, 562, ROTOR, [2_000_001, 1, 1]), &[16, 13]),
        (ask(900, 432, 562, ROTOR), &[6, 13]),
        (place([5, 20, 10], &ZERO), &[6, 13]),
        (clear(432, 562, [0; 4]), &[11, 13]),
        (open(&ZERO), &[12, 14]),
    ];
    for (frame, possible) in stopped {
        for number in 1..=16 {
            let fits = told_reply(&frame, &[0, number]).starts_with("Refused (");
            assert_eq!(fits, possible.contains(&number), "{:02x} {}", frame[0], number);
        }
    }
    // A bad line gets its own refusal and nothing else.
    let bad: [(Vec<u8>, u8); 3] = [(vec![], 1), (vec![0xff], 2), (vec![0x0f], 3)];
    for (frame, own) in bad {
        for number in 1..=16 {
            let fits = told_reply(&frame, &[0, number]).starts_with("Refused (");
            assert_eq!(fits, number == own, "{:?} {}", frame, number);
        }
    }
}

#[test]
fn requests_that_no_module_accepts_are_told_so() {
    let cases = [
        (
            first(0),
            "First: allow item 0 to be the first in the empty list – no module accepts this \
             (refusal 4: item number 0 does not exist).",
        ),
        (
            ask_none(0),
            "Ask of none: find whether item 0 is not listed because nothing is – no module accepts \
             this (refusal 4: item number 0 does not exist).",
        ),
        (
            ask(432, 432, 562, [0, 5_000, 0, 0]),
            "Ask: find whether item 432 (next item 562) has a malformed record (revision 0, 5,000 \
             kg, offset 0 mm, rigging code 0), in the list of root 33333333…, as memorandum \
             a1a1a1a1… should show – no module accepts this (refusal 5: a record without a \
             revision may hold nothing else).",
        ),
        (
            set(432, 562, ROTOR, [61_400_000, 1_120, 7]),
            "Set: give item 432 (next item 562) 61,400,000 kg, offset 1,120 mm, rigging code 7 in \
             place of revision 3, 61,400 kg, offset 1,120 mm, rigging code 7, root 33333333… \
             becoming root 44444444…, as memorandum a1a1a1a1… should show – no module accepts this \
             (refusal 16: 61,400,000 kg is above 2,000,000 kg, which no load is).",
        ),
        (
            ask(900, 432, 562, [0; 4]),
            "Ask: find whether item 900 is not listed because item 562 comes next after item 432 \
             (no record), in the list of root 33333333…, as memorandum a1a1a1a1… should show – no \
             module accepts this (refusal 6: item 432 with item 562 next says nothing about item \
             900).",
        ),
        (
            place([5, 20, 10], &ZERO),
            "Place: allow item 20 without a record to be taken out between item 5 (no record) and \
             item 10, root 33333333… becoming root 44444444…, as memorandum a1a1a1a1… should show \
             – no module accepts this (refusal 6: item 20 does not lie between item 5 and item \
             10).",
        ),
        (
            clear(432, 562, [0; 4]),
            "Clear: take no record away from item 432 (next item 562), root 33333333… becoming \
             root 44444444…, as memorandum a1a1a1a1… should show – no module accepts this (refusal \
             11: the item has no record, so there is nothing to clear).",
        ),
        (
            open(&ZERO),
            "Open: open the module with the secret this line carries, which is not shown – no \
             module accepts this (refusal 12: the secret is all zero).",
        ),
    ];
    for (frame, sentence) in cases {
        assert_eq!(told(&frame), sentence);
        check_is_one_sentence(sentence);
    }
}

#[test]
fn bad_lines_are_told_to_be_bad_and_why() {
    let line = hex(&ask_none(5));
    let with = |at: usize, byte: u8| {
        let mut line = line.clone().into_bytes();
        line[at - 1] = byte;
        line
    };
    let at = |position: usize, what: &str| {
        let allowed = "and only 0-9 and a-f are allowed";
        format!("Bad line (refusal 1): position {} holds {}, {}.", position, what, allowed)
    };
    let cases: Vec<(Vec<u8>, String)> = vec![
        (b"".to_vec(), "Bad line (refusal 1): it is empty.".to_string()),
        (
            b"7".to_vec(),
            "Bad line (refusal 1): it has 1 digit, and they have to come in twos.".to_string(),
        ),
        (
            vec![b'0'; 4243],
            "Bad line (refusal 1): it has 4,243 digits, and they have to come in twos.".to_string(),
        ),
        (
            vec![b'0'; 4245],
            "Bad line (refusal 1): it is longer than 4,244 digits, the most a line may have."
                .to_string(),
        ),
        (with(2, b'F'), at(2, "an upper-case digit")),
        (with(1, b'A'), at(1, "an upper-case digit")),
        (with(18, b'G'), at(18, "a byte that is no digit")),
        (with(5, b'g'), at(5, "a byte that is no digit")),
        (with(5, b' '), at(5, "a space")),
        (with(5, b'\t'), at(5, "a tab")),
        (with(5, 0), at(5, "a byte that is no digit")),
        (with(5, 0xff), at(5, "a byte that is no digit")),
        ([line.as_bytes(), b"\r"].concat(), at(19, "a carriage return")),
        (b"\r".to_vec(), at(1, "a carriage return")),
        (b"0x0f".to_vec(), at(2, "a byte that is no digit")),
    ];
    for (line, sentence) in cases {
        assert_eq!(explain::request(&line), sentence);
        check_is_one_sentence(&sentence);
        // A reply line is bad for the same reasons.
        let bad_reply = explain::reply(b"0f0000000000000005", &line);
        assert_eq!(bad_reply, sentence.replace("Bad line (refusal 1)", "Bad reply"));
    }
    for kind in [0x00, 0x11, 0x7f, 0x81, 0xff] {
        let sentence =
            format!("Bad line (refusal 2): there is no kind {:02x}, only 01 to 10.", kind);
        assert_eq!(told(&[kind]), sentence);
        assert_eq!(told(&[kind; 33]), sentence);
    }
}

#[test]
fn wrong_lengths_are_told_with_the_right_one() {
    let right = [
        "02 (witness) has 194",
        "03 (join) has 514",
        "04 (pair) has 642",
        "05 (raise) has 642",
        "06 (swap) has 322",
        "07 (first) has 18",
        "08 (place) has 306",
        "09 (turn) has 194",
        "0a (chain) has 322",
        "0b (adopt) has 194",
        "0c (set) has 338",
        "0d (clear) has 290",
        "0e (ask) has 242",
        "0f (ask of none) has 18",
        "10 (open) has 66",
    ];
    for (frame, right) in one_of_each()[1..].iter().zip(right) {
        let start = format!("Bad line (refusal 3): a line of kind {} digits", right);
        assert_eq!(told(&frame[..1]), format!("{}, and this one has 2.", start));
        let shorter = format!("{}, and this one has {}.", start, 2 * frame.len() - 2);
        assert_eq!(told(&frame[..frame.len() - 1]), shorter);
        let longer = format!("{}, and this one has {}.", start, 2 * frame.len() + 2);
        assert_eq!(told(&[&frame[..], &[0]].concat()), longer);
    }
    let longest = [vec![0x07], vec![0; 2121]].concat();
    assert_eq!(
        told(&longest),
        "Bad line (refusal 3): a line of kind 07 (first) has 18 digits, and this one has 4,244."
    );
}

#[test]
fn bad_paths_are_told_by_what_is_wrong_with_them() {
    let head = |n: u8, sides: u64| bytes(0x01, &[&d(0x11), &d(0x22), &[n], &be(sides)]);
    let with =
        |n: u8, sides: u64, siblings: usize| [head(n, sides), vec![7; 32 * siblings]].concat();
    let cases = [
        (vec![0x01], "even a path without siblings has 148 digits, and this one has 2"),
        (
            head(0, 0)[..73].to_vec(),
            "even a path without siblings has 148 digits, and this one has 146",
        ),
        (with(0, 0, 1), "a path with 0 siblings has 148 digits, and this one has 212"),
        (with(1, 1, 0), "a path with 1 sibling has 212 digits, and this one has 148"),
        (with(64, 0, 63), "a path with 64 siblings has 4,244 digits, and this one has 4,180"),
        (with(65, 0, 64), "it is a path with 65 siblings, and 64 are the most"),
        (with(255, u64::MAX, 3), "it is a path with 255 siblings, and 64 are the most"),
        (with(3, 8, 3), "it is a path with 3 siblings, and yet bit 3 of its sides is 1"),
        (with(3, 1 << 63, 3), "it is a path with 3 siblings, and yet bit 63 of its sides is 1"),
        (with(0, u64::MAX, 0), "it is a path with 0 siblings, and yet bit 0 of its sides is 1"),
    ];
    for (frame, why) in cases {
        assert_eq!(told(&frame), format!("Bad line (refusal 3): {}.", why));
    }
    let full = told(&with(64, u64::MAX, 64));
    assert!(full.ends_with("past 64 siblings, 64 on the left and 0 on the right."), "{}", full);
}

#[test]
fn replies_of_other_requests_are_told_to_be_bad() {
    let rotor = ask(432, 432, 562, ROTOR);
    let finding = |number: u8, list: &[u64]| bytes(0x8e, &[&[number], &numbers(list)]);
    let stranger = "its finding does not belong to that request – do not lift by it";
    let other_root = "it names another root than the request leads to";
    let cases: Vec<(Vec<u8>, Vec<u8>, &str)> = vec![
        (rotor.clone(), vec![0x0e], "no reply begins with 0e"),
        (rotor.clone(), vec![0x80], "no reply begins with 80"),
        (rotor.clone(), vec![0x91], "no reply begins with 91"),
        (rotor.clone(), vec![0x00], "a refusal has 4 digits, and this one has 2"),
        (rotor.clone(), vec![0, 10, 0], "a refusal has 4 digits, and this one has 6"),
        (
            rotor.clone(),
            bytes(0x8c, &[&d(0x44), &be(4)]),
            "it answers kind 0c (set), and the request was of kind 0e (ask)",
        ),
        (
            ask_none(5),
            vec![0x90],
            "it answers kind 10 (open), and the request was of kind 0f (ask of none)",
        ),
        (rotor.clone(), vec![0x8e], "it holds no finding"),
        (rotor.clone(), finding(0, &[432]), "there is no finding 0, only 1, 2 and 3"),
        (rotor.clone(), finding(4, &[432]), "there is no finding 4, only 1, 2 and 3"),
        (
            rotor.clone(),
            finding(1, &[432]),
            "an answer to kind 0e (ask) has 84 digits, and this one has 20",
        ),
        // The old mass for the new one, another item, another finding.
        (rotor.clone(), finding(1, &[432, 3, 68_900, 1_120, 7]), stranger),
        (rotor.clone(), finding(1, &[433, 3, 61_400, 1_120, 7]), stranger),
        (rotor.clone(), finding(2, &[432]), stranger),
        (rotor, finding(3, &[432, 562]), stranger),
        (ask(432, 432, 562, [0; 4]), finding(1, &[432, 0, 0, 0, 0]), stranger),
        (ask(500, 432, 562, ROTOR), finding(3, &[432, 563]), stranger),
        (ask(500, 432, 562, ROTOR), finding(1, &[432, 3, 61_400, 1_120, 7]), stranger),
        (ask_none(5), bytes(0x8f, &[&be(6)]), "it names another item than the request"),
        (adopt(&d(0x33), &d(0x44)), bytes(0x8b, &[&d(0x33)]), other_root),
        (set(432, 562, ROTOR, [1, 1, 1]), bytes(0x8c, &[&d(0x33), &be(4)]), other_root),
        (clear(432, 562, ROTOR), bytes(0x8d, &[&d(0x33), &be(4)]), other_root),
        (
            set(432, 562, ROTOR, [1, 1, 1]),
            bytes(0x8c, &[&d(0x44), &be(0)]),
            "it names change counter 0, and a raised one is above 0",
        ),
        (
            path(&d(0x11), &d(0x11), 0, &[]),
            bytes(0x81, &[&d(0x11), &d(0x22), &d(0xb1)]),
            "it names other digests than that path leads to",
        ),
        (
            ask_none(0),
            bytes(0x8f, &[&be(0)]),
            "it accepts that request, which no module does (refusal 4)",
        ),
        (open(&ZERO), vec![0x90], "it accepts that request, which no module does (refusal 12)"),
        (vec![0xff], vec![0x90], "it accepts that line, which no module does (refusal 2)"),
        (vec![], vec![0x90], "it accepts that line, which no module does (refusal 1)"),
    ];
    for (frame, reply, why) in cases {
        let sentence = format!("Bad reply: {}.", why);
        assert_eq!(told_reply(&frame, &reply), sentence);
        check_is_one_sentence(&sentence);
    }
}

#[test]
fn answers_of_the_wrong_length_are_told_to_be_bad() {
    let digits = [194, 66, 66, 66, 66, 66, 66, 66, 66, 66, 66, 82, 82, 84, 18, 2];
    for (frame, digits) in one_of_each().iter().zip(digits) {
        for wrong in [digits - 2, digits + 2] {
            let mut reply = vec![1; wrong / 2];
            match reply.first_mut() {
                Some(kind) => *kind = 0x80 + frame[0],
                None => continue,
            }
            let sentence = told_reply(frame, &reply);
            let end = format!(" has {} digits, and this one has {}.", digits, wrong);
            assert!(sentence.starts_with("Bad reply: an answer to kind "), "{}", sentence);
            assert!(sentence.ends_with(&end), "{}", sentence);
        }
    }
}

/// The lines of the paper's whole run, and its replies.
fn whole_run() -> Vec<(String, &'static str)> {
    let s = "01".repeat(32);
    let z = "00".repeat(32);
    vec![
        ("7".to_string(), "0001"),
        ("ff".to_string(), "0002"),
        ("0f".to_string(), "0003"),
        ("0f0000000000000005".to_string(), "000d"),
        (format!("10{}", z), "000c"),
        (format!("10{}", s), "90"),
        (format!("10{}", z), "000e"),
        ("0f0000000000000005".to_string(), "8f0000000000000005"),
        ("070000000000000000".to_string(), "0004"),
    ]
}

#[test]
fn the_papers_whole_run_is_told_line_by_line() {
    let asked = [
        "Bad line (refusal 1): it has 1 digit, and they have to come in twos.",
        "Bad line (refusal 2): there is no kind ff, only 01 to 10.",
        "Bad line (refusal 3): a line of kind 0f (ask of none) has 18 digits, and this one has 2.",
        "Ask of none: find whether item 5 is not listed because nothing is.",
        "Open: open the module with the secret this line carries, which is not shown – no module \
         accepts this (refusal 12: the secret is all zero).",
        "Open: open the module with the secret this line carries, which is not shown.",
        "Open: open the module with the secret this line carries, which is not shown – no module \
         accepts this (refusal 12: the secret is all zero).",
        "Ask of none: find whether item 5 is not listed because nothing is.",
        "First: allow item 0 to be the first in the empty list – no module accepts this (refusal \
         4: item number 0 does not exist).",
    ];
    let answered = [
        "Refused (1): that is no line of hexadecimal; send an even number of digits 0-9 and a-f, \
         at most 4,244.",
        "Refused (2): there is no such kind of request; use one of the kinds 01 to 10.",
        "Refused (3): the request is cut short, too long or at odds with itself; send it again, \
         whole.",
        "Refused (13): the module is not open; open it with its secret first.",
        "Refused (12): the secret is all zero; open the module with a secret that is not.",
        "Answer: the module is open.",
        "Refused (14): the module is open already, and it opens only once; go on without opening \
         it.",
        "Answer: item 5 is not listed because nothing is.",
        "Refused (4): item number 0 does not exist; use item numbers above 0.",
    ];
    let run = whole_run();
    let lines: String = run.iter().map(|(line, _)| format!("{}\n", line)).collect();
    assert_eq!(explained(&[], lines.as_bytes()), asked);
    let pairs: String = run.iter().map(|(line, reply)| format!("{}\n{}\n", line, reply)).collect();
    let by_turns: Vec<&str> = asked.iter().zip(answered).flat_map(|(a, b)| [*a, b]).collect();
    assert_eq!(explained(&["--replies"], pairs.as_bytes()), by_turns);
}

/// A module that keeps every line with its reply.
struct Recorded {
    registers: Registers,
    pairs: Vec<(Vec<u8>, Vec<u8>)>,
}

impl Module for Recorded {
    fn reply(&mut self, line: &[u8]) -> Vec<u8> {
        let reply_line = answer(&mut self.registers, line, 195).reply_line;
        let reply = reply_line.strip_suffix(b"\n").unwrap().to_vec();
        self.pairs.push((line.to_vec(), reply));
        reply_line
    }
}

impl Recorded {
    /// The sentences for the last line and its reply, and the line.
    fn last(&self) -> (String, String, Vec<u8>) {
        let (line, reply) = self.pairs.last().unwrap();
        (explain::request(line), explain::reply(line, reply), line.clone())
    }
}

/// The first 8 digits of a line's last field, its memorandum.
fn memorandum(line: &[u8]) -> String {
    String::from_utf8(line[line.len() - 64..][..8].to_vec()).unwrap()
}

/// The accident: a rotor corrected from 61,400 to 68,900 kg, and a tablet
/// that still has the old copy.
#[test]
fn the_accident_is_told_as_it_is_prevented() {
    let registers = Registers { secret: SECRET, opened: true, ..Registers::default() };
    let mut module = Recorded { registers, pairs: Vec::new() };
    let mut keeper = Keeper::new();
    for item in [432, 562] {
        let spot = keeper.tree.spot_at_holder(item, false);
        keeper.insert(&mut module, item, spot).unwrap();
    }
    // The tree of the two is worked out by hand: 432 on the left or on the right of 562.
    let root_with = |rotor: [u64; 4]| {
        let (a, b) = (leaf(432, 562, &record_hash(rotor)), leaf(562, 432, &ZERO));
        [hex(&node(&a, &b))[..8].to_string(), hex(&node(&b, &a))[..8].to_string()]
    };
    let side = usize::from(root_with([0; 4])[0] != hex(&keeper.tree.root())[..8]);
    let root_with = |rotor: [u64; 4]| root_with(rotor)[side].clone();
    let (none, light, heavy) = ([0; 4], [1, 61_400, 120, 7], [2, 68_900, 120, 7]);

    keeper.set(&mut module, 432, [61_400, 120, 7]).unwrap();
    let (asked, told, line) = module.last();
    assert_eq!(
        asked,
        format!(
            "Set: give item 432 (next item 562) 61,400 kg, offset 120 mm, rigging code 7 in place \
             of no record, root {}… becoming root {}…, as memorandum {}… should show.",
            root_with(none),
            root_with(light),
            memorandum(&line)
        )
    );
    assert_eq!(
        told,
        format!(
            "Answer: done, the list now has root {}…, the change counter is 1, and item 432 has \
             revision 1, 61,400 kg, offset 120 mm, rigging code 7.",
            root_with(light)
        )
    );

    keeper.ask(&mut module, 432).unwrap();
    let (asked, told, old_ask) = module.last();
    let question = format!(
        "Ask: find whether item 432 (next item 562) has revision 1, 61,400 kg, offset 120 mm, \
         rigging code 7, in the list of root {}…, as memorandum {}… should show.",
        root_with(light),
        memorandum(&old_ask)
    );
    assert_eq!(asked, question);
    assert_eq!(
        told,
        "Answer: the module vouches that item 432 has revision 1, 61,400 kg, offset 120 mm, \
         rigging code 7."
    );

    keeper.set(&mut module, 432, [68_900, 120, 7]).unwrap();
    let (_, told, _) = module.last();
    assert_eq!(
        told,
        format!(
            "Answer: done, the list now has root {}…, the change counter is 2, and item 432 has \
             revision 2, 68,900 kg, offset 120 mm, rigging code 7.",
            root_with(heavy)
        )
    );

    module.reply(&old_ask);
    let (asked, told, _) = module.last();
    assert_eq!(asked, question);
    assert_eq!(
        told,
        "Refused (10): the copy the tablet used for item 432 (61,400 kg) is stale – do not lift by \
         it; fetch the present records and ask again."
    );

    keeper.ask(&mut module, 432).unwrap();
    assert_eq!(
        module.last().1,
        "Answer: the module vouches that item 432 has revision 2, 68,900 kg, offset 120 mm, \
         rigging code 7."
    );
}

/// A line of a session with its reply and the refusal in it, 0 if accepted.
struct Line {
    line: Vec<u8>,
    reply: Vec<u8>,
    refusal: u8,
}

fn session(seed: u64, lines: usize) -> Vec<Line> {
    let mut all = Vec::new();
    generate(seed, lines, &mut |step| {
        all.push(Line {
            line: step.line.to_vec(),
            reply: step.answer.reply_line.strip_suffix(b"\n").unwrap().to_vec(),
            refusal: step.answer.refusal.unwrap_or(0),
        });
    });
    all
}

/// A number of 16 digits at a byte's place in a line.
fn number_at(line: &[u8], byte: usize) -> u64 {
    let digits = std::str::from_utf8(&line[2 * byte..2 * byte + 16]).unwrap();
    u64::from_str_radix(digits, 16).unwrap()
}

/// Kilograms put together from the right, three digits at a time.
fn kilograms(mass: u64) -> String {
    let digits = mass.to_string().into_bytes();
    let mut threes: Vec<String> =
        digits.rchunks(3).map(|three| String::from_utf8(three.to_vec()).unwrap()).collect();
    threes.reverse();
    format!(" {} kg,", threes.join(","))
}

#[test]
fn real_sessions_are_told_truly() {
    let mut told = std::collections::BTreeMap::new();
    for seed in 1..=4 {
        for Line { line, reply, refusal } in session(seed, 2_500) {
            let asked = explain::request(&line);
            let answered = explain::reply(&line, &reply);
            check_is_one_sentence(&asked);
            check_is_one_sentence(&answered);

            let bad = format!("Bad line (refusal {}): ", refusal);
            assert_eq!(asked.starts_with("Bad line"), (1..=3).contains(&refusal), "{}", asked);
            assert!(!(1..=3).contains(&refusal) || asked.starts_with(&bad), "{}", asked);

            let start = match refusal {
                0 => "Answer: ".to_string(),
                _ => format!("Refused ({}): ", refusal),
            };
            assert!(answered.starts_with(&start), "{} / {}", asked, answered);

            // "No module accepts this" is said exactly where it has to be.
            let hopeless = asked.contains(" – no module accepts this (refusal ");
            let shown = format!("(refusal {}: ", refusal);
            assert!(!hopeless || matches!(refusal, 13 | 14) || asked.contains(&shown), "{}", asked);
            assert!(hopeless || !matches!(refusal, 4 | 5 | 6 | 11 | 12 | 16), "{}", asked);

            // The masses stand in both sentences. A set's new mass is its 50th byte on,
            // that in a finding the 19th on.
            if line.starts_with(b"0c") && refusal == 0 {
                let mass = kilograms(number_at(&line, 49));
                assert!(asked.contains(&mass) && answered.contains(&mass), "{}", asked);
            }
            if reply.starts_with(b"8e01") {
                let mass = kilograms(number_at(&reply, 18));
                assert!(asked.contains(&mass) && answered.contains(&mass), "{}", asked);
            }
            if line.starts_with(b"0e") && refusal == 10 {
                assert!(answered.contains(" – do not lift by it; "), "{}", answered);
            }
            let words = asked.split(':').next().unwrap().to_string();
            *told.entry((words, refusal)).or_insert(0) += 1;
        }
    }
    let kinds = "Path, Witness, Join, Pair, Raise, Swap, First, Place, Turn, Chain, Adopt, Set, \
                 Clear, Ask, Ask of none, Open";
    for kind in kinds.split(", ") {
        assert!(told.contains_key(&(kind.to_string(), 0)), "no {} was accepted", kind);
    }
    for refusal in (1..=16).filter(|number| ![7, 15].contains(number)) {
        assert!(told.keys().any(|(_, number)| *number == refusal), "no refusal {}", refusal);
    }
}

/// A true reply behind another kind of request, or with one digit changed where the
/// request says what it must be, is a bad one.
#[test]
fn replies_that_are_swapped_or_damaged_are_told_to_be_bad() {
    let all = session(5, 2_500);
    let accepted: Vec<&Line> = all.iter().filter(|line| line.refusal == 0).collect();
    let (mut swapped, mut damaged) = (0, 0);
    for two in accepted.windows(2) {
        if two[0].line[..2] != two[1].line[..2] {
            let sentence = explain::reply(&two[0].line, &two[1].reply);
            assert!(sentence.starts_with("Bad reply: it answers kind "), "{}", sentence);
            swapped += 1;
        }
    }
    let mut random = Random::new(5);
    for Line { line, reply, .. } in accepted {
        // Digits that the request settles: y and y' of a path, the new root, a finding.
        let settled = match &line[..2] {
            b"01" => 2..130,
            b"0b" | b"0c" | b"0d" => 2..66,
            b"0e" | b"0f" => 2..reply.len(),
            _ => continue,
        };
        let at = settled.start + random.below(settled.len());
        let mut other = reply.clone();
        other[at] = if other[at] == b'0' { b'1' } else { b'0' };
        let sentence = explain::reply(line, &other);
        assert!(sentence.starts_with("Bad reply: "), "{}", sentence);
        damaged += 1;
    }
    assert!(swapped > 300 && damaged > 300, "{} {}", swapped, damaged);
}

#[test]
fn no_sentence_shows_a_secret() {
    let mut random = Random::new(11);
    for _ in 0..200 {
        let secret = hex(&random.digest());
        let line = format!("10{}", secret);
        let lines =
            [line.clone(), line[..65].to_string(), line.clone() + "00", line.to_uppercase()];
        for line in &lines {
            for reply in ["90", "000c", "000e", "000d", "91", "", &secret, line] {
                let sentences = [
                    explain::request(line.as_bytes()),
                    explain::reply(line.as_bytes(), reply.as_bytes()),
                ];
                for sentence in sentences {
                    let shown = (0..60).any(|at| sentence.contains(&secret[at..at + 4]));
                    assert!(!shown, "{}", sentence);
                }
            }
        }
        let sentence =
            "Open: open the module with the secret this line carries, which is not shown.";
        assert_eq!(explain::request(line.as_bytes()), sentence);
    }
}

/// Bytes of every sort: random ones, random digits, and real lines with a byte changed,
/// cut short or run on. Each line gets one sentence, as a request and as a reply.
#[test]
fn any_bytes_get_one_sentence() {
    let mut random = Random::new(23);
    let real = session(6, 600);
    let mut input = Vec::new();
    let mut lines = Vec::new();
    for round in 0..6_000 {
        let picked = &real[random.below(real.len())];
        let mut line = match round % 6 {
            0 => {
                let count = random.below(300);
                random.bytes(count)
            }
            1 => {
                let count = random.below(200);
                let kind = 0x80 * random.below(2) as u8 + random.below(18) as u8;
                hex(&[vec![kind], random.bytes(count)].concat()).into_bytes()
            }
            2 => picked.line[..random.below(picked.line.len() + 1)].to_vec(),
            3 => picked.reply.clone(),
            4 => [&picked.reply[..], &picked.line].concat(),
            _ => picked.line.clone(),
        };
        if round % 6 > 2 && !line.is_empty() {
            let at = random.below(line.len());
            line[at] = random.number() as u8;
        }
        line.retain(|byte| *byte != b'\n');
        input.extend_from_slice(&line);
        input.push(b'\n');
        lines.push(line);
    }
    for pair in lines.windows(2) {
        check_is_one_sentence(&explain::request(&pair[0]));
        check_is_one_sentence(&explain::reply(&pair[0], &pair[1]));
    }
    for replies in [false, true] {
        let mut output = Vec::new();
        explain::run(&input[..], &mut output, replies).unwrap();
        let text = String::from_utf8(output).unwrap();
        assert_eq!(text.lines().count(), lines.len());
        text.lines().for_each(check_is_one_sentence);
    }
}

/// The lines the program writes.
fn explained(arguments: &[&str], input: &[u8]) -> Vec<String> {
    let output = run(EXPLAIN, arguments, input);
    assert_eq!(output.status.code(), Some(0));
    assert_eq!(output.stderr, b"");
    let text = String::from_utf8(output.stdout).unwrap();
    assert!(text.is_empty() || text.ends_with('\n'));
    text.lines().map(str::to_string).collect()
}

#[test]
fn the_program_cuts_lines_as_the_paper_has_it() {
    let empty = "Bad line (refusal 1): it is empty.";
    let ff = "Bad line (refusal 2): there is no kind ff, only 01 to 10.";
    let long = "Bad line (refusal 1): it is longer than 4,244 digits, the most a line may have.";
    let cr = "Bad line (refusal 1): position 3 holds a carriage return, and only 0-9 and a-f are \
              allowed.";
    assert!(explained(&[], b"").is_empty());
    assert!(explained(&["--replies"], b"").is_empty());
    assert_eq!(explained(&[], b"\n"), [empty]);
    assert_eq!(explained(&[], b"ff"), [ff]);
    assert_eq!(explained(&[], b"ff\n\nff"), [ff, empty, ff]);
    assert_eq!(explained(&[], b"ff\r\nff\n"), [cr, ff]);
    for length in [4_245, 4_246, 8_192, 8_193, 1_000_000] {
        let input = [&vec![b'f'; length][..], b"\nff\n"].concat();
        assert_eq!(explained(&[], &input), [long, ff]);
    }
    assert_eq!(explained(&[], &[b'f'; 4_244]), [ff]);
}

#[test]
fn requests_and_replies_come_by_turns() {
    let asked = "Ask of none: find whether item 5 is not listed because nothing is.";
    let stale = "Refused (10): the copy the tablet used for item 5 is stale – do not lift by it; \
                 fetch the present records and ask again.";
    let line = "0f0000000000000005\n";
    let input = format!("{}000a\n{}000a\r\n{}\n{}", line, line, line, line);
    let cr = "Bad reply: position 5 holds a carriage return, and only 0-9 and a-f are allowed.";
    let expected = [asked, stale, asked, cr, asked, "Bad reply: it is empty.", asked];
    assert_eq!(explained(&["--replies"], input.as_bytes()), expected);
    // A last reply without 0A counts too.
    let input = format!("{}000a", line);
    assert_eq!(explained(&["--replies"], input.as_bytes()), [asked, stale]);
}

#[test]
fn other_arguments_are_refused_in_one_sentence() {
    for arguments in [&["--reply"][..], &["--replies", "--replies"], &["file"], &[""], &["-h"]] {
        let output = run(EXPLAIN, arguments, b"ff\n");
        assert_eq!(output.status.code(), Some(2));
        assert_eq!(output.stdout, b"");
        assert_eq!(
            String::from_utf8(output.stderr).unwrap(),
            "explain: the only argument is --replies, and lines come by standard input.\n"
        );
    }
}

#[test]
fn inputs_and_outputs_that_fail_are_told() {
    tells_faults(EXPLAIN);
}
