//! The lines of every sort of wish, put together by hand from the paper's tables.

#![forbid(unsafe_code)]

mod common;
#[path = "../../module/tests/common/mod.rs"]
mod paper;

use common::Cab;
use paper::{bytes, ei, hex, leaf, node, numbers, record_hash, u1, u2, v1, Digest, ZERO};

fn be(number: u64) -> [u8; 8] {
    number.to_be_bytes()
}

/// A path with its siblings, their sides being a number.
fn path(x: &Digest, x_new: &Digest, sides: u64, siblings: &[Digest]) -> Vec<u8> {
    let count = [siblings.len() as u8];
    bytes(0x01, &[x, x_new, &count, &be(sides), &siblings.concat()])
}

/// Sees that a wish is told so, by these frames and no others.
fn sees(cab: &mut Cab, wish: &str, told: &str, frames: &[Vec<u8>]) {
    assert_eq!(cab.wish(wish), told);
    let said: Vec<String> = cab.said.iter().map(|(line, _)| common::text(line)).collect();
    let expected: Vec<String> = frames.iter().map(|frame| hex(frame)).collect();
    assert_eq!(said, expected, "{}", wish);
    cab.agrees();
}

/// Two places: each place's change, siblings and sides, and the ways above.
struct Two<'a> {
    left: [&'a Digest; 2],
    left_siblings: &'a [Digest],
    left_sides: u64,
    left_top: [&'a Digest; 2],
    right: [&'a Digest; 2],
    right_siblings: &'a [Digest],
    right_sides: u64,
    right_top: [&'a Digest; 2],
    meeting: [&'a Digest; 2],
    siblings: &'a [Digest],
    sides: u64,
    root: [&'a Digest; 2],
}

impl Two<'_> {
    /// The five lines, and the memorandum that the last one brings.
    fn lines(&self) -> (Vec<Vec<u8>>, Digest) {
        let ([a, a_new], [b, b_new]) = (self.left, self.right);
        let ([y, y_new], [z, z_new]) = (self.left_top, self.right_top);
        let ([w, w_new], [r, r_new]) = (self.meeting, self.root);
        let (m1, m2) = (u1(a, y, a_new, y_new), u1(b, z, b_new, z_new));
        let (m3, m4) = (u2([a, b, w], [a_new, b_new, w_new]), u1(w, r, w_new, r_new));
        let frames = vec![
            path(a, a_new, self.left_sides, self.left_siblings),
            path(b, b_new, self.right_sides, self.right_siblings),
            bytes(0x04, &[a, y, a_new, y_new, &m1, b, z, b_new, z_new, &m2]),
            path(w, w_new, self.sides, self.siblings),
            bytes(0x05, &[a, b, w, a_new, b_new, w_new, &m3, r, r_new, &m4]),
        ];
        (frames, u2([a, b, r], [a_new, b_new, r_new]))
    }
}

#[test]
fn a_question_where_nothing_is_listed() {
    let frames = [bytes(0x0f, &[&be(7)])];
    sees(&mut Cab::new(), "ask 7", "# none 7", &frames);
}

#[test]
fn the_only_item_comes_and_goes() {
    let mut cab = Cab::new();
    let only = leaf(5, 5, &ZERO);
    let frames = [bytes(0x07, &[&be(5)]), bytes(0x0b, &[&ZERO, &only, &ei(&ZERO, &only)])];
    sees(&mut cab, "insert 5", "# done", &frames);
    let frames = [
        bytes(0x07, &[&be(5)]),
        bytes(0x09, &[&ZERO, &only, &ei(&ZERO, &only)]),
        bytes(0x0b, &[&only, &ZERO, &ei(&only, &ZERO)]),
    ];
    sees(&mut cab, "remove 5", "# done", &frames);
}

/// Slots 0 and 1 meet one level up: the ways below have no level.
#[test]
fn a_second_item_comes_and_goes() {
    let mut cab = Cab::after(&["insert 5"]);
    let (only, five, nine) = (leaf(5, 5, &ZERO), leaf(5, 9, &ZERO), leaf(9, 5, &ZERO));
    let both = node(&five, &nine);
    let into = Two {
        left: [&five, &only],
        left_siblings: &[],
        left_sides: 0,
        left_top: [&five, &only],
        right: [&nine, &ZERO],
        right_siblings: &[],
        right_sides: 0,
        right_top: [&nine, &ZERO],
        meeting: [&both, &only],
        siblings: &[ZERO; 9],
        sides: 0,
        root: [&both, &only],
    };
    let (mut frames, m) = into.lines();
    let place = numbers(&[5, 9, 5]);
    frames.push(bytes(0x08, &[&place, &ZERO, &both, &only, &m]));
    let out = frames.clone();
    frames.push(bytes(0x09, &[&both, &only, &ei(&both, &only)]));
    frames.push(bytes(0x0b, &[&only, &both, &ei(&only, &both)]));
    sees(&mut cab, "insert 9", "# done", &frames);
    let mut frames = out;
    frames.push(bytes(0x0b, &[&both, &only, &ei(&both, &only)]));
    sees(&mut cab, "remove 9", "# done", &frames);
}

/// Items 5, 9 and 7 in slots 0, 1 and 2, with a record for 5. Item 9, in slot 1, changes places
/// with 7 and goes from slot 2; before it in the ring stands 7, then in slot 1.
#[test]
fn a_third_item_comes_and_the_second_goes() {
    let mut cab = Cab::after(&["insert 5", "insert 9", "set 5 61400 1250 3"]);
    let record = [1, 61_400, 1_250, 3];
    let hash = record_hash(record);
    let (old, five) = (leaf(5, 9, &hash), leaf(5, 7, &hash));
    let (seven, nine) = (leaf(7, 9, &ZERO), leaf(9, 5, &ZERO));
    let (left, left_old) = (node(&five, &nine), node(&old, &nine));
    let with = node(&left, &seven);
    let into = Two {
        left: [&five, &old],
        left_siblings: &[nine],
        left_sides: 0,
        left_top: [&left, &left_old],
        right: [&seven, &ZERO],
        right_siblings: &[ZERO],
        right_sides: 0,
        right_top: [&seven, &ZERO],
        meeting: [&with, &left_old],
        siblings: &[ZERO; 8],
        sides: 0,
        root: [&with, &left_old],
    };
    let (mut frames, m) = into.lines();
    frames.push(bytes(0x08, &[&numbers(&[5, 7, 9]), &hash, &with, &left_old, &m]));
    frames.push(bytes(0x09, &[&with, &left_old, &ei(&with, &left_old)]));
    frames.push(bytes(0x0b, &[&left_old, &with, &ei(&left_old, &with)]));
    sees(&mut cab, "insert 7", "# done", &frames);

    let swapped_left = node(&five, &seven);
    let swapped = node(&swapped_left, &nine);
    let swap = Two {
        left: [&nine, &seven],
        left_siblings: &[five],
        left_sides: 1,
        left_top: [&left, &swapped_left],
        right: [&seven, &nine],
        right_siblings: &[ZERO],
        right_sides: 0,
        right_top: [&seven, &nine],
        meeting: [&with, &swapped],
        siblings: &[ZERO; 8],
        sides: 0,
        root: [&with, &swapped],
    };
    let (mut frames, m) = swap.lines();
    frames.push(bytes(0x06, &[&nine, &seven, &with, &swapped, &m]));
    frames.push(bytes(0x0b, &[&with, &swapped, &ei(&with, &swapped)]));
    let seven_new = leaf(7, 5, &ZERO);
    let without = node(&five, &seven_new);
    let out = Two {
        left: [&seven, &seven_new],
        left_siblings: &[five],
        left_sides: 1,
        left_top: [&swapped_left, &without],
        right: [&nine, &ZERO],
        right_siblings: &[ZERO],
        right_sides: 0,
        right_top: [&nine, &ZERO],
        meeting: [&swapped, &without],
        siblings: &[ZERO; 8],
        sides: 0,
        root: [&swapped, &without],
    };
    let (more, m) = out.lines();
    frames.extend(more);
    frames.push(bytes(0x08, &[&numbers(&[7, 9, 5]), &ZERO, &swapped, &without, &m]));
    frames.push(bytes(0x0b, &[&swapped, &without, &ei(&swapped, &without)]));
    sees(&mut cab, "remove 9", "# done", &frames);
    let items: Vec<u64> = cab.keeper.leaves().iter().map(|leaf| leaf.item).collect();
    assert_eq!(items, [5, 7]);
}

/// Ten levels, all but the lowest over nothing else.
#[test]
fn a_record_is_set_asked_for_and_cleared() {
    let mut cab = Cab::after(&["insert 5", "insert 9"]);
    let siblings: Vec<Digest> = [vec![leaf(5, 9, &ZERO)], vec![ZERO; 9]].concat();
    let five = siblings[0];
    let (empty, full) = (leaf(9, 5, &ZERO), leaf(9, 5, &record_hash([1, 2_000_000, 0, 8])));
    let (root, new) = (node(&five, &empty), node(&five, &full));
    let record = numbers(&[1, 2_000_000, 0, 8]);
    let frames = [
        path(&empty, &full, 1, &siblings),
        bytes(
            0x0c,
            &[
                &numbers(&[9, 5]),
                &numbers(&[0; 4]),
                &record[8..],
                &root,
                &new,
                &u1(&empty, &root, &full, &new),
            ],
        ),
    ];
    sees(&mut cab, "set 9 2000000 0 8", "# done", &frames);
    let ask = |q: u64| {
        vec![
            path(&full, &full, 1, &siblings),
            bytes(0x02, &[&full, &new, &u1(&full, &new, &full, &new)]),
            bytes(0x0e, &[&numbers(&[q, 9, 5]), &record, &new, &v1(&full, &new)]),
        ]
    };
    sees(&mut cab, "ask 9", "# record 9 1 2000000 0 8", &ask(9));
    sees(&mut cab, "ask 1", "# gap 9 5", &ask(1));
    sees(&mut cab, "ask 18446744073709551615", "# gap 9 5", &ask(u64::MAX));
    let frames = [
        path(&full, &empty, 1, &siblings),
        bytes(0x0d, &[&numbers(&[9, 5]), &record, &new, &root, &u1(&full, &new, &empty, &root)]),
    ];
    sees(&mut cab, "clear 9", "# done", &frames);
    assert_eq!(cab.keeper.counter(), 2);
    assert_eq!(cab.wish("ask 9"), "# empty 9");
    assert_eq!(cab.wish("ask 7"), "# gap 5 9");
}

/// The kinds of lines that each sort of wish takes, where the ways have levels and where not.
#[test]
fn kinds_of_lines() {
    let mut cab = Cab::new();
    let two = [1, 1, 4, 1, 5];
    let mut kinds = |wish: &str, expected: &[&[u8]]| {
        assert_eq!(cab.wish(wish), "# done");
        assert_eq!(cab.kinds(), expected.concat(), "{}", wish);
    };
    kinds("insert 10", &[&[7, 11]]);
    for item in (20..=10_240).step_by(10) {
        kinds(&format!("insert {}", item), &[&two, &[8, 9, 11]]);
    }
    kinds("set 10 1 0 0", &[&[1, 12]]);
    kinds("clear 10", &[&[1, 13]]);
    kinds("remove 10240", &[&two, &[8, 11]]);
    kinds("remove 10220", &[&two, &[6, 11], &two, &[8, 11]]);
    kinds("remove 10", &[&two, &[6, 11], &two, &[8, 11]]);
    for _ in 0..1020 {
        assert_eq!(cab.wish(&format!("remove {}", cab.keeper.leaves()[0].item)), "# done");
    }
    let last = format!("remove {}", cab.keeper.leaves()[0].item);
    assert_eq!(cab.wish(&last), "# done");
    assert_eq!(cab.kinds(), [7, 9, 11]);
    assert_eq!(cab.wish("ask 10"), "# none 10");
}
