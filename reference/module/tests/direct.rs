//! Direct calls of the module, their answers by hand: the protocol's paper, 6.2.

#![forbid(unsafe_code)]

mod common;

use common::{be, hex, leaf, numbers, record_hash, some, u1, Digest, SECRET, ZERO};
use reference::direct::MOST_LINE;
use reference::module::Registers;
use reference::probes::answer;
use reference::sha256::digest;

const TOP: u64 = u64::MAX;

/// Spaces left alone, by their size; these digests were computed by another program.
const LEFT_0: &str = "e3b0c44298fc1c149afbf4c8996fb92427ae41e4649b934ca495991b7852b855";
const LEFT_4: &str = "4eaa79a233e1a350bb8d1eba62966f0cf78fe5ae91744420f366d4f19ae268b7";
const LEFT_5: &str = "3da5a84a43b0913a88c4eee9b95128d324c493e2fa7acecdde77597a3a99a791";
const LEFT_194: &str = "e04594a195ef1fa4747c8f08366d16b041bc4fc5b32e57c3e5bb50b142b543e9";

fn open(root: Digest, counter: u64) -> Registers {
    Registers { root, counter, secret: SECRET, opened: true }
}

fn registers(registers: &Registers) -> String {
    let Registers { root, counter, secret, opened } = registers;
    format!("{}{:016x}{}{:02x}", hex(root), counter, hex(secret), u8::from(*opened))
}

/// Sees what a call comes to: its refusal, its reply's line, its blocks and the
/// registers afterwards, and that the space behind the reply stays.
fn comes_to(
    space: usize,
    [before, after]: [&Registers; 2],
    line: &[u8],
    refusal: u8,
    reply: &str,
    blocks: u64,
) {
    let mut left = vec![0xee; space];
    left[..reply.len()].copy_from_slice(reply.as_bytes());
    let counts = format!("{:02x}{:04x}{:016x}", refusal, reply.len(), blocks);
    let expected = format!("{}{}{}\n", counts, registers(after), hex(&digest(&left)));
    for letter in ["m", "h"] {
        let probe = format!("{}{:04x}{}{}", letter, space, registers(before), hex(line));
        let got = String::from_utf8(answer(probe.as_bytes())).unwrap();
        assert_eq!(got, expected, "probe {}", probe);
    }
}

/// The frame of a set at the root, of item 5 alone in the list, and the new root.
fn set_alone(counter: u64) -> (Vec<u8>, Digest, Digest) {
    let old = leaf(5, 5, &ZERO);
    let new = leaf(5, 5, &record_hash([counter.wrapping_add(1), 700, 8, 9]));
    let m = u1(&old, &old, &new, &new);
    let fields = [numbers(&[5, 5, 0, 0, 0, 0, 700, 8, 9]), old.to_vec(), new.to_vec(), m.to_vec()];
    ([vec![0x0c], fields.concat()].concat(), old, new)
}

#[test]
fn a_set_at_the_last_counter_but_one_and_none_at_the_top() {
    for counter in [0, 1, 1 << 32, TOP - 2, TOP - 1] {
        let (frame, old, new) = set_alone(counter);
        let reply = format!("8c{}{:016x}\n", hex(&new), counter + 1);
        let registers = [&open(old, counter), &open(new, counter + 1)];
        comes_to(195, registers, hex(&frame).as_bytes(), 0, &reply, 6);
    }
    let (frame, old, _) = set_alone(TOP);
    let registers = open(old, TOP);
    for space in [195, 196, 4400] {
        comes_to(space, [&registers; 2], hex(&frame).as_bytes(), 7, "0007\n", 0);
    }
}

#[test]
fn a_clear_at_the_last_counter_but_one_and_none_at_the_top() {
    let old = leaf(5, 5, &record_hash([3, 700, 8, 9]));
    let new = leaf(5, 5, &ZERO);
    let m = u1(&old, &old, &new, &new);
    let fields = [numbers(&[5, 5, 3, 700, 8, 9]), old.to_vec(), new.to_vec(), m.to_vec()];
    let line = hex(&[vec![0x0d], fields.concat()].concat());
    let reply = format!("8d{}{:016x}\n", hex(&new), TOP);
    comes_to(196, [&open(old, TOP - 1), &open(new, TOP)], line.as_bytes(), 0, &reply, 6);
    comes_to(195, [&open(old, TOP); 2], line.as_bytes(), 7, "0007\n", 0);
}

/// 4, 5 and 11 come before 7, and 8 and 10 behind it.
#[test]
fn refusal_7_has_its_place_in_the_order() {
    let (frame, old, _) = set_alone(TOP);
    let registers = open(old, TOP);
    let changed = |at: usize, bytes: &[u8]| {
        let mut other = frame.clone();
        other[at..at + bytes.len()].copy_from_slice(bytes);
        hex(&other).into_bytes()
    };
    comes_to(195, [&registers; 2], &changed(1, &be(0)), 4, "0004\n", 0);
    comes_to(195, [&registers; 2], &changed(25, &be(1)), 5, "0005\n", 0);
    comes_to(195, [&registers; 2], &changed(137, &some(1)), 7, "0007\n", 0);
    comes_to(195, [&open(some(2), TOP); 2], &changed(1, &be(5)), 7, "0007\n", 0);
    let clear = [&[0x0d][..], &numbers(&[5, 5, 0, 0, 0, 0]), &old, &old, &old].concat();
    comes_to(195, [&registers; 2], hex(&clear).as_bytes(), 11, "000b\n", 0);
}

#[test]
fn reply_space_under_195_is_left_alone() {
    let (frame, old, new) = set_alone(7);
    let line = hex(&frame);
    let registers = open(old, 7);
    for space in [0, 1, 4, 5, 6, 194] {
        comes_to(space, [&registers; 2], line.as_bytes(), 15, "", 0);
        comes_to(space, [&registers; 2], b"\n", 15, "", 0);
    }
    for (space, left) in [("0000", LEFT_0), ("0004", LEFT_4), ("0005", LEFT_5), ("00c2", LEFT_194)]
    {
        let got =
            answer(format!("m{}{}{}", space, self::registers(&registers), hex(b"7")).as_bytes());
        let counts = format!("0f0000{:016x}", 0);
        let expected = format!("{}{}{}\n", counts, self::registers(&registers), left);
        assert_eq!(String::from_utf8(got).unwrap(), expected);
    }
    let reply = format!("8c{}{:016x}\n", hex(&new), 8);
    for space in [195, 196, 4400] {
        comes_to(space, [&registers, &open(new, 8)], line.as_bytes(), 0, &reply, 6);
        comes_to(space, [&registers; 2], b"7", 1, "0001\n", 0);
    }
}

/// A line may hold any byte, and be empty; a 0A is a byte like others.
#[test]
fn lines_of_any_bytes() {
    let registers = open(ZERO, 3);
    let ask = b"0f0000000000000005";
    comes_to(195, [&registers; 2], ask, 0, "8f0000000000000005\n", 0);
    let lines: [&[u8]; 5] =
        [b"", b"\n", b"0f0000000000000005\n", b"0f00000000000000\n5", b"\xff\x00"];
    for line in lines {
        comes_to(195, [&registers; 2], line, 1, "0001\n", 0);
    }
    for length in [4243, 4245, 4246, MOST_LINE] {
        comes_to(195, [&registers; 2], &vec![b'0'; length], 1, "0001\n", 0);
    }
    comes_to(195, [&registers; 2], &[b'0'; 4244], 2, "0002\n", 0);
}

/// Secret and open are registers like others: a module may be open with secret zero,
/// and not open with one that isn't.
#[test]
fn opening_by_direct_calls() {
    let line = format!("10{}", hex(&some(4)));
    let shut = Registers { opened: false, ..open(some(1), 9) };
    let opened = Registers { secret: some(4), opened: true, ..shut.clone() };
    comes_to(195, [&shut, &opened], line.as_bytes(), 0, "90\n", 0);
    comes_to(195, [&opened; 2], line.as_bytes(), 14, "000e\n", 0);
    comes_to(195, [&shut; 2], format!("10{}", hex(&ZERO)).as_bytes(), 12, "000c\n", 0);
    comes_to(195, [&shut; 2], b"0f0000000000000005", 13, "000d\n", 0);
    let zero = Registers { secret: ZERO, ..open(ZERO, 9) };
    comes_to(195, [&zero; 2], b"0f0000000000000005", 0, "8f0000000000000005\n", 0);
}

#[test]
fn other_lines_get_a_question_mark() {
    let told = registers(&open(some(1), 9));
    let question = |space: &str, rest: &str| answer(format!("m{}{}", space, rest).as_bytes());
    assert_eq!(question("1130", &told).len(), 233);
    for space in ["", "0", "00c", "00C3", "1131", "ffff", "0c3 "] {
        assert_eq!(question(space, &told), b"?\n", "{}", space);
    }
    for rest in ["", "00", &told[1..], &told[2..], &told.to_uppercase(), &(told.clone() + "0")] {
        assert_eq!(question("00c3", rest), b"?\n", "{}", rest);
    }
    for opened in ["02", "10", "ff", "0g"] {
        assert_eq!(question("00c3", &(told[..144].to_string() + opened)), b"?\n");
    }
    let longest = told.clone() + &"30".repeat(MOST_LINE);
    assert_eq!(question("00c3", &longest).len(), 233);
    assert_eq!(question("00c3", &(longest + "30")), b"?\n");
}
