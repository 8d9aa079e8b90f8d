//! Probes of the line reader, the line writer and the digest, made from a seed. What a
//! probe asks and how it is answered stands in `reference::probes`.

use crate::hostile::{
    below_bit, digits, digits_of_length, path, random_frame, with_byte, with_kind,
};
use crate::random::Random;
use reference::frames::{KINDS, LONGEST_FRAME, MOST_SIBLINGS};
use reference::probes::{KEPT, MOST_FRAME, MOST_MESSAGE, MOST_SPACE};

/// Makes probes from a seed, that many of them, and shows each to the last.
pub type Generate = fn(u64, usize, &mut dyn FnMut(&[u8]));

/// Makes that many probes and shows each, without 0A, to `sink`. The first of them
/// are the same however many follow.
pub fn generate(seed: u64, probes: usize, sink: &mut dyn FnMut(&[u8])) {
    let mut random = Random::new(seed);
    for _ in 0..probes {
        sink(&probe(&mut random));
    }
}

fn probe(random: &mut Random) -> Vec<u8> {
    match random.below(20) {
        0..=3 => read_probe(&digits(&good_frame(random)), random),
        4..=6 => read_probe(&damaged_line(random), random),
        7..=9 => read_probe(&digits(&damaged_frame(random)), random),
        10..=13 => write_probe(&good_frame(random), random),
        14..=16 => write_probe(&damaged_frame(random), random),
        17 | 18 => digits(&message(random)),
        _ => stray(random),
    }
}

fn read_probe(line: &[u8], random: &mut Random) -> Vec<u8> {
    with_space(b'r', space(line.len() / 2, random), line)
}

fn write_probe(frame: &[u8], random: &mut Random) -> Vec<u8> {
    with_space(b'w', space(2 * frame.len() + 1, random), &digits(frame))
}

pub(crate) fn with_space(letter: u8, space: usize, rest: &[u8]) -> Vec<u8> {
    [&[letter][..], format!("{:04x}", space).as_bytes(), rest].concat()
}

/// A space for what needs `need` bytes: just enough, one short, none, larger.
fn space(need: usize, random: &mut Random) -> usize {
    let space = match random.below(9) {
        0..=2 => need,
        3 => need.saturating_sub(1),
        4 => 0,
        5 => random.below(need + 1),
        6 => need + 1 + random.below(16),
        7 => random.below(MOST_SPACE + 1),
        _ => MOST_SPACE,
    };
    space.min(MOST_SPACE)
}

fn kind(random: &mut Random) -> u8 {
    1 + random.below(usize::from(*KINDS.end())) as u8
}

/// A frame of any kind, path oftener than the others, for it has 65 lengths.
fn good_frame(random: &mut Random) -> Vec<u8> {
    let kind = kind(random);
    if kind == 0x01 || random.percent(25) {
        let levels = if random.percent(10) { MOST_SIBLINGS } else { random.below(65) };
        return good_path(levels, random);
    }
    random_frame(kind, random)
}

fn good_path(levels: usize, random: &mut Random) -> Vec<u8> {
    path(levels, levels, random.number() & below_bit(levels), random)
}

/// Lines that are mostly no digits of a frame.
pub(crate) fn damaged_line(random: &mut Random) -> Vec<u8> {
    let good = digits(&good_frame(random));
    match random.below(11) {
        0 => Vec::new(),
        1 => upper_case(good, random),
        2 => changed(good, random),
        3 => with_one_of(b"/:`g@G \t\x7f\x80\xb0\xff", good, random),
        4 => odd(good, random),
        5 => with_end(b'\r', good, random),
        6 => with_end(0, good, random),
        7 => with_byte(good, random, 0),
        8 => about_longest_line(random),
        9 => digits_of_any_length(9000, random),
        _ => any_bytes(300, random),
    }
}

/// All letters in upper case, or one upper-case digit somewhere.
fn upper_case(line: Vec<u8>, random: &mut Random) -> Vec<u8> {
    if random.percent(30) {
        return line.to_ascii_uppercase();
    }
    with_one_of(b"ABCDEF", line, random)
}

fn with_one_of(list: &[u8], line: Vec<u8>, random: &mut Random) -> Vec<u8> {
    let byte = list[random.below(list.len())];
    with_byte(line, random, byte)
}

/// One byte made any other byte but 0A.
fn changed(mut line: Vec<u8>, random: &mut Random) -> Vec<u8> {
    let at = random.below(line.len());
    let old = line[at];
    while line[at] == old || line[at] == b'\n' {
        line[at] = random.number() as u8;
    }
    line
}

/// One digit more or less, or cut anywhere to an odd length.
fn odd(mut line: Vec<u8>, random: &mut Random) -> Vec<u8> {
    match random.below(3) {
        0 => line.push(b'0'),
        1 => line.truncate(line.len() - 1),
        _ => line.truncate(2 * random.below(line.len() / 2) + 1),
    }
    line
}

/// A byte behind the line, or in the place of its last one.
fn with_end(byte: u8, mut line: Vec<u8>, random: &mut Random) -> Vec<u8> {
    if random.percent(50) {
        line.pop();
    }
    line.push(byte);
    line
}

/// 4,242 to 4,248 digits, of a path of 64 levels or of anything.
fn about_longest_line(random: &mut Random) -> Vec<u8> {
    let length = 4242 + random.below(7);
    if random.percent(40) {
        return digits_of_length(length, random);
    }
    let mut line = digits(&good_path(MOST_SIBLINGS, random));
    line.resize(length, b'0');
    line
}

/// At most `most` digits, half of the lines beginning with a known kind.
fn digits_of_any_length(most: usize, random: &mut Random) -> Vec<u8> {
    let length = if random.percent(5) { most } else { random.below(most) };
    let mut line = digits_of_length(length, random);
    if length > 1 && random.percent(50) {
        line[..2].copy_from_slice(&digits(&[kind(random)]));
    }
    line
}

/// Fewer than `limit` bytes, none of them 0A.
fn any_bytes(limit: usize, random: &mut Random) -> Vec<u8> {
    let length = random.below(limit);
    random.bytes(length).into_iter().filter(|byte| *byte != b'\n').collect()
}

/// Frames that are mostly refused. None is longer than a probe may carry.
pub(crate) fn damaged_frame(random: &mut Random) -> Vec<u8> {
    let good = good_frame(random);
    match random.below(14) {
        0 => Vec::new(),
        1 => vec![random.number() as u8],
        2 => good[..good.len() - 1].to_vec(),
        3 => [&good[..], &[random.number() as u8]].concat(),
        4 => with_kind(good, kind(random)),
        5 => with_kind(good, unknown_kind(random)),
        6 => with_kind(good, kind(random) + 0x80),
        7 => {
            let byte = random.number() as u8;
            with_byte(good, random, byte)
        }
        8 => path_of_too_many(random),
        9 => path_with_stray_side(random),
        10 => path_of_other_siblings(random),
        11 => about_longest_frame(random),
        12 => any_frame(MOST_FRAME, random),
        _ => any_frame(400, random),
    }
}

/// Kinds not in the table, oftener those that lie beside it.
fn unknown_kind(random: &mut Random) -> u8 {
    match random.below(4) {
        0 => 0x00,
        1 => 0x11,
        2 => 0x80,
        _ => 0x11 + random.below(0xef) as u8,
    }
}

/// n of 65 and more: with all its siblings, with 64, or with fewer.
fn path_of_too_many(random: &mut Random) -> Vec<u8> {
    let sides = random.number();
    let n = match random.below(8) {
        0..=2 => 65,
        3 => 255,
        _ => 65 + random.below(191),
    };
    let siblings = match random.below(3) {
        0 => n.min((MOST_FRAME - 74) / 32),
        1 => MOST_SIBLINGS,
        _ => random.below(MOST_SIBLINGS),
    };
    path(n, siblings, sides, random)
}

/// A side bit at n or above, all else good.
fn path_with_stray_side(random: &mut Random) -> Vec<u8> {
    let n = random.below(MOST_SIBLINGS);
    let bit = if random.percent(40) { n } else { n + random.below(64 - n) };
    let sides = random.number() & below_bit(n) | 1 << bit;
    path(n, n, sides, random)
}

/// A sibling missing or too many, or any number of them.
fn path_of_other_siblings(random: &mut Random) -> Vec<u8> {
    let n = random.below(MOST_SIBLINGS + 1);
    let siblings = match random.below(3) {
        0 => n.saturating_sub(1),
        1 => n + 1,
        _ => random.below(MOST_SIBLINGS + 1),
    };
    path(n, siblings, random.number() & below_bit(n), random)
}

/// 2,121 to 2,124 bytes, of a path of 64 levels or of anything.
fn about_longest_frame(random: &mut Random) -> Vec<u8> {
    let length = LONGEST_FRAME - 1 + random.below(4);
    if random.percent(40) {
        return random.bytes(length);
    }
    let mut frame = good_path(MOST_SIBLINGS, random);
    frame.resize(length, 0);
    frame
}

/// One byte at least and `most` at most, half of them of a known kind.
fn any_frame(most: usize, random: &mut Random) -> Vec<u8> {
    let length = if random.percent(5) { most } else { 1 + random.below(most) };
    let frame = random.bytes(length);
    if random.percent(50) {
        return with_kind(frame, kind(random));
    }
    frame
}

/// Messages of 0 to 200 bytes, some longer.
fn message(random: &mut Random) -> Vec<u8> {
    let length = match random.below(40) {
        0 => MOST_MESSAGE - random.below(2),
        1 | 2 => random.below(MOST_MESSAGE + 1),
        _ => random.below(201),
    };
    random.bytes(length)
}

/// Lines that are mostly no probes.
fn stray(random: &mut Random) -> Vec<u8> {
    let letter = if random.percent(50) { b'r' } else { b'w' };
    let good = digits(&good_frame(random));
    match random.below(10) {
        0 => with_space(letter, random.below(0x1000), b"")[..1 + random.below(4)].to_vec(),
        1 => [&[letter][..], &changed(b"0123".to_vec(), random), &good].concat(),
        2 => with_space(letter, too_much_space(random), &good),
        3 => with_space(b'w', MOST_SPACE, &odd(good, random)),
        4 => with_space(b'w', MOST_SPACE, &changed(good, random)),
        5 => with_space(b'w', MOST_SPACE, &digits_of_length(2 * MOST_FRAME + 2, random)),
        6 => [b"RWs "[random.below(4)]].into_iter().chain(good).collect(),
        7 => damaged_line(random),
        8 => longer_than_kept(letter, random),
        _ => any_bytes(100, random),
    }
}

pub(crate) fn too_much_space(random: &mut Random) -> usize {
    match random.below(3) {
        0 => MOST_SPACE + 1,
        1 => 0xffff,
        _ => MOST_SPACE + 1 + random.below(0x10000 - MOST_SPACE - 1),
    }
}

/// Digits about as many as are kept of a line and more, behind a space or not.
fn longer_than_kept(letter: u8, random: &mut Random) -> Vec<u8> {
    let more = if random.percent(70) { 12 } else { 4000 };
    let line = digits_of_length(KEPT - 6 + random.below(more), random);
    if random.percent(40) {
        return line;
    }
    with_space(letter, random.below(MOST_SPACE + 1), &line)
}
