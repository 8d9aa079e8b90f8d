//! The probes of the reader, the writer and the digest, and their answers (the protocol's
//! paper, 4.2 and 4.3). The digests written out here were computed by another program.

#![forbid(unsafe_code)]

mod common;

use common::{hex, varied_frame};
use reference::frames::KINDS;
use reference::probes::{answer, KEPT};
use reference::sha256::digest;

const EMPTY: &str = "e3b0c44298fc1c149afbf4c8996fb92427ae41e4649b934ca495991b7852b855";
const ABC: &str = "ba7816bf8f01cfea414140de5dae2223b00361a396177a9cb410ff61f20015ad";
const ZEROS_8192: &str = "9f1dcbc35c350d6027f98be0f5c8b43b42ca52b7604459c0c42be3aa88913d47";

/// Spaces left alone, by their size.
const LEFT_8: &str = "5adeabbe1cf67ba2a5e36fb148a58de6b4a45f9739676c214fe27429b1778ea7";
const LEFT_11: &str = "5004aa933677c0ff165b2dd53894e7352e37011c020e81a5852d625804187344";
const LEFT_18: &str = "a123ca98d59db799830573ee9314cead94c8057c5d323107fb94ff1dddbbab22";
const LEFT_21: &str = "2bcb6d0afe9f87582b4e75ebe6cdd59d16b14c8bffd729713ebd8db63d3965d2";
const LEFT_4400: &str = "88d5780a1bd7bbd1172e121457bc51fdf82d57be4fa0b1ab651dd89ec9957ce1";

/// `ASK` as a frame of 9 bytes and as a line of 19, at the front of spaces.
const ASK: &str = "0f0000000000000005";
const FRAME_IN_9: &str = "7dff47497c34de9984cd6f5c24b3f5a3b1df6942a2553f4bc4f27be19ee50c8d";
const FRAME_IN_11: &str = "9ec9503c6108b2335e354761dca5e5d0b6271ac347b3ab9d1aef61b8cef592f0";
const FRAME_IN_4400: &str = "1c1fb325512096c9f07bbd783852c4251b6383bf46731c5ef954a70982dfbdca";
const LINE_IN_19: &str = "63cc966936cd77577a8e52bfd5d21a208a6b1494b2f5156f28eb96555a9cf719";
const LINE_IN_21: &str = "4cde2a982178919aeaa4d94a342ae27d9a69bdf52873b65f8f086fb524fd6fe9";
const LINE_IN_4400: &str = "1ca5fca0d4ef775e794276024704b41bb9890926b31c26bbfea9b2ee4d2c942c";

/// Sees that the probe, its parts put together, gets this answer.
fn answers(probe: &[&str], expected: &[&str]) {
    let got = String::from_utf8(answer(probe.concat().as_bytes())).unwrap();
    assert_eq!(got, expected.concat() + "\n", "probe {:?}", probe);
}

#[test]
fn reading_by_hand() {
    answers(&["r0000"], &["01", EMPTY]);
    answers(&["r0009", ASK], &["00", FRAME_IN_9]);
    answers(&["r0008", ASK], &["0f", LEFT_8]);
    answers(&["r0000", ASK], &["0f", EMPTY]);
    answers(&["r000b", ASK], &["00", FRAME_IN_11]);
    answers(&["r1130", ASK], &["00", FRAME_IN_4400]);
    for line in ["", "0", "zz", "0F0000000000000005", "0f0000000000000005\r", "r", "0f\0"] {
        answers(&["r000b", line], &["01", LEFT_11]);
    }
    for line in ["ff", "00", "8f0000000000000005", "11"] {
        answers(&["r000b", line], &["02", LEFT_11]);
    }
    for line in ["0f", "01", "0f00000000000000", "0f000000000000000500"] {
        answers(&["r000b", line], &["03", LEFT_11]);
    }
    answers(&["r1130", &"0".repeat(4244)], &["02", LEFT_4400]);
    for length in [4243, 4245, 4246, 9000, 16_380, 16_381, 20_000] {
        answers(&["r1130", &"0".repeat(length)], &["01", LEFT_4400]);
    }
}

#[test]
fn writing_by_hand() {
    answers(&["w0000"], &["01", EMPTY]);
    answers(&["w0013", ASK], &["00", LINE_IN_19]);
    answers(&["w0012", ASK], &["0f", LEFT_18]);
    answers(&["w0000", ASK], &["0f", EMPTY]);
    answers(&["w0015", ASK], &["00", LINE_IN_21]);
    answers(&["w1130", ASK], &["00", LINE_IN_4400]);
    answers(&["w0015"], &["01", LEFT_21]);
    for frame in ["ff", "00", "8f0000000000000005", "11"] {
        answers(&["w0015", frame], &["02", LEFT_21]);
    }
    for frame in ["0f", "01", "0f00000000000000", "0f000000000000000500"] {
        answers(&["w0015", frame], &["03", LEFT_21]);
    }
    answers(&["w1130", &"0".repeat(4244)], &["02", LEFT_4400]);
    for length in [4246, 4248, 8192] {
        answers(&["w1130", &"0".repeat(length)], &["01", LEFT_4400]);
    }
}

#[test]
fn messages_by_hand() {
    answers(&[""], &[EMPTY]);
    answers(&["616263"], &[ABC]);
    answers(&[ASK], &[FRAME_IN_9]);
    answers(&[&"0".repeat(16_384)], &[ZEROS_8192]);
}

#[test]
fn other_lines_get_a_question_mark() {
    for letter in ["r", "w"] {
        for space in ["", "0", "00", "000", "00Ff", "000g", "+001", " 001", "\x00000", "\r", "é0"]
        {
            answers(&[letter, space], &["?"]);
        }
        for space in ["1131", "2000", "ffff"] {
            answers(&[letter, space, ASK], &["?"]);
        }
    }
    for digits in ["0", ASK.trim_end_matches('5'), "0F0000000000000005", "0g", " 0", "0f\r", "\0"] {
        answers(&["w0015", digits], &["?"]);
    }
    for length in [8193, 8194, 16_380, 20_000] {
        answers(&["w0015", &"0".repeat(length)], &["?"]);
    }
    for line in ["0", "6162F3", "616263\r", " 616263", "R0009", "W0009", "x", "?", "\0", "é"] {
        answers(&[line], &["?"]);
    }
    for length in [16_383, 16_385, 16_386, 40_000] {
        answers(&[&"0".repeat(length)], &["?"]);
    }
    assert_eq!(answer(b"\xff\xfe"), b"?\n");
    assert_eq!(answer(b"r\xff\xfe00"), b"?\n");
    assert_eq!(answer(b"w0015\xff\xfe"), b"?\n");
}

#[test]
fn frames_of_every_kind_just_fit() {
    for kind in KINDS {
        let frame = varied_frame(kind, 40);
        let (digits, length) = (hex(&frame), frame.len());
        let line = digits.clone() + "\n";
        let (read, written) = (hex(&digest(&frame)), hex(&digest(line.as_bytes())));
        answers(&["r", &format!("{:04x}", length), &digits], &["00", &read]);
        answers(&["w", &format!("{:04x}", 2 * length + 1), &digits], &["00", &written]);
        let (read, written) = (vec![0xee; length - 1], vec![0xee; 2 * length]);
        let (read, written) = (hex(&digest(&read)), hex(&digest(&written)));
        answers(&["r", &format!("{:04x}", length - 1), &digits], &["0f", &read]);
        answers(&["w", &format!("{:04x}", 2 * length), &digits], &["0f", &written]);
    }
}

/// The program hands on no more of a line than `KEPT`; nothing behind that counts.
#[test]
fn a_long_line_is_answered_like_its_first_bytes() {
    for front in ["", "r0000", "r1130", "w1130", "m00c3", "0f"] {
        let long = front.to_string() + &"0".repeat(2 * KEPT);
        assert_eq!(answer(&long.as_bytes()[..KEPT]), answer(long.as_bytes()), "{}", front);
    }
}
