//! The reader and the writer of lines: round trips on frames of every kind, and
//! the order of their refusals. The protocol's paper, 4.2 and 4.3.

#![forbid(unsafe_code)]

mod common;

use common::{hex, varied_frame, LENGTHS};
use reference::frames::{parse, read_line, write_frame, KINDS, LONGEST_FRAME};

#[test]
fn frames_of_every_kind_come_back() {
    for kind in KINDS {
        for round in 0..200 {
            let frame = varied_frame(kind, round);
            let line = write_frame(&frame, 2 * frame.len() + 1).unwrap();
            assert_eq!(line, (hex(&frame) + "\n").into_bytes());
            let digits = &line[..line.len() - 1];
            let read = read_line(digits, frame.len()).unwrap();
            assert_eq!(read, frame);
            assert_eq!(write_frame(&read, 4245).unwrap(), line);
            assert_eq!(parse(&frame).unwrap().frame(), frame);
        }
    }
}

#[test]
fn lengths_are_those_of_the_table() {
    for (kind, length) in (0x02..=0x10).zip(LENGTHS) {
        for tried in 1..=400 {
            let mut frame = vec![1; tried];
            frame[0] = kind;
            let expected = if tried == length { Ok(frame.clone()) } else { Err(3) };
            assert_eq!(read_line(hex(&frame).as_bytes(), LONGEST_FRAME), expected);
            let line = expected.map(|frame| (hex(&frame) + "\n").into_bytes());
            assert_eq!(write_frame(&frame, 4245), line);
        }
    }
}

#[test]
fn path_lengths_follow_n() {
    for n in 0..=255u8 {
        for siblings in [0, 1, 2, 63, 64, usize::from(n.min(64))] {
            let mut frame = vec![7; 74 + 32 * siblings];
            frame[0] = 0x01;
            frame[65] = n;
            frame[66..74].fill(0);
            let good = n <= 64 && siblings == usize::from(n);
            let expected = if good { Ok(frame.clone()) } else { Err(3) };
            assert_eq!(read_line(hex(&frame).as_bytes(), LONGEST_FRAME), expected);
            for extra in [-1isize, 1] {
                let mut off = frame.clone();
                off.resize((frame.len() as isize + extra) as usize, 0);
                let number = if off.len() > LONGEST_FRAME { 1 } else { 3 };
                assert_eq!(read_line(hex(&off).as_bytes(), LONGEST_FRAME), Err(number));
                assert_eq!(write_frame(&off, 4245), Err(number));
            }
        }
    }
}

#[test]
fn sides_are_one_number_most_significant_byte_first() {
    for n in 0..=64u8 {
        for bit in 0..64u8 {
            let mut frame = vec![7; 74 + 32 * usize::from(n)];
            frame[0] = 0x01;
            frame[65] = n;
            frame[66..74].copy_from_slice(&(1u64 << bit).to_be_bytes());
            let expected = if bit < n { Ok(frame.clone()) } else { Err(3) };
            assert_eq!(read_line(hex(&frame).as_bytes(), LONGEST_FRAME), expected);
        }
    }
}

#[test]
fn every_byte_but_the_sixteen_digits_is_refused() {
    for byte in 0..=255u8 {
        for at in [0, 1, 17] {
            let mut line = b"0f0000000000000005".to_vec();
            line[at] = byte;
            let digit = b"0123456789abcdef".contains(&byte);
            let got = read_line(&line, LONGEST_FRAME);
            assert_eq!(got == Err(1), !digit, "byte {:02x} at {}", byte, at);
        }
    }
}

#[test]
fn reading_refuses_in_order() {
    let longest = LONGEST_FRAME * 2;
    for space in [0, 9, LONGEST_FRAME] {
        // 1 before 2, 3 and 15.
        for line in [&b""[..], b"f", b"fff", b"0F", b"0f0000000000000005\n", b"0f\r", b"zz"] {
            assert_eq!(read_line(line, space), Err(1));
        }
        assert_eq!(read_line(&vec![b'0'; longest + 1], space), Err(1));
        assert_eq!(read_line(&vec![b'0'; longest + 2], space), Err(1));
        assert_eq!(read_line(&vec![b'0'; 100_000], space), Err(1));
        // 2 before 3 and 15.
        for line in [&b"00"[..], b"11", b"80", b"81", b"90", b"ff", b"ff00"] {
            assert_eq!(read_line(line, space), Err(2));
        }
        assert_eq!(read_line(&vec![b'0'; longest], space), Err(2));
        // 3 before 15.
        for line in [&b"01"[..], b"0f", b"0f00000000000000", b"10", b"0f000000000000000505"] {
            assert_eq!(read_line(line, space), Err(3));
        }
    }
    for space in 0..9 {
        assert_eq!(read_line(b"0f0000000000000005", space), Err(15));
    }
    assert_eq!(read_line(b"0f0000000000000005", 9), Ok(vec![0x0f, 0, 0, 0, 0, 0, 0, 0, 5]));
}

#[test]
fn writing_refuses_in_order() {
    for space in [0, 19, 4245] {
        assert_eq!(write_frame(&[], space), Err(1));
        assert_eq!(write_frame(&vec![0x01; LONGEST_FRAME + 1], space), Err(1));
        assert_eq!(write_frame(&vec![0xff; LONGEST_FRAME + 1], space), Err(1));
        for frame in [&[0x00][..], &[0x00, 0x01], &[0x11], &[0x8f, 0, 0], &[0x90], &[0xff; 2122]] {
            assert_eq!(write_frame(frame, space), Err(2));
        }
        for frame in [&[0x01][..], &[0x0f], &[0x10, 1], &[0x07; 2122]] {
            assert_eq!(write_frame(frame, space), Err(3));
        }
    }
    let frame = [0x0f, 0, 0, 0, 0, 0, 0, 0, 5];
    for space in 0..19 {
        assert_eq!(write_frame(&frame, space), Err(15));
    }
    assert_eq!(write_frame(&frame, 19), Ok(b"0f0000000000000005\n".to_vec()));
}
