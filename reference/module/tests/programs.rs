//! The two programs as they are run: `reference` and `probe`.

#![forbid(unsafe_code)]

mod common;

use common::{run, tells_faults};
use reference::probes;
use std::io::{BufRead, BufReader, Write};
use std::process::{Command, Stdio};

const REFERENCE: &str = env!("CARGO_BIN_EXE_reference");
const PROBE: &str = env!("CARGO_BIN_EXE_probe");

fn replies(arguments: &[&str], input: &[u8]) -> String {
    let output = run(REFERENCE, arguments, input);
    assert!(output.status.success());
    String::from_utf8(output.stdout).unwrap()
}

#[test]
fn empty_input_gives_empty_output() {
    assert_eq!(replies(&[], b""), "");
    assert_eq!(replies(&["--trace"], b""), "");
}

#[test]
fn a_last_piece_without_newline_counts_if_not_empty() {
    assert_eq!(replies(&[], b"ff"), "0002\n");
    assert_eq!(replies(&[], b"ff\n"), "0002\n");
    assert_eq!(replies(&[], b"ff\nff"), "0002\n0002\n");
    assert_eq!(replies(&[], b"\n"), "0001\n");
    assert_eq!(replies(&[], b"\n\n7"), "0001\n0001\n0001\n");
    assert_eq!(replies(&[], b"ff\r\n"), "0001\n");
}

#[test]
fn a_line_longer_than_any_frame_gets_one_reply() {
    for length in [4243, 4245, 4246, 8192, 8193, 100_000, 1_000_000] {
        let mut input = vec![b'f'; length];
        assert_eq!(replies(&[], &input), "0001\n");
        input.extend_from_slice(b"\nff\n");
        assert_eq!(replies(&[], &input), "0001\n0002\n");
    }
    assert_eq!(replies(&[], &[b'f'; 4244]), "0002\n");
}

#[test]
fn the_trace_shows_refusal_and_blocks() {
    let secret = "01".repeat(32);
    let input = format!("0f\n10{}\n070000000000000005\n", secret);
    let traced = replies(&["--trace"], input.as_bytes());
    let lines: Vec<&str> = traced.lines().collect();
    assert_eq!(lines[..2], ["0003 3 0", "90 0 0"]);
    assert!(lines[2].starts_with("87") && lines[2].ends_with(" 0 3"));
    assert_eq!(lines[2].len(), 66 + 4);
}

/// Sends pieces of input one by one, and sees each piece's replies come before the
/// next is sent.
fn converse(program: &str, pieces: &[(String, Vec<String>)]) {
    let mut child = Command::new(program)
        .stdin(Stdio::piped())
        .stdout(Stdio::piped())
        .spawn()
        .expect("the program starts");
    let mut input = child.stdin.take().unwrap();
    let mut output = BufReader::new(child.stdout.take().unwrap());
    for (sent, expected) in pieces {
        input.write_all(sent.as_bytes()).unwrap();
        input.flush().unwrap();
        for reply in expected {
            let mut got = String::new();
            output.read_line(&mut got).unwrap();
            assert_eq!(got.trim_end(), reply);
        }
    }
    drop(input);
    assert!(child.wait().unwrap().success());
}

fn piece(sent: &str, expected: &[&str]) -> (String, Vec<String>) {
    (sent.to_string(), expected.iter().map(|reply| reply.to_string()).collect())
}

#[test]
fn replies_are_out_before_more_is_read() {
    let open = format!("10{}\n", "01".repeat(32));
    let pieces = [
        piece("7\n", &["0001"]),
        piece(&open, &["90"]),
        piece("ff\n0f\n0f00000000000000", &["0002", "0003"]),
        piece("05\n", &["8f0000000000000005"]),
    ];
    converse(REFERENCE, &pieces);
}

/// The digest of the empty string.
const EMPTY: &str = "e3b0c44298fc1c149afbf4c8996fb92427ae41e4649b934ca495991b7852b855";

#[test]
fn answers_are_out_before_more_is_read() {
    let refused = |number: &str| number.to_string() + EMPTY;
    let pieces = [
        piece("x\n", &["?"]),
        piece("\n", &[EMPTY]),
        piece("r0000\nw0000ff\nr00000f00000000000000", &[&refused("01"), &refused("02")]),
        piece("05\n", &[&refused("0f")]),
    ];
    converse(PROBE, &pieces);
}

fn probe_answers(input: &[u8]) -> String {
    let output = run(PROBE, &[], input);
    assert!(output.status.success());
    String::from_utf8(output.stdout).unwrap()
}

#[test]
fn a_last_probe_without_newline_counts_if_not_empty() {
    let refused = format!("01{}\n", EMPTY);
    assert_eq!(probe_answers(b""), "");
    assert_eq!(probe_answers(b"\n"), format!("{}\n", EMPTY));
    assert_eq!(probe_answers(b"r0000"), refused);
    assert_eq!(probe_answers(b"r0000\n"), refused);
    assert_eq!(probe_answers(b"?\n\nr0000"), format!("?\n{}\n{}", EMPTY, refused));
    assert_eq!(probe_answers(b"r0000\r\n"), refused);
    assert_eq!(probe_answers(b"r000\r\n"), "?\n");
}

#[test]
fn a_probe_longer_than_is_kept_gets_one_answer() {
    for length in [16_384, 16_385, 16_386, 100_000] {
        let digits = vec![b'0'; length];
        let expected = String::from_utf8(probes::answer(&digits)).unwrap();
        assert_eq!(expected == "?\n", length > 16_384);
        let input = [&digits[..], b"\nr0000", &digits, b"\nw0000", &digits, b"\n?"].concat();
        assert_eq!(probe_answers(&input), format!("{}01{}\n?\n?\n", expected, EMPTY));
    }
}

#[test]
fn bad_arguments_get_a_usage_message_and_status_2() {
    let cases: [(&str, &[&str]); 3] =
        [(REFERENCE, &["--tracing"]), (REFERENCE, &["--trace", "more"]), (PROBE, &["more"])];
    for (program, arguments) in cases {
        let output = run(program, arguments, b"");
        assert_eq!(output.status.code(), Some(2), "{} {:?}", program, arguments);
        assert!(output.stdout.is_empty());
        assert!(String::from_utf8_lossy(&output.stderr).starts_with("usage: "));
    }
}

#[test]
fn inputs_and_outputs_that_fail_are_told() {
    tells_faults(REFERENCE);
    tells_faults(PROBE);
}
