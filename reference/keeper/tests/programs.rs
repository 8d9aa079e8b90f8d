//! The two programs as they are run: `sessions` and `probes`.

#![forbid(unsafe_code)]

mod common;

use common::run;
use keeper::direct;
use keeper::probes::{self, Generate};
use keeper::sessions::generate;
use reference::probes::answer;
use reference::program;
use std::fs::File;
use std::process::Command;

const SESSIONS: &str = env!("CARGO_BIN_EXE_sessions");
const PROBES: &str = env!("CARGO_BIN_EXE_probes");

/// Probes written by `probes` are those made in this process, and lines of them are
/// answered one by one as they are alone.
#[test]
fn probes_through_the_programs() {
    same_through_the_programs(&["42", "3000"], probes::generate);
    same_through_the_programs(&["--direct", "42", "3000"], direct::generate);
}

fn same_through_the_programs(arguments: &[&str], generate: Generate) {
    let made = run(PROBES, arguments);
    assert!(made.status.success());
    let (mut lines, mut answers, mut served) = (Vec::new(), Vec::new(), Vec::new());
    generate(42, 3000, &mut |probe| {
        lines.extend_from_slice(probe);
        lines.push(b'\n');
        answers.extend(answer(probe));
    });
    assert!(made.stdout == lines);
    let kept = reference::probes::KEPT;
    program::serve(&lines[..], &mut served, kept, &mut answer).unwrap();
    assert!(served == answers);
}

/// A session written by `sessions` is the one made in this process, and as lines it is
/// answered as it was while it was made.
#[test]
fn a_session_through_the_programs() {
    let made = run(SESSIONS, &["42", "2000"]);
    assert!(made.status.success());
    let mut lines = Vec::new();
    let mut traced = String::new();
    let mut plain = String::new();
    generate(42, 2000, &mut |step| {
        lines.extend_from_slice(step.line);
        lines.push(b'\n');
        let reply = std::str::from_utf8(&step.answer.reply_line).unwrap();
        let refusal = step.answer.refusal.unwrap_or(0);
        traced += &format!("{} {} {}\n", reply.trim_end(), refusal, step.answer.blocks);
        plain += reply;
    });
    assert!(made.stdout == lines);
    assert!(replies(&lines, true) == traced);
    assert!(replies(&lines, false) == plain);
    assert!(lines.iter().filter(|byte| **byte == b'\n').count() >= 2000);
}

fn replies(lines: &[u8], trace: bool) -> String {
    let mut output = Vec::new();
    program::run(lines, &mut output, trace).unwrap();
    String::from_utf8(output).unwrap()
}

#[test]
fn bad_arguments_get_a_usage_message_and_status_2() {
    let cases: [(&str, &[&str]); 12] = [
        (SESSIONS, &[]),
        (SESSIONS, &["1"]),
        (SESSIONS, &["1", "2", "3"]),
        (SESSIONS, &["x", "2"]),
        (SESSIONS, &["1", "-2"]),
        (PROBES, &[]),
        (PROBES, &["1"]),
        (PROBES, &["1", "2", "3"]),
        (PROBES, &["x", "2"]),
        (PROBES, &["1", "-2"]),
        (PROBES, &["--direct", "1"]),
        (PROBES, &["1", "2", "--direct"]),
    ];
    for (program, arguments) in cases {
        let output = run(program, arguments);
        assert_eq!(output.status.code(), Some(2), "{} {:?}", program, arguments);
        assert!(output.stdout.is_empty());
        assert!(String::from_utf8_lossy(&output.stderr).starts_with("usage: "));
    }
}

#[test]
fn an_output_that_cannot_be_written_is_told() {
    for program in [SESSIONS, PROBES] {
        let full = File::create("/dev/full").expect("the device is there");
        let output = Command::new(program).args(["1", "9"]).stdout(full).output().unwrap();
        assert_eq!(output.status.code(), Some(1), "{}", program);
        let told = String::from_utf8_lossy(&output.stderr);
        assert!(told.contains(": standard output could not be written: "), "{}", told);
    }
}
