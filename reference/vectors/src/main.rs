//! `vectors PROGRAM [ARGS..] -- FILE..` drives a digest program on NIST's
//! response files and compares every digest.
//!
//! PROGRAM reads messages in lower-case hexadecimal, one to a line, an empty line
//! being the empty message, and writes each digest as 64 lower-case hexadecimal
//! digits and 0A before it waits for more input. One line is sent and one digest
//! read at a time, so neither side can fill the other's pipe. No digest is
//! computed here: the expected ones are those in the files.

#![forbid(unsafe_code)]

use std::io::{stdout, BufRead, BufReader, Write};
use std::path::Path;
use std::process::{exit, Child, ChildStdin, ChildStdout, Command, Stdio};

const USAGE: &str = "usage: vectors PROGRAM [ARGS..] -- FILE..";

fn main() {
    let arguments: Vec<String> = std::env::args().skip(1).collect();
    let (command, files) = match split_arguments(&arguments) {
        Some(parts) => parts,
        None => {
            eprintln!("{}", USAGE);
            exit(2);
        }
    };
    match run(command, files) {
        Ok(true) => {}
        Ok(false) => exit(1),
        Err(sentence) => {
            eprintln!("vectors: {}", sentence);
            exit(1);
        }
    }
}

/// The program with its arguments, and the files; none if either is missing. The
/// last `--` divides them, so that the program may be given one of its own.
fn split_arguments(arguments: &[String]) -> Option<(&[String], &[String])> {
    let divider = arguments.iter().rposition(|argument| argument == "--")?;
    let (command, files) = (&arguments[..divider], &arguments[divider + 1..]);
    if command.is_empty() || files.is_empty() {
        None
    } else {
        Some((command, files))
    }
}

/// Plays every file and prints one line for each. True if every digest agreed.
fn run(command: &[String], files: &[String]) -> Result<bool, String> {
    let mut program = Program::start(command)?;
    let mut all_agree = true;
    for file in files {
        let name = Path::new(file)
            .file_name()
            .map_or_else(|| file.to_string(), |name| name.to_string_lossy().into_owned());
        let tally =
            play_file(&mut program, file).map_err(|fault| format!("{}: {}", name, fault))?;
        let agreed = format!("{}: {} of {} digests agree", name, tally.agree, tally.total);
        writeln!(stdout(), "{}", agreed)
            .map_err(|e| format!("its output cannot be written: {}", e))?;
        all_agree &= tally.agree == tally.total;
    }
    program.finish()?;
    Ok(all_agree)
}

fn play_file(program: &mut Program, file: &str) -> Result<vectors::Tally, String> {
    let text = std::fs::read_to_string(file).map_err(|e| format!("cannot be read: {}", e))?;
    let vectors = vectors::parse(&text)?;
    let tally = vectors::play(&vectors, &mut |message| program.digest(message))?;
    if tally.total == 0 {
        return Err("the file holds no vector".to_string());
    }
    Ok(tally)
}

/// The running program with both its pipes.
struct Program {
    child: Child,
    input: ChildStdin,
    output: BufReader<ChildStdout>,
}

impl Program {
    fn start(command: &[String]) -> Result<Program, String> {
        let mut child = Command::new(&command[0])
            .args(&command[1..])
            .stdin(Stdio::piped())
            .stdout(Stdio::piped())
            .spawn()
            .map_err(|e| format!("{} cannot be started: {}", command[0], e))?;
        let input = child.stdin.take().ok_or("the program has no standard input")?;
        let output = child.stdout.take().ok_or("the program has no standard output")?;
        let output = BufReader::new(output);
        Ok(Program { child, input, output })
    }

    /// Sends one message and reads one digest.
    fn digest(&mut self, message: &[u8]) -> Result<Vec<u8>, String> {
        let line = vectors::to_hex(message) + "\n";
        let sent = self.input.write_all(line.as_bytes()).and_then(|()| self.input.flush());
        sent.map_err(|e| format!("the program ended early or closed its input: {}", e))?;
        let mut reply = Vec::new();
        self.output
            .read_until(b'\n', &mut reply)
            .map_err(|e| format!("the program's output cannot be read: {}", e))?;
        if reply.last() != Some(&b'\n') {
            return Err("the program ended early: a digest is missing".to_string());
        }
        reply.pop();
        let digest = String::from_utf8(reply).ok().and_then(|text| vectors::from_hex(&text));
        match digest {
            Some(digest) if digest.len() == 32 => Ok(digest),
            _ => Err("the program's answer is not 64 lower-case hexadecimal digits".to_string()),
        }
    }

    /// Closes the program's input and sees it end with nothing more to say.
    fn finish(self) -> Result<(), String> {
        let Program { mut child, input, mut output } = self;
        drop(input);
        let mut rest = Vec::new();
        output
            .read_until(b'\n', &mut rest)
            .map_err(|e| format!("the program's output cannot be read: {}", e))?;
        drop(output);
        let status = child.wait().map_err(|e| format!("the program's end is unknown: {}", e))?;
        if !rest.is_empty() {
            return Err("the program wrote more than one line for each message".to_string());
        }
        if !status.success() {
            return Err(format!("the program ended with {}", status));
        }
        Ok(())
    }
}
