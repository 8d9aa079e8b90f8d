//! The program `vectors` as it is run, on programs that compute digests and on others.

#![forbid(unsafe_code)]

use std::fs::File;
use std::path::{Path, PathBuf};
use std::process::Command;

const VECTORS: &str = env!("CARGO_BIN_EXE_vectors");

/// Runs `vectors`; gives its status and what it wrote to either output.
fn vectors(arguments: &[&str]) -> (Option<i32>, String, String) {
    let output = Command::new(VECTORS).args(arguments).output().expect("the program starts");
    let text = |bytes: Vec<u8>| String::from_utf8(bytes).unwrap();
    (output.status.code(), text(output.stdout), text(output.stderr))
}

#[test]
fn bad_arguments_get_a_usage_message_and_status_2() {
    let cases: [&[&str]; 3] = [&[], &["program"], &["program", "--"]];
    for arguments in cases {
        let (status, out, err) = vectors(arguments);
        assert_eq!((status, out.as_str()), (Some(2), ""), "{:?}", arguments);
        assert!(err.starts_with("usage: "));
    }
}

fn vector_file(name: &str) -> String {
    format!("{}/../../vectors/{}", env!("CARGO_MANIFEST_DIR"), name)
}

/// The example that computes digests, built along with the tests.
fn digest_program() -> PathBuf {
    let directory = Path::new(VECTORS).parent().expect("programs lie in a directory");
    let example = directory.join("examples").join("digest");
    assert!(example.exists(), "cargo build --examples makes {}", example.display());
    example
}

#[test]
fn vectors_agree_on_all_three_files() {
    let files = ["SHA256ShortMsg.rsp", "SHA256LongMsg.rsp", "SHA256Monte.rsp"].map(vector_file);
    let program = digest_program();
    let mut arguments = vec![program.to_str().unwrap(), "--"];
    arguments.extend(files.iter().map(String::as_str));
    let (status, out, err) = vectors(&arguments);
    assert_eq!(err, "");
    let expected = "SHA256ShortMsg.rsp: 65 of 65 digests agree\n\
                    SHA256LongMsg.rsp: 64 of 64 digests agree\n\
                    SHA256Monte.rsp: 100 of 100 digests agree\n";
    assert_eq!((status, out.as_str()), (Some(0), expected));
}

/// Writes a file for one test and gives its path.
fn temporary(name: &str, text: &str) -> String {
    let path = Path::new(env!("CARGO_TARGET_TMPDIR")).join(name);
    std::fs::write(&path, text).expect("the file is written");
    path.to_str().expect("the path is text").to_string()
}

fn vectors_on(program: &str, file: &str) -> (Option<i32>, String, String) {
    vectors(&[program, "--", file])
}

#[test]
fn vectors_report_what_is_wrong() {
    let program = digest_program();
    let program = program.to_str().unwrap();
    let wrong = "Len = 0\nMsg = 00\nMD = ".to_string() + &"00".repeat(32) + "\n";
    let (status, out, _) = vectors_on(program, &temporary("Wrong.rsp", &wrong));
    assert_eq!((status, out.as_str()), (Some(1), "Wrong.rsp: 0 of 1 digests agree\n"));

    let (status, out, err) = vectors_on(program, &temporary("Empty.rsp", "# nothing\n"));
    assert_eq!((status, out.as_str()), (Some(1), ""));
    assert!(err.contains("Empty.rsp") && err.contains("no vector"), "{}", err);

    // A program whose answers are no digests.
    let short = vector_file("SHA256ShortMsg.rsp");
    let (status, _, err) = vectors_on("cat", &short);
    assert_eq!(status, Some(1));
    assert!(err.contains("not 64 lower-case hexadecimal digits"), "{}", err);

    // A program that ends without a word.
    let (status, _, err) = vectors_on("true", &short);
    assert_eq!(status, Some(1));
    assert!(err.contains("ended early"), "{}", err);

    let (status, _, err) = vectors_on("/no/such/program", &short);
    assert_eq!(status, Some(1));
    assert!(err.contains("cannot be started"), "{}", err);

    let (status, _, err) = vectors_on(program, "no-such-file.rsp");
    assert_eq!(status, Some(1));
    assert!(err.contains("no-such-file.rsp: cannot be read"), "{}", err);
}

#[test]
fn an_output_that_cannot_be_written_is_told() {
    let full = File::create("/dev/full").expect("the device is there");
    let file = vector_file("SHA256ShortMsg.rsp");
    let mut command = Command::new(VECTORS);
    let output = command.arg(digest_program()).args(["--", &file]).stdout(full).output().unwrap();
    assert_eq!(output.status.code(), Some(1));
    let told = String::from_utf8_lossy(&output.stderr);
    assert!(told.contains("its output cannot be written: "), "{}", told);
}
