//! NIST's vectors through the second module's digest, as a function and as `probe` answers.

#![forbid(unsafe_code)]

use reference::{probes, sha256};
use vectors::{from_hex, parse, play, to_hex, Tally, Vectors};

const FILES: [(&str, usize); 3] =
    [("SHA256ShortMsg.rsp", 65), ("SHA256LongMsg.rsp", 64), ("SHA256Monte.rsp", 100)];

fn vectors_of(file: &str) -> Vectors {
    let path = format!("{}/../../vectors/{}", env!("CARGO_MANIFEST_DIR"), file);
    let text = std::fs::read_to_string(path).expect("the vectors are in the repository");
    parse(&text).expect("the file is well formed")
}

/// Sees that a digest agrees on every vector of every file.
fn agrees(digest: fn(&[u8]) -> Option<Vec<u8>>) {
    for (file, total) in FILES {
        let tally = play(&vectors_of(file), &mut |message| digest(message).ok_or(()));
        assert_eq!(tally, Ok(Tally { agree: total, total }), "{}", file);
    }
}

#[test]
fn the_digest() {
    agrees(|message| Some(sha256::digest(message).to_vec()));
}

#[test]
fn the_digest_by_probes() {
    agrees(|message| {
        let answer = String::from_utf8(probes::answer(to_hex(message).as_bytes())).ok()?;
        from_hex(answer.strip_suffix('\n')?)
    });
}
