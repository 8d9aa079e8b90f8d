//! NIST's response files for SHA-256: reading them, and playing their vectors
//! against any digest at all.
//!
//! FIPS 180-4 itself prints no vectors; these are the byte-oriented
//! files of NIST's validation system (SHAVS). Nothing here computes a digest:
//! the digest under test is handed in as a function.

#![forbid(unsafe_code)]

/// One vector of a Short or Long file.
#[derive(Clone, Debug, PartialEq, Eq)]
pub struct Message {
    pub bytes: Vec<u8>,
    pub digest: Vec<u8>,
}

/// The Monte Carlo file: a seed and the digests at its checkpoints.
#[derive(Clone, Debug, PartialEq, Eq)]
pub struct Monte {
    pub seed: Vec<u8>,
    pub checkpoints: Vec<Vec<u8>>,
}

/// What a response file holds.
#[derive(Clone, Debug, PartialEq, Eq)]
pub enum Vectors {
    Messages(Vec<Message>),
    Monte(Monte),
}

/// How many digests were compared, and how many of them agreed.
#[derive(Clone, Copy, Debug, PartialEq, Eq)]
pub struct Tally {
    pub agree: usize,
    pub total: usize,
}

/// The digest under test, which may fail.
pub type DigestOf<'a, E> = dyn FnMut(&[u8]) -> Result<Vec<u8>, E> + 'a;

/// Reads a response file. A file with a `Seed` is a Monte Carlo file.
pub fn parse(text: &str) -> Result<Vectors, String> {
    let mut bits: Option<usize> = None;
    let mut message: Option<Vec<u8>> = None;
    let mut seed: Option<Vec<u8>> = None;
    let mut messages = Vec::new();
    let mut checkpoints = Vec::new();
    for (index, raw) in text.lines().enumerate() {
        let at = |fault: &str| format!("line {}: {}", index + 1, fault);
        let (name, value) = match raw.split_once('=') {
            Some((name, value)) if !raw.starts_with(['#', '[']) => (name.trim(), value.trim()),
            _ => continue,
        };
        match name {
            "Len" => bits = Some(value.parse().map_err(|_| at("Len is no number"))?),
            "Msg" => message = Some(from_hex(value).ok_or_else(|| at("Msg is no hexadecimal"))?),
            "Seed" => seed = Some(from_hex(value).ok_or_else(|| at("Seed is no hexadecimal"))?),
            "COUNT" => {
                if value.parse() != Ok(checkpoints.len()) {
                    return Err(at("COUNT is out of order"));
                }
            }
            "MD" => {
                let digest = from_hex(value).ok_or_else(|| at("MD is no hexadecimal"))?;
                if seed.is_some() {
                    checkpoints.push(digest);
                } else {
                    let bytes = message_of(bits.take(), message.take()).map_err(|e| at(&e))?;
                    messages.push(Message { bytes, digest });
                }
            }
            other => return Err(at(&format!("unknown field {}", other))),
        }
    }
    Ok(match seed {
        Some(seed) => Vectors::Monte(Monte { seed, checkpoints }),
        None => Vectors::Messages(messages),
    })
}

/// The message that `Len` and `Msg` give together. `Len = 0` is the empty
/// message, which the files write as `Msg = 00`.
fn message_of(bits: Option<usize>, message: Option<Vec<u8>>) -> Result<Vec<u8>, String> {
    let bits = bits.ok_or("MD without Len")?;
    let mut bytes = message.ok_or("MD without Msg")?;
    if bits == 0 {
        bytes.clear();
    }
    if bytes.len() * 8 != bits {
        return Err(format!("Len is {} but Msg has {} bits", bits, bytes.len() * 8));
    }
    Ok(bytes)
}

/// Plays every vector against `digest` and counts the digests that agree. Ends
/// early only if `digest` fails.
pub fn play<E>(vectors: &Vectors, digest: &mut DigestOf<'_, E>) -> Result<Tally, E> {
    match vectors {
        Vectors::Messages(messages) => play_messages(messages, digest),
        Vectors::Monte(monte) => play_monte(monte, digest),
    }
}

fn play_messages<E>(messages: &[Message], digest: &mut DigestOf<'_, E>) -> Result<Tally, E> {
    let mut agree = 0;
    for message in messages {
        if digest(&message.bytes)? == message.digest {
            agree += 1;
        }
    }
    Ok(Tally { agree, total: messages.len() })
}

/// SHAVS, "The Monte Carlo Test": each checkpoint is a thousand digests on, each
/// taken over the three before it, and is the seed of the next.
fn play_monte<E>(monte: &Monte, digest: &mut DigestOf<'_, E>) -> Result<Tally, E> {
    let mut seed = monte.seed.clone();
    let mut agree = 0;
    for expected in &monte.checkpoints {
        let mut last_three = [seed.clone(), seed.clone(), seed];
        for _ in 3..=1002 {
            let next = digest(&last_three.concat())?;
            last_three.rotate_left(1);
            last_three[2] = next;
        }
        let [_, _, checkpoint] = last_three;
        if checkpoint == *expected {
            agree += 1;
        }
        seed = checkpoint;
    }
    Ok(Tally { agree, total: monte.checkpoints.len() })
}

/// Bytes as lower-case hexadecimal.
pub fn to_hex(bytes: &[u8]) -> String {
    bytes.iter().map(|byte| format!("{:02x}", byte)).collect()
}

/// The bytes of lower-case hexadecimal, or none if it is anything else.
pub fn from_hex(text: &str) -> Option<Vec<u8>> {
    let lower = |c: &u8| matches!(c, b'0'..=b'9' | b'a'..=b'f');
    if text.len() % 2 != 0 || !text.as_bytes().iter().all(lower) {
        return None;
    }
    (0..text.len() / 2).map(|i| u8::from_str_radix(&text[2 * i..2 * i + 2], 16).ok()).collect()
}

#[cfg(test)]
mod tests {
    use super::*;

    #[test]
    fn length_zero_is_the_empty_message() {
        let text = "# c = 1\r\n[L = 32]\r\n\r\nLen = 0\r\nMsg = 00\r\nMD = ab\r\n\r\nLen = 8\r\nMsg = d3\r\nMD = cd\r\n";
        let first = Message { bytes: vec![], digest: vec![0xab] };
        let second = Message { bytes: vec![0xd3], digest: vec![0xcd] };
        assert_eq!(parse(text), Ok(Vectors::Messages(vec![first, second])));
    }

    #[test]
    fn damaged_files_are_refused() {
        for text in [
            "Len = 8\nMsg = 00d3\nMD = ab\n",
            "Len = 8\nMD = ab\n",
            "Msg = d3\nMD = ab\n",
            "Len = 8\nMsg = D3\nMD = ab\n",
            "Len = 8\nMsg = d3\nMD = a\n",
            "Seed = ab\nCOUNT = 1\nMD = ab\n",
            "Other = 1\n",
        ] {
            assert!(parse(text).is_err(), "{:?}", text);
        }
    }

    #[test]
    fn a_wrong_digest_is_counted() {
        let text = "Len = 8\nMsg = d3\nMD = ab\nLen = 8\nMsg = d4\nMD = ac\n";
        let vectors = parse(text).unwrap();
        let mut fixed = |_: &[u8]| -> Result<Vec<u8>, String> { Ok(vec![0xab]) };
        assert_eq!(play(&vectors, &mut fixed), Ok(Tally { agree: 1, total: 2 }));
    }

    #[test]
    fn the_monte_loop_takes_a_thousand_digests_over_the_last_three() {
        // Under a "digest" that adds its three one-byte inputs, the loop is a
        // linear recurrence, followed here on plain numbers.
        let mut last = [1u8, 1, 1];
        for _ in 0..1000 {
            last = [last[1], last[2], last[0].wrapping_add(last[1]).wrapping_add(last[2])];
        }
        let text = format!("Seed = 01\nCOUNT = 0\nMD = {}\n", to_hex(&last[2..]));
        let mut calls = 0;
        let mut sum = |bytes: &[u8]| -> Result<Vec<u8>, String> {
            calls += 1;
            Ok(vec![bytes.iter().fold(0u8, |sum, b| sum.wrapping_add(*b))])
        };
        let tally = play(&parse(&text).unwrap(), &mut sum);
        assert_eq!(tally, Ok(Tally { agree: 1, total: 1 }));
        assert_eq!(calls, 1000);
    }
}
