//! The words in which wishes come, and those in which a person is told what came of them.

use crate::keeper::{Refusal, Say, Wish};
use crate::store::Broken;
use crate::talk::Finding;

/// A line from a person, where no reply is awaited.
#[derive(Clone, Copy, Debug, PartialEq, Eq)]
pub enum Word {
    Wish(Wish),
    /// The counter that the module gave last.
    Counter(u64),
}

/// What a line, given without its 0A, says; none if it is no wish.
pub fn parse(line: &[u8]) -> Option<Word> {
    let words: Vec<&[u8]> = line.split(|byte| *byte == b' ').collect();
    let (verb, rest) = words.split_first()?;
    let numbers: Vec<u64> = rest.iter().map(|word| decimal(word)).collect::<Option<_>>()?;
    let wish = match (*verb, numbers.as_slice()) {
        (b"insert", [item]) => Wish::Insert(*item),
        (b"remove", [item]) => Wish::Remove(*item),
        (b"set", [item, mass, offset, rigging]) => Wish::Set(*item, [*mass, *offset, *rigging]),
        (b"clear", [item]) => Wish::Clear(*item),
        (b"ask", [q]) => Wish::Ask(*q),
        (b"counter", [counter]) => return Some(Word::Counter(*counter)),
        _ => return None,
    };
    Some(Word::Wish(wish))
}

/// A number in decimal digits, without sign or leading zeros, up to 2^64 - 1.
fn decimal(word: &[u8]) -> Option<u64> {
    let leading_zero = word.len() > 1 && word[0] == b'0';
    if word.is_empty() || leading_zero || !word.iter().all(u8::is_ascii_digit) {
        return None;
    }
    word.iter().try_fold(0u64, |number, digit| {
        number.checked_mul(10)?.checked_add(u64::from(digit - b'0'))
    })
}

/// For a line that is no wish where none is awaited.
pub const WHAT: &str = "# what?";
pub const DONE: &str = "# done";
pub const NOT_WRITTEN: &str = "# store cannot be written";

/// What is wrong with the store.
pub fn broken(broken: &Broken) -> String {
    format!("# store {}", broken)
}

/// Why the keeper refuses.
pub fn refused(refusal: Refusal) -> String {
    let word = match refusal {
        Refusal::Zero => "zero",
        Refusal::Mass => "mass",
        Refusal::Listed => "listed",
        Refusal::Unlisted => "unlisted",
        Refusal::Recorded => "recorded",
        Refusal::Empty => "empty",
        Refusal::Full => "full",
        Refusal::Top => "top",
    };
    format!("# refused {}", word)
}

/// The output line for what is to be said, with its 0A: one for the module, or one for a person.
pub fn line(say: &Say) -> Vec<u8> {
    let text = match say {
        Say::Line(line) => return line.clone(),
        Say::Done => DONE.to_string(),
        Say::Found(finding) => found(finding),
        Say::Refused(number) => format!("# module refused {}", number),
        Say::Otherwise => "# module spoke otherwise".to_string(),
    };
    ended(&text)
}

/// A text as a line, with its 0A.
pub fn ended(text: &str) -> Vec<u8> {
    [text.as_bytes(), b"\n"].concat()
}

fn found(finding: &Finding) -> String {
    match finding {
        Finding::Record { item, record } => {
            let [revision, mass, offset, rigging] = record.numbers();
            format!("# record {} {} {} {} {}", item, revision, mass, offset, rigging)
        }
        Finding::Empty { item } => format!("# empty {}", item),
        Finding::Gap { item, next } => format!("# gap {} {}", item, next),
        Finding::None { q } => format!("# none {}", q),
    }
}

#[cfg(test)]
mod tests {
    use super::*;
    use reference::strings::Record;

    const TOP: u64 = u64::MAX;

    #[test]
    fn wishes_in_words() {
        let listed = [
            ("insert 5", Word::Wish(Wish::Insert(5))),
            ("insert 0", Word::Wish(Wish::Insert(0))),
            ("remove 18446744073709551615", Word::Wish(Wish::Remove(TOP))),
            ("set 5 61400 1250 3", Word::Wish(Wish::Set(5, [61_400, 1_250, 3]))),
            ("set 0 0 0 0", Word::Wish(Wish::Set(0, [0, 0, 0]))),
            ("clear 10", Word::Wish(Wish::Clear(10))),
            ("ask 100", Word::Wish(Wish::Ask(100))),
            ("counter 0", Word::Counter(0)),
            ("counter 18446744073709551615", Word::Counter(TOP)),
        ];
        for (text, word) in listed {
            assert_eq!(parse(text.as_bytes()), Some(word), "{}", text);
        }
    }

    #[test]
    fn lines_that_are_no_wish() {
        let listed = [
            "",
            " ",
            "insert",
            "insert ",
            "insert 5 ",
            " insert 5",
            "insert  5",
            "insert 5 6",
            "insert 05",
            "insert 00",
            "insert +5",
            "insert -5",
            "insert 5.0",
            "insert 0x5",
            "insert 5\r",
            "insert\t5",
            "Insert 5",
            "inserts 5",
            "insert 18446744073709551616",
            "insert 99999999999999999999999999999999999999999",
            "set 5 1 2",
            "set 5 1 2 3 4",
            "ask",
            "counter",
            "counter 01",
            "# done",
            "90",
            "0008",
            "insert ٥",
        ];
        for text in listed {
            assert_eq!(parse(text.as_bytes()), None, "{}", text);
        }
        assert_eq!(parse(b"ask \xff"), None);
        assert_eq!(parse(b"ask 5\0"), None);
    }

    #[test]
    fn findings_in_words() {
        let record = Record { revision: 1, mass_kg: 61_400, offset_mm: 1_250, rigging: TOP };
        let listed = [
            (Finding::Record { item: 5, record }, "# record 5 1 61400 1250 18446744073709551615\n"),
            (Finding::Empty { item: 5 }, "# empty 5\n"),
            (Finding::Gap { item: 5, next: 9 }, "# gap 5 9\n"),
            (Finding::None { q: 7 }, "# none 7\n"),
        ];
        for (finding, text) in listed {
            assert_eq!(line(&Say::Found(finding)), text.as_bytes());
        }
    }
}
