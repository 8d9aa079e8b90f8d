//! Replies that are damaged, refused, or of another kind: the wish ends, and nothing changes.

#![forbid(unsafe_code)]

mod common;

use common::{begin, ended, for_module, text, Cab};
use tablet::keeper::{Keeper, Say};

const OTHERWISE: &str = "# module spoke otherwise";

/// One wish of each kind that has lines of its own, and what was done before it.
const WISHES: &[(&[&str], &str)] = &[
    (&[], "insert 5"),
    (&["insert 5"], "insert 9"),
    (&["insert 5", "insert 9", "set 5 1 2 3"], "insert 7"),
    (&["insert 5"], "remove 5"),
    (&["insert 5", "insert 9"], "remove 9"),
    (&["insert 5", "insert 9", "insert 7", "set 7 1 2 3"], "remove 9"),
    (&["insert 5", "insert 9"], "set 9 61400 1250 3"),
    (&["insert 5", "insert 9", "set 9 61400 1250 3"], "clear 9"),
    (&["insert 5", "set 5 61400 1250 3"], "ask 5"),
    (&["insert 5"], "ask 5"),
    (&["insert 5", "insert 9"], "ask 7"),
    (&[], "ask 7"),
];

/// A keeper that awaits a reply, its module after the line, and the reply.
struct Awaiting {
    keeper: Keeper,
    cab: Cab,
    reply: Vec<u8>,
}

/// Every moment of a wish at which a reply is awaited.
fn moments(before: &[&str], wish: &str) -> Vec<Awaiting> {
    let mut cab = Cab::after(before);
    let mut moments = Vec::new();
    let mut told = begin(&mut cab.keeper, wish.as_bytes());
    while let Some(line) = for_module(&told) {
        let reply = cab.reply(&line);
        moments.push(Awaiting {
            keeper: cab.keeper.clone(),
            cab: cab.clone(),
            reply: reply.clone(),
        });
        told = tablet::words::line(&cab.keeper.hear(&reply).say);
    }
    assert!(!text(&told).starts_with("# module"), "{}", told.len());
    moments
}

fn every_moment() -> Vec<Awaiting> {
    WISHES.iter().flat_map(|(before, wish)| moments(before, wish)).collect()
}

/// The digits of a reply that the keeper cannot know: the memorandum at its end.
fn unknown(reply: &[u8]) -> usize {
    match &reply[..2] {
        b"8b" | b"8c" | b"8d" | b"8e" | b"8f" => 0,
        _ => 64,
    }
}

/// Sees that a line ends the wish with these words and leaves all as it was.
fn ends(moment: &Awaiting, line: &[u8], words: &str) {
    let mut keeper = moment.keeper.clone();
    let heard = keeper.hear(line);
    assert!(ended(&heard, words), "{:?} to {:?}", heard, text(&moment.reply));
    as_before(&keeper, &moment.keeper);
    assert!(!keeper.awaits());
}

fn as_before(keeper: &Keeper, before: &Keeper) {
    assert_eq!(keeper.leaves(), before.leaves());
    assert_eq!(keeper.root(), before.root());
    assert_eq!(keeper.counter(), before.counter());
    let mut loaded = Keeper::load(&tablet::store::bytes(keeper.leaves())).unwrap();
    loaded.set_counter(keeper.counter());
    assert_eq!(loaded.root(), keeper.root());
}

#[test]
fn every_kind_of_reply_is_met() {
    let mut kinds: Vec<String> =
        every_moment().iter().map(|moment| text(&moment.reply[..2])).collect();
    kinds.sort();
    kinds.dedup();
    let all = ["81", "82", "84", "85", "86", "87", "88", "89", "8b", "8c", "8d", "8e", "8f"];
    assert_eq!(kinds, all);
}

/// Every byte of every reply, changed to no digit: the keeper says so at once.
#[test]
fn a_byte_that_is_no_digit() {
    for moment in every_moment() {
        for place in 0..moment.reply.len() {
            for byte in [b'A', b'g', b' ', b'\r', 0, 0xff, moment.reply[place] ^ 0x80] {
                let mut reply = moment.reply.clone();
                reply[place] = byte;
                ends(&moment, &reply, OTHERWISE);
            }
        }
    }
}

/// Every digit of every reply, changed to another: what the keeper can know, it sees at once; a
/// memorandum it cannot, and then the module refuses a later line. Nothing changes either way.
#[test]
fn a_digit_that_is_another() {
    for moment in every_moment() {
        let known = moment.reply.len() - unknown(&moment.reply);
        for place in 0..moment.reply.len() {
            for flip in [1, 2, 4] {
                let mut reply = moment.reply.clone();
                reply[place] = flipped(reply[place], flip);
                if place < known {
                    ends(&moment, &reply, OTHERWISE);
                } else {
                    goes_wrong_later(&moment, &reply);
                }
            }
        }
    }
}

/// The digit with one bit of its value turned over.
fn flipped(digit: u8, bit: u8) -> u8 {
    let value = (digit as char).to_digit(16).unwrap() as u8 ^ bit;
    char::from_digit(u32::from(value), 16).unwrap() as u8
}

/// Goes on with a wrong memorandum: the module refuses the line that carries it.
fn goes_wrong_later(moment: &Awaiting, reply: &[u8]) {
    let (mut keeper, mut cab) = (moment.keeper.clone(), moment.cab.clone());
    let root = cab.module.clone();
    let mut heard = keeper.hear(reply);
    while let Say::Line(line) = &heard.say {
        assert!(!heard.changed);
        let reply = cab.reply(&line[..line.len() - 1]);
        heard = keeper.hear(&reply);
    }
    assert!(matches!(heard.say, Say::Refused(8 | 9)), "{:?}", heard);
    assert!(!heard.changed);
    as_before(&keeper, &moment.keeper);
    assert_eq!(cab.module, root);
}

#[test]
fn a_reply_that_is_longer_or_shorter() {
    for moment in every_moment() {
        let reply = &moment.reply;
        for length in 0..reply.len() {
            ends(&moment, &reply[..length], OTHERWISE);
        }
        for more in [&b"0"[..], b"00", b"\r", b" ", &[b'0'; 64], &[b'a'; 5000]] {
            ends(&moment, &[reply, more].concat(), OTHERWISE);
            ends(&moment, &[more, reply].concat(), OTHERWISE);
        }
    }
}

#[test]
fn a_refusal_of_the_table_and_none_of_it() {
    for moment in every_moment() {
        for number in 0..=255 {
            let line = format!("00{:02x}", number);
            if (1..=16).contains(&number) {
                ends(&moment, line.as_bytes(), &format!("# module refused {}", number));
            } else {
                ends(&moment, line.as_bytes(), OTHERWISE);
            }
        }
    }
}

/// A wish, words, or the reply to another line.
#[test]
fn other_lines_where_a_reply_is_awaited() {
    let moments = every_moment();
    for moment in &moments {
        for line in ["", "insert 5", "ask 5", "counter 1", "# done", "what?", "90", "81", "0000"] {
            ends(moment, line.as_bytes(), OTHERWISE);
        }
        for other in &moments {
            let other = &other.reply;
            let same = moment.reply.len() - unknown(&moment.reply);
            if other.len() != moment.reply.len() || other[..same] != moment.reply[..same] {
                ends(moment, other, OTHERWISE);
            }
        }
    }
}

/// A wish that ended so can be wished again, where the module did not change.
#[test]
fn the_wish_is_done_when_it_is_wished_again() {
    for (before, wish) in WISHES {
        let expected = Cab::after(before).wish(wish);
        for moment in moments(before, wish) {
            let mut cab = Cab { keeper: moment.keeper.clone(), ..moment.cab.clone() };
            cab.keeper.hear(b"");
            if cab.keeper.root() == cab.module.root && cab.keeper.counter() == cab.module.counter {
                assert_eq!(cab.wish(wish), expected);
                cab.agrees();
            } else {
                // The lost reply was that to a committing line: all else is stale from now on.
                assert!(matches!(&moment.reply[..2], b"8b" | b"8c" | b"8d"));
                assert_eq!(cab.wish("ask 5"), "# module refused 10");
            }
        }
    }
}

/// Between the two adopts of a remove the list is the old one, and keeper and module agree.
#[test]
fn a_remove_that_ends_between_its_adopts() {
    let mut cab = Cab::after(&["insert 5", "insert 9", "insert 7", "set 7 1 2 3"]);
    let store = cab.store();
    let mut told = begin(&mut cab.keeper, b"remove 5");
    let mut changed = Vec::new();
    for _ in 0..7 {
        let reply = cab.reply(&for_module(&told).unwrap());
        let heard = cab.keeper.hear(&reply);
        changed.push(heard.changed);
        told = tablet::words::line(&heard.say);
    }
    assert_eq!(changed, [false, false, false, false, false, false, true]);
    cab.agrees();
    assert!(ended(&cab.keeper.hear(b"0008"), "# module refused 8"));
    assert_ne!(cab.store(), store);
    let lines = |store: &[u8]| store.split(|b| *b == b'\n').map(<[u8]>::to_vec).collect::<Vec<_>>();
    let (old, new) = (lines(&store), lines(&cab.store()));
    assert_eq!([&new[2], &new[1], &new[0]], [&old[0], &old[1], &old[2]]);
    cab.reload();
    assert_eq!(cab.wish("ask 5"), "# empty 5");
    assert_eq!(cab.wish("remove 5"), "# done");
    assert_eq!(cab.said.len(), 7);
    cab.agrees();
}

/// A clear by a wrong counter: the module takes it, but its reply has another counter.
#[test]
fn a_clear_by_a_wrong_counter_is_told_and_changes_nothing_here() {
    let mut cab = Cab::after(&["insert 5", "set 5 1 2 3"]);
    assert_eq!(cab.wish("counter 7"), "# done");
    let before = cab.keeper.clone();
    assert_eq!(cab.wish("clear 5"), OTHERWISE);
    as_before(&cab.keeper, &before);
    assert_eq!(cab.wish("ask 5"), "# module refused 10");
}

#[test]
fn a_reply_where_none_is_awaited_is_no_reply() {
    let mut cab = Cab::after(&["insert 5"]);
    let before = cab.keeper.clone();
    assert!(ended(&cab.keeper.hear(b"0008"), OTHERWISE));
    as_before(&cab.keeper, &before);
}
