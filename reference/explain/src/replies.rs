//! A reply in words, told as the answer to its request. What can be told without the
//! module's registers is compared with the request: a reply that cannot be the one to
//! that request is said to be bad.
//!
//! The protocol's paper, section 5 (the table of kinds, and the rules under it) and section 6
//! (the refusals).

use super::requests::certain_refusal;
use super::words::{change, kilograms, load, memo, neighbours, now, number, record};
use super::{kind_of, kind_words, wrong_length, Bad};
use reference::frames::{Request, BAD_LENGTH, BAD_LINE, NO_SPACE, UNKNOWN_KIND};
use reference::module::{
    ALREADY_OPEN, CLEAR_OF_EMPTY, COUNTER_AT_TOP, FIRST_MEMORANDUM, MALFORMED, NOT_IN_GAP,
    NOT_OPEN, SECOND_MEMORANDUM, SENSIBLE_KG, SILLY_MASS, STALE, ZERO_NUMBER, ZERO_SECRET,
};
use reference::strings::{Digest, Formed, Record};

/// The sentence for a reply, or why it is bad.
pub(super) fn sentence(asked: &Result<Request, Bad>, reply: &[u8]) -> Result<String, String> {
    match (asked, reply) {
        (_, []) => Err("it is empty".to_string()),
        (_, [0, fields @ ..]) => refusal(asked, fields),
        (_, [kind, ..]) if !(0x81..=0x90).contains(kind) => {
            Err(format!("no reply begins with {:02x}", kind))
        }
        (Ok(request), [kind, fields @ ..]) => answer(request, *kind, fields),
        (Err(bad), _) => Err(never_accepted("that line", bad.refusal)),
    }
}

fn never_accepted(what: &str, number: u8) -> String {
    format!("it accepts {}, which no module does (refusal {})", what, number)
}

// Refusals.

fn refusal(asked: &Result<Request, Bad>, fields: &[u8]) -> Result<String, String> {
    let number = match fields {
        [number] => *number,
        _ => return Err(wrong_length("a refusal", 2, 1 + fields.len())),
    };
    let (request, fits) = match asked {
        Ok(request) => (Some(request), may_get(request, number)),
        Err(bad) => (None, number == bad.refusal),
    };
    match what_to_do(number, request) {
        // A module hands 15 to its caller and writes nothing.
        None if number == NO_SPACE => {
            let meaning = "too little room for a reply: lend 195 bytes or more";
            Err(format!("refusal 15 ({}) is never written as a line", meaning))
        }
        None => Err(format!("there is no refusal {}", number)),
        Some(_) if !fits => Err(format!("refusal {} does not belong to that request", number)),
        Some(advice) => {
            let wrong = wrong_with(number, request);
            let lift = if warns_of_lift(number, request) { " – do not lift by it" } else { "" };
            Ok(format!("Refused ({}): {}{}; {}.", number, wrong, lift, advice))
        }
    }
}

/// Whether a request that is no bad line can get that refusal. One that the checks of
/// its own numbers stop gets to none of the later checks.
fn may_get(request: &Request, number: u8) -> bool {
    let kind = kind_of(request);
    match (number, certain_refusal(request)) {
        (NOT_OPEN, _) => kind != 0x10,
        (ALREADY_OPEN, _) => kind == 0x10,
        (_, Some(certain)) => number == certain,
        (COUNTER_AT_TOP, _) => matches!(kind, 0x0c | 0x0d),
        (FIRST_MEMORANDUM, _) => !matches!(kind, 0x01 | 0x07 | 0x0f | 0x10),
        (SECOND_MEMORANDUM, _) => carries_two(request),
        (STALE, _) => (0x0b..=0x0f).contains(&kind),
        _ => false,
    }
}

fn carries_two(request: &Request) -> bool {
    matches!(kind_of(request), 0x03 | 0x04 | 0x05 | 0x0a)
}

/// What was wrong, for each number of the table.
pub fn wrong_with(number: u8, request: Option<&Request>) -> String {
    let fixed = match (number, request) {
        (NOT_IN_GAP, Some(Request::Place { item, next, after, .. })) => {
            return format!("item {} does not lie between item {} and item {}", next, item, after)
        }
        (NOT_IN_GAP, Some(Request::Ask { q, item, next, .. })) => {
            return format!("item {} with item {} next says nothing about item {}", item, next, q)
        }
        (SILLY_MASS, Some(Request::Set { values: [0, ..], .. })) => "0 kg is no load's mass",
        (SILLY_MASS, Some(Request::Set { values: [mass_kg, ..], .. })) => {
            let most = kilograms(*SENSIBLE_KG.end());
            return format!("{} is above {}, which no load is", kilograms(*mass_kg), most);
        }
        (FIRST_MEMORANDUM, Some(request)) if !carries_two(request) => {
            let sent = about("about", request);
            return format!("the memorandum does not fit what the tablet sent{}", sent);
        }
        (STALE, Some(request)) => {
            return format!("the copy the tablet used{} is stale", about("for", request))
        }
        (BAD_LINE, _) => "that is no line of hexadecimal",
        (UNKNOWN_KIND, _) => "there is no such kind of request",
        (BAD_LENGTH, _) => "the request is cut short, too long or at odds with itself",
        (ZERO_NUMBER, _) => "item number 0 does not exist",
        (MALFORMED, _) => "a record without a revision may hold nothing else",
        (COUNTER_AT_TOP, _) => "the change counter is used up",
        (FIRST_MEMORANDUM, _) => "the first memorandum does not fit what the tablet sent",
        (SECOND_MEMORANDUM, _) => "the second memorandum does not fit what the tablet sent",
        (CLEAR_OF_EMPTY, _) => "the item has no record, so there is nothing to clear",
        (ZERO_SECRET, _) => "the secret is all zero",
        (NOT_OPEN, _) => "the module is not open",
        (ALREADY_OPEN, _) => "the module is open already, and it opens only once",
        _ => "the module does not accept it",
    };
    fixed.to_string()
}

/// What to do about a refusal; none for a number that no reply line has.
fn what_to_do(number: u8, request: Option<&Request>) -> Option<&'static str> {
    let advice = match number {
        BAD_LINE => "send an even number of digits 0-9 and a-f, at most 4,244",
        UNKNOWN_KIND => "use one of the kinds 01 to 10",
        BAD_LENGTH => "send it again, whole",
        ZERO_NUMBER => "use item numbers above 0",
        MALFORMED => "fetch the present record and ask again",
        // Who types 0 may mean that the weight is withdrawn.
        SILLY_MASS if matches!(request, Some(Request::Set { values: [0, ..], .. })) => {
            "give the mass in kilograms, or clear the record"
        }
        SILLY_MASS => "give the mass in kilograms, and not in grams",
        NOT_IN_GAP => "send its true neighbours in the list, or the item itself when asking",
        COUNTER_AT_TOP => "no record can be changed any more, so replace the module",
        FIRST_MEMORANDUM | SECOND_MEMORANDUM => {
            "have the memorandum made again from the present records"
        }
        STALE => "fetch the present records and ask again",
        CLEAR_OF_EMPTY => "leave it as it is",
        ZERO_SECRET => "open the module with a secret that is not",
        NOT_OPEN => "open it with its secret first",
        ALREADY_OPEN => "go on without opening it",
        _ => return None,
    };
    Some(advice)
}

/// Refusals after which somebody might still lift by what the tablet shows.
fn warns_of_lift(number: u8, request: Option<&Request>) -> bool {
    let asked = matches!(request, Some(Request::Ask { .. }));
    number == STALE || asked && matches!(number, MALFORMED | FIRST_MEMORANDUM)
}

/// The item that a request on one item is about, with the mass the tablet has for it.
fn about(word: &str, request: &Request) -> String {
    let (item, held) = match request {
        Request::Ask { q, item, record, .. } if q == item => (*q, *record),
        Request::Ask { q, .. } | Request::AskNone { q } => (*q, Record::EMPTY),
        Request::Set { item, old, .. } | Request::Clear { item, old, .. } => (*item, *old),
        Request::Place { next, .. } => (*next, Record::EMPTY),
        _ => return String::new(),
    };
    if held.is_empty() {
        format!(" {} item {}", word, item)
    } else {
        format!(" {} item {} ({})", word, item, kilograms(held.mass_kg))
    }
}

// Answers that are no refusals.

fn answer(request: &Request, kind: u8, fields: &[u8]) -> Result<String, String> {
    let (asked, answered) = (kind_of(request), kind - 0x80);
    if answered != asked {
        let (asked, answered) = (kind_words(asked), kind_words(answered));
        return Err(format!("it answers {}, and the request was of {}", answered, asked));
    }
    if let Some(number) = certain_refusal(request) {
        return Err(never_accepted("that request", number));
    }
    let length = answer_length(request, fields)?;
    if fields.len() != length {
        let what = format!("an answer to {}", kind_words(asked));
        return Err(wrong_length(&what, 1 + length, 1 + fields.len()));
    }
    answer_words(request, fields).map(|told| format!("Answer: {}.", told))
}

/// Bytes behind the kind that the answer to a request has. A finding's length is told
/// by its number.
fn answer_length(request: &Request, fields: &[u8]) -> Result<usize, String> {
    match (request, fields.first()) {
        (Request::Path { .. }, _) => Ok(96),
        (Request::Set { .. } | Request::Clear { .. }, _) => Ok(40),
        (Request::Ask { .. }, Some(1)) => Ok(41),
        (Request::Ask { .. }, Some(2)) => Ok(9),
        (Request::Ask { .. }, Some(3)) => Ok(17),
        (Request::Ask { .. }, Some(number)) => {
            Err(format!("there is no finding {}, only 1, 2 and 3", number))
        }
        (Request::Ask { .. }, None) => Err("it holds no finding".to_string()),
        (Request::AskNone { .. }, _) => Ok(8),
        (Request::Open { .. }, _) => Ok(0),
        _ => Ok(32),
    }
}

/// What an answer of the right length says, or why it does not belong to the request.
fn answer_words(request: &Request, fields: &[u8]) -> Result<String, String> {
    match request {
        Request::Path { x, x_new, sides, siblings } => {
            let above = [fold(*x, *sides, siblings), fold(*x_new, *sides, siblings)];
            path_words(above, fields)
        }
        Request::Adopt { y_new, .. } => {
            check_new_root(y_new, fields)?;
            Ok(format!("done, {}, and no record has changed", now(y_new)))
        }
        Request::Set { item, values, y_new, .. } => {
            let counter = raised_counter(y_new, fields)?;
            let held = format!("revision {}, {}", counter, load(*values));
            Ok(changed(y_new, counter, *item, &held))
        }
        Request::Clear { item, y_new, .. } => {
            Ok(changed(y_new, raised_counter(y_new, fields)?, *item, "no record"))
        }
        Request::Ask { q, item, next, record, .. } => {
            let (expected, told) = finding(*q, *item, *next, record);
            if fields == expected {
                Ok(told)
            } else {
                Err("its finding does not belong to that request – do not lift by it".to_string())
            }
        }
        Request::AskNone { q } if number(fields) != *q => {
            Err("it names another item than the request".to_string())
        }
        Request::AskNone { q } => Ok(format!("item {} is not listed because nothing is", q)),
        Request::Open { .. } => Ok("the module is open".to_string()),
        _ => Ok(issued(fields, &granted(request))),
    }
}

fn issued(memorandum: &[u8], what_for: &str) -> String {
    format!("the module issues {} {}, and the list stays as it is", memo(memorandum), what_for)
}

/// What the memorandum is for that a request is answered with.
fn granted(request: &Request) -> String {
    let fixed = match request {
        Request::First { item } => return format!("for item {} as the first", item),
        Request::Place { next, .. } => return format!("for taking item {} out", next),
        Request::Witness { .. } => "that the one stands above the other",
        Request::Join { .. } => "for the two steps up as one",
        Request::Pair { .. } => "for the two changes side by side",
        Request::Raise { .. } => "for the two changes further up",
        Request::Swap { .. } => "for exchanging the two places",
        Request::Turn { .. } => "for the exchange turned round",
        Request::Chain { .. } => "for the two exchanges as one",
        _ => "for this",
    };
    fixed.to_string()
}

fn path_words(above: [Digest; 2], fields: &[u8]) -> Result<String, String> {
    let (named, memorandum) = fields.split_at(64);
    if named != above.concat() {
        return Err("it names other digests than that path leads to".to_string());
    }
    let [y, y_new] = above;
    Ok(issued(memorandum, &format!("that {} stands above it", change(&y, &y_new))))
}

/// What stands above a digest, past all siblings of a path.
fn fold(x: Digest, sides: u64, siblings: &[Digest]) -> Digest {
    let mut formed = Formed::new();
    siblings.iter().enumerate().fold(x, |below, (level, sibling)| {
        if sides >> level & 1 == 1 {
            formed.parent(*sibling, below)
        } else {
            formed.parent(below, *sibling)
        }
    })
}

fn check_new_root(wanted: &Digest, named: &[u8]) -> Result<(), String> {
    if named == wanted {
        Ok(())
    } else {
        Err("it names another root than the request leads to".to_string())
    }
}

/// The counter in the answer to a set or clear, behind the new root.
fn raised_counter(y_new: &Digest, fields: &[u8]) -> Result<u64, String> {
    let (root, counter) = fields.split_at(32);
    check_new_root(y_new, root)?;
    match number(counter) {
        0 => Err("it names change counter 0, and a raised one is above 0".to_string()),
        counter => Ok(counter),
    }
}

fn changed(y_new: &Digest, counter: u64, item: u64, held: &str) -> String {
    let list = now(y_new);
    format!("done, {}, the change counter is {}, and item {} has {}", list, counter, item, held)
}

/// The one finding that an ask can be answered with: its fields, and what they say.
fn finding(q: u64, item: u64, next: u64, held: &Record) -> (Vec<u8>, String) {
    if q != item {
        let gap = neighbours(item, &format!("item {}", item), next);
        (fields(3, &[item, next]), format!("item {} is not listed because {}", q, gap))
    } else if held.is_empty() {
        let nothing = "is listed and has no record, so there is no mass to lift by";
        (fields(2, &[item]), format!("item {} {}", item, nothing))
    } else {
        let vouched = format!("the module vouches that item {} has {}", item, record(held));
        (fields(1, &[&[item][..], &held.numbers()].concat()), vouched)
    }
}

/// The number of a finding, and the numbers behind it.
fn fields(finding: u8, numbers: &[u64]) -> Vec<u8> {
    let behind = numbers.iter().flat_map(|number| number.to_be_bytes());
    [finding].into_iter().chain(behind).collect()
}
