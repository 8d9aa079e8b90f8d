//! A request in words: what it wants of the module, and whether any module could
//! accept it. What the tablet sends with a request is its claim, so memoranda
//! "should show" things here.
//!
//! The protocol's paper, 5.1 and 5.2: the table of kinds and the rules under it.

use super::replies::wrong_with;
use super::words::{
    change, count, hash_of_record, leaf, list, load, memo, memos, neighbours, one, record, root,
    roots, spot, two,
};
use super::{kind_of, KINDS};
use reference::frames::Request;
use reference::module::{
    check_clear, check_gap, check_mass, check_numbers, check_record, ZERO_SECRET,
};
use reference::strings::{Digest, Record, ZERO};

pub fn sentence(request: &Request) -> String {
    let (name, _) = KINDS[usize::from(kind_of(request)) - 1];
    format!("{}: {}{}.", name, wants(request), warning(request))
}

fn wants(request: &Request) -> String {
    match request {
        Request::Path { x, x_new, sides, siblings } => path(&change(x, x_new), *sides, siblings),
        Request::Witness { x, y, m } => {
            format!("certify that {} stands above {}, as {} should show", spot(y), spot(x), memo(m))
        }
        Request::Join { low, m1, z, z_new, m2 } => {
            let way = format!("{} under {}", one(low), change(z, z_new));
            format!("make two steps up one, {}, as {} should show", way, memos(m1, m2))
        }
        Request::Pair { first, m1, second, m2 } => {
            let both = format!("{} on the left and {} on the right", one(first), one(second));
            format!("put two changes side by side, {}, as {} should show", both, memos(m1, m2))
        }
        Request::Raise { low, m1, z, z_new, m2 } => {
            let way = format!("{} under {}", two(low), change(z, z_new));
            format!("carry two changes further up, {}, as {} should show", way, memos(m1, m2))
        }
        Request::Swap { x1, x2, y, y_new, m } => {
            let places = format!("exchange the places of {} and {}", spot(x1), spot(x2));
            format!("{}, {}", places, roots(y, y_new, m))
        }
        Request::First { item } => format!("allow item {} to be the first in the empty list", item),
        Request::Place { item, next, after, hash, y, y_new, m } => {
            let between = format!("item {} ({}) and item {}", item, hash_of_record(hash), after);
            let taken = format!("item {} without a record to be taken out between", next);
            format!("allow {} {}, {}", taken, between, roots(y, y_new, m))
        }
        Request::Turn { x, y, m } => {
            let exchange = format!("the exchange of {} for {}", root(x), root(y));
            format!("reverse {} that {} should allow", exchange, memo(m))
        }
        Request::Chain { x, y, m1, z, m2 } => {
            let ends = format!("make one exchange of {} for {}", root(x), root(z));
            let by = format!("out of two by way of {}", root(y));
            format!("{} {} that {} should allow", ends, by, memos(m1, m2))
        }
        Request::Adopt { y, y_new, m } => {
            let ends = format!("from {} to {}", root(y), root(y_new));
            format!("change the list {}, as {} should allow", ends, memo(m))
        }
        Request::Set { item, next, old, values, y, y_new, m } => {
            let given = format!("give {} {}", leaf(*item, *next), load(*values));
            format!("{} in place of {}, {}", given, record(old), roots(y, y_new, m))
        }
        Request::Clear { item, next, old, y, y_new, m } => {
            let taken = format!("take {} away from {}", record(old), leaf(*item, *next));
            format!("{}, {}", taken, roots(y, y_new, m))
        }
        Request::Ask { q, item, next, record, y, m } => {
            let question = question(*q, *item, *next, record);
            format!("find whether {}, in {}, as {} should show", question, list(y), memo(m))
        }
        Request::AskNone { q } => {
            format!("find whether item {} is not listed because nothing is", q)
        }
        // The secret itself must not come to light.
        Request::Open { .. } => {
            "open the module with the secret this line carries, which is not shown".to_string()
        }
    }
}

fn path(from: &str, sides: u64, siblings: &[Digest]) -> String {
    let (all, left) = (siblings.len(), sides.count_ones() as usize);
    let past = match all {
        0 => "no siblings".to_string(),
        _ => {
            let right = all - left;
            format!("{}, {} on the left and {} on the right", count(all, "sibling"), left, right)
        }
    };
    format!("work out what stands above {}, past {}", from, past)
}

fn question(q: u64, item: u64, next: u64, held: &Record) -> String {
    if q == item {
        format!("{} has {}", leaf(item, next), record(held))
    } else {
        let with_record = format!("item {} ({})", item, record(held));
        format!("item {} is not listed because {}", q, neighbours(item, &with_record, next))
    }
}

/// The refusal, if any, that a request gets from every open module (from every closed
/// one, if it is an open) whatever its registers hold.
pub fn certain_refusal(request: &Request) -> Option<u8> {
    if matches!(request, Request::Open { secret } if *secret == ZERO) {
        return Some(ZERO_SECRET);
    }
    let checked = check_numbers(request)
        .and_then(|()| check_record(request))
        .and_then(|()| check_mass(request))
        .and_then(|()| check_gap(request))
        .and_then(|()| check_clear(request));
    checked.err()
}

/// Said at the end of a request that no module accepts.
fn warning(request: &Request) -> String {
    match certain_refusal(request) {
        Some(number) => {
            let wrong = wrong_with(number, Some(request));
            format!(" – no module accepts this (refusal {}: {})", number, wrong)
        }
        None => String::new(),
    }
}
