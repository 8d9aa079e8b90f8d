//! An honest keeper: it holds the tree and makes the lines for each legal change
//! and each question, every line from the replies before it.
//!
//! The protocol's paper, sections 5 and 7: honest lines, which carry no
//! memorandum that the run has not issued. Trees may be deeper than the 64 levels of one path: longer ways up
//! are several paths put together by `join`.

use crate::tree::{leaf_digest, Level, Place, Spot, Tree};
use reference::frames::{unhex, Request, MOST_SIBLINGS};
use reference::module::SENSIBLE_KG;
use reference::strings::{Digest, Formed, One, Record, Two, ZERO};
use std::rc::Rc;

/// Whoever answers lines: given a line without its 0A, gives the reply line.
pub trait Module {
    fn reply(&mut self, line: &[u8]) -> Vec<u8>;
}

/// Why an honest run stopped.
#[derive(Clone, Debug, PartialEq, Eq)]
pub enum Fault {
    /// The module refused a line.
    Refused(u8),
    /// The module's reply is not one that the paper gives that request.
    BadReply,
    /// The change is not legal, or the question is on number 0.
    NotLegal,
}

/// A U1 with its memorandum.
#[derive(Clone, Copy, Debug)]
pub struct Lifted {
    pub change: One,
    pub m: Digest,
}

/// An EI with its memorandum: the root `from` may become the root `to`.
#[derive(Clone, Copy, Debug, PartialEq, Eq)]
pub struct Exchange {
    pub from: Digest,
    pub to: Digest,
    pub m: Digest,
}

/// What the module said to a question.
#[derive(Clone, Copy, Debug, PartialEq, Eq)]
pub enum Finding {
    Recorded { item: u64, record: Record },
    ListedEmpty { item: u64 },
    Gap { item: u64, next: u64 },
    NothingListed,
}

/// The keeper's memory. It changes only when the module has accepted the last
/// line of a change.
#[derive(Clone, Debug, Default)]
pub struct Keeper {
    pub tree: Rc<Tree>,
    pub counter: u64,
}

impl Keeper {
    pub fn new() -> Keeper {
        Keeper::default()
    }

    /// Lists a number not listed yet, at a spot of the tree.
    pub fn insert(&mut self, module: &mut dyn Module, item: u64, spot: Spot) -> Result<(), Fault> {
        let (exchange, after) = insertion(module, &self.tree, item, spot)?;
        self.adopt(module, exchange, after)
    }

    /// Takes out a listed item without a record.
    pub fn remove(&mut self, module: &mut dyn Module, item: u64) -> Result<(), Fault> {
        let (exchange, after) = removal(module, &self.tree, item)?;
        self.adopt(module, exchange, after)
    }

    /// Swaps the places of two listed items.
    pub fn swap(&mut self, module: &mut dyn Module, a: u64, b: u64) -> Result<(), Fault> {
        let place = |item| self.tree.place_of(item).ok_or(Fault::NotLegal);
        let (exchange, after) = swapping(module, &self.tree, place(a)?, place(b)?)?;
        self.adopt(module, exchange, after)
    }

    /// Gives a listed item a record: mass, which may not be silly, offset and rigging code.
    pub fn set(
        &mut self,
        module: &mut dyn Module,
        item: u64,
        values: [u64; 3],
    ) -> Result<(), Fault> {
        let [mass_kg, offset_mm, rigging] = values;
        if !SENSIBLE_KG.contains(&mass_kg) {
            return Err(Fault::NotLegal);
        }
        let revision = self.counter.checked_add(1).ok_or(Fault::NotLegal)?;
        let new = Record { revision, mass_kg, offset_mm, rigging };
        let (lifted, after) = record_change(module, &self.tree, item, new)?;
        let next = self.tree.next_of(item).ok_or(Fault::NotLegal)?;
        let old = self.tree.record(item);
        let One { y, y_new, .. } = lifted.change;
        let request = Request::Set { item, next, old, values, y, y_new, m: lifted.m };
        self.change_record(module, &request, after)
    }

    /// Clears a recorded item's record.
    pub fn clear(&mut self, module: &mut dyn Module, item: u64) -> Result<(), Fault> {
        let old = self.tree.record(item);
        if old.is_empty() {
            return Err(Fault::NotLegal);
        }
        let (lifted, after) = record_change(module, &self.tree, item, Record::EMPTY)?;
        let next = self.tree.next_of(item).ok_or(Fault::NotLegal)?;
        let One { y, y_new, .. } = lifted.change;
        let request = Request::Clear { item, next, old, y, y_new, m: lifted.m };
        self.change_record(module, &request, after)
    }

    /// Asks on any number above 0.
    pub fn ask(&self, module: &mut dyn Module, q: u64) -> Result<Finding, Fault> {
        if q == 0 {
            return Err(Fault::NotLegal);
        }
        let item = match self.tree.holder_of(q) {
            Some(item) => item,
            None => return ask_none(module, q),
        };
        let place = self.tree.place_of(item).ok_or(Fault::NotLegal)?;
        let next = self.tree.next_of(item).ok_or(Fault::NotLegal)?;
        let record = self.tree.record(item);
        let x = self.tree.digest(place);
        let lifted = lift(module, x, x, &self.tree.way_up(place, self.tree.top()))?;
        let y = lifted.change.y;
        let m = memorandum(module, &Request::Witness { x, y, m: lifted.m })?;
        let reply = exchange_frames(module, &Request::Ask { q, item, next, record, y, m })?;
        finding_of(&reply).ok_or(Fault::BadReply)
    }

    /// Sends the adopt of an exchange and, if it is accepted, keeps the tree it
    /// leads to.
    pub fn adopt(
        &mut self,
        module: &mut dyn Module,
        exchange: Exchange,
        after: Tree,
    ) -> Result<(), Fault> {
        let Exchange { from, to, m } = exchange;
        let reply = exchange_frames(module, &Request::Adopt { y: from, y_new: to, m })?;
        if reply != to || after.root() != to {
            return Err(Fault::BadReply);
        }
        self.tree = Rc::new(after);
        Ok(())
    }

    fn change_record(
        &mut self,
        module: &mut dyn Module,
        request: &Request,
        after: Tree,
    ) -> Result<(), Fault> {
        let reply = exchange_frames(module, request)?;
        let raised = self.counter + 1;
        if reply != [&after.root()[..], &raised.to_be_bytes()].concat() {
            return Err(Fault::BadReply);
        }
        self.counter = raised;
        self.tree = Rc::new(after);
        Ok(())
    }
}

/// The lines that allow an insertion, and the tree after it. In the empty list
/// the number is the first; else the tree with the number is made, the place of
/// it back to the tree without it, and that turned round.
pub fn insertion(
    module: &mut dyn Module,
    tree: &Tree,
    item: u64,
    spot: Spot,
) -> Result<(Exchange, Tree), Fault> {
    if item == 0 || tree.place_of(item).is_some() {
        return Err(Fault::NotLegal);
    }
    let after = tree.with_inserted(item, spot);
    if tree.is_empty() {
        return Ok((first(module, item)?, after));
    }
    let back = place(module, &after, item)?;
    Ok((turn(module, back)?, after))
}

/// The lines that allow a removal, and the tree after it. The only item leaves by
/// `first` turned round.
pub fn removal(module: &mut dyn Module, tree: &Tree, item: u64) -> Result<(Exchange, Tree), Fault> {
    if tree.place_of(item).is_none() || !tree.record(item).is_empty() {
        return Err(Fault::NotLegal);
    }
    let exchange = if tree.len() == 1 {
        let added = first(module, item)?;
        turn(module, added)?
    } else {
        place(module, tree, item)?
    };
    Ok((exchange, tree.without(item)))
}

/// The lines that allow what stands at two separate places to be exchanged, and
/// the tree after it.
pub fn swapping(
    module: &mut dyn Module,
    tree: &Tree,
    a: Place,
    b: Place,
) -> Result<(Exchange, Tree), Fault> {
    let (two, m) = two_places(module, tree, [a, b], [tree.digest(b), tree.digest(a)])?;
    let Two { x1, x2, y, y_new, .. } = two;
    let m = memorandum(module, &Request::Swap { x1, x2, y, y_new, m })?;
    Ok((Exchange { from: y, to: y_new, m }, tree.with_exchanged(a, b)))
}

/// Two exchanges, one after the other, as one.
pub fn chain(
    module: &mut dyn Module,
    first: Exchange,
    second: Exchange,
) -> Result<Exchange, Fault> {
    let (x, y, z) = (first.from, first.to, second.to);
    let m = memorandum(module, &Request::Chain { x, y, m1: first.m, z, m2: second.m })?;
    Ok(Exchange { from: x, to: z, m })
}

/// An exchange turned round.
pub fn turn(module: &mut dyn Module, exchange: Exchange) -> Result<Exchange, Fault> {
    let Exchange { from, to, m } = exchange;
    let m = memorandum(module, &Request::Turn { x: from, y: to, m })?;
    Ok(Exchange { from: to, to: from, m })
}

/// The exchange of the empty list for a list of one.
fn first(module: &mut dyn Module, item: u64) -> Result<Exchange, Fault> {
    let m = memorandum(module, &Request::First { item })?;
    Ok(Exchange { from: ZERO, to: leaf_digest(item, item, &Record::EMPTY), m })
}

/// The exchange that takes `item` out of a tree that lists others too: the leaf
/// before it comes to point past it, and its own leaf becomes nothing.
fn place(module: &mut dyn Module, tree: &Tree, item: u64) -> Result<Exchange, Fault> {
    let before = tree.before(item).ok_or(Fault::NotLegal)?;
    let after = tree.next_of(item).ok_or(Fault::NotLegal)?;
    let spot = |item| tree.place_of(item).ok_or(Fault::NotLegal);
    let record = tree.record(before);
    let shortened = leaf_digest(before, after, &record);
    let places = [spot(before)?, spot(item)?];
    let (two, m) = two_places(module, tree, places, [shortened, ZERO])?;
    let request = Request::Place {
        item: before,
        next: item,
        after,
        hash: Formed::new().record_hash(&record),
        y: two.y,
        y_new: two.y_new,
        m,
    };
    let m = memorandum(module, &request)?;
    Ok(Exchange { from: two.y, to: two.y_new, m })
}

/// The lines that allow a change of an item's record: the U1 from its leaf to the
/// root, and the tree after the change.
pub fn record_change(
    module: &mut dyn Module,
    tree: &Tree,
    item: u64,
    new: Record,
) -> Result<(Lifted, Tree), Fault> {
    let place = tree.place_of(item).ok_or(Fault::NotLegal)?;
    let next = tree.next_of(item).ok_or(Fault::NotLegal)?;
    let x = tree.digest(place);
    let x_new = leaf_digest(item, next, &new);
    let lifted = lift(module, x, x_new, &tree.way_up(place, tree.top()))?;
    Ok((lifted, tree.with_record(item, new)))
}

/// The U2 up to the root for changes at two separate places. `pair` puts its first
/// on the left, so the two are taken in the order they stand in the tree.
fn two_places(
    module: &mut dyn Module,
    tree: &Tree,
    places: [Place; 2],
    new: [Digest; 2],
) -> Result<(Two, Digest), Fault> {
    let meeting = tree.meeting(places[0], places[1]).ok_or(Fault::NotLegal)?;
    let order = if meeting.first_is_left { [0, 1] } else { [1, 0] };
    let [l, r] = order;
    let up_left = tree.way_up(places[l], meeting.left);
    let left = lift(module, tree.digest(places[l]), new[l], &up_left)?;
    let up_right = tree.way_up(places[r], meeting.right);
    let right = lift(module, tree.digest(places[r]), new[r], &up_right)?;
    let (low, m) = pair(module, left, right)?;
    raise(module, low, m, &tree.way_up(meeting.at, tree.top()))
}

/// The U2 up to the root for two leaves that stand, or are said to stand, under
/// one node at a place.
pub fn two_at_one_place(
    module: &mut dyn Module,
    tree: &Tree,
    place: Place,
    old: [Digest; 2],
    new: [Digest; 2],
) -> Result<(Two, Digest), Fault> {
    let left = lift(module, old[0], new[0], &[])?;
    let right = lift(module, old[1], new[1], &[])?;
    let (low, m) = pair(module, left, right)?;
    raise(module, low, m, &tree.way_up(place, tree.top()))
}

fn pair(module: &mut dyn Module, left: Lifted, right: Lifted) -> Result<(Two, Digest), Fault> {
    let (first, second) = (left.change, right.change);
    let two = Two {
        x1: first.x,
        x2: second.x,
        y: Formed::new().parent(first.y, second.y),
        x1_new: first.x_new,
        x2_new: second.x_new,
        y_new: Formed::new().parent(first.y_new, second.y_new),
    };
    let m = memorandum(module, &Request::Pair { first, m1: left.m, second, m2: right.m })?;
    Ok((two, m))
}

/// Raises a U2 over the levels above it, if there are any.
fn raise(
    module: &mut dyn Module,
    low: Two,
    m1: Digest,
    above: &[Level],
) -> Result<(Two, Digest), Fault> {
    if above.is_empty() {
        return Ok((low, m1));
    }
    let high = lift(module, low.y, low.y_new, above)?;
    let (z, z_new) = (high.change.y, high.change.y_new);
    let m = memorandum(module, &Request::Raise { low, m1, z, z_new, m2: high.m })?;
    Ok((Two { y: z, y_new: z_new, ..low }, m))
}

/// The U1 of x changed to x' over any number of levels: one path for each 64 of
/// them, joined.
fn lift(
    module: &mut dyn Module,
    x: Digest,
    x_new: Digest,
    levels: &[Level],
) -> Result<Lifted, Fault> {
    let (lowest, rest) = levels.split_at(levels.len().min(MOST_SIBLINGS));
    let mut lifted = path(module, x, x_new, lowest)?;
    for segment in rest.chunks(MOST_SIBLINGS) {
        let high = path(module, lifted.change.y, lifted.change.y_new, segment)?;
        lifted = join(module, lifted, high)?;
    }
    Ok(lifted)
}

fn path(
    module: &mut dyn Module,
    x: Digest,
    x_new: Digest,
    levels: &[Level],
) -> Result<Lifted, Fault> {
    let side = |(j, level): (usize, &Level)| u64::from(level.on_left) << j;
    let sides = levels.iter().enumerate().map(side).sum();
    let siblings = levels.iter().map(|level| level.sibling).collect();
    let reply = exchange_frames(module, &Request::Path { x, x_new, sides, siblings })?;
    match digests(&reply).as_deref() {
        Some([y, y_new, m]) => Ok(Lifted { change: One { x, y: *y, x_new, y_new: *y_new }, m: *m }),
        _ => Err(Fault::BadReply),
    }
}

fn join(module: &mut dyn Module, low: Lifted, high: Lifted) -> Result<Lifted, Fault> {
    let (z, z_new) = (high.change.y, high.change.y_new);
    let request = Request::Join { low: low.change, m1: low.m, z, z_new, m2: high.m };
    let m = memorandum(module, &request)?;
    Ok(Lifted { change: One { y: z, y_new: z_new, ..low.change }, m })
}

fn ask_none(module: &mut dyn Module, q: u64) -> Result<Finding, Fault> {
    let reply = exchange_frames(module, &Request::AskNone { q })?;
    if reply == q.to_be_bytes() {
        Ok(Finding::NothingListed)
    } else {
        Err(Fault::BadReply)
    }
}

/// The finding in the fields of a reply to ask.
fn finding_of(fields: &[u8]) -> Option<Finding> {
    let (number, rest) = fields.split_first()?;
    let numbers = numbers(rest)?;
    match (number, numbers.as_slice()) {
        (1, [item, v1, v2, v3, v4]) => {
            let record = Record { revision: *v1, mass_kg: *v2, offset_mm: *v3, rigging: *v4 };
            Some(Finding::Recorded { item: *item, record })
        }
        (2, [item]) => Some(Finding::ListedEmpty { item: *item }),
        (3, [item, next]) => Some(Finding::Gap { item: *item, next: *next }),
        _ => None,
    }
}

/// Sends a request whose reply is one memorandum.
fn memorandum(module: &mut dyn Module, request: &Request) -> Result<Digest, Fault> {
    let reply = exchange_frames(module, request)?;
    reply.try_into().map_err(|_| Fault::BadReply)
}

/// Sends a request; gives the fields of its reply, without the kind.
fn exchange_frames(module: &mut dyn Module, request: &Request) -> Result<Vec<u8>, Fault> {
    let frame = request.frame();
    let mut line = reference::frames::line_of(&frame);
    line.pop();
    let reply_line = module.reply(&line);
    let digits = reply_line.strip_suffix(b"\n").ok_or(Fault::BadReply)?;
    let reply = unhex(digits).map_err(|_| Fault::BadReply)?;
    match reply.split_first() {
        Some((0, [number])) => Err(Fault::Refused(*number)),
        Some((kind, fields)) if *kind == frame[0] + 0x80 => Ok(fields.to_vec()),
        _ => Err(Fault::BadReply),
    }
}

/// Fields that are all digests.
fn digests(fields: &[u8]) -> Option<Vec<Digest>> {
    split(fields)
}

/// Fields that are all numbers.
fn numbers(fields: &[u8]) -> Option<Vec<u64>> {
    Some(split(fields)?.into_iter().map(u64::from_be_bytes).collect())
}

fn split<const N: usize>(fields: &[u8]) -> Option<Vec<[u8; N]>> {
    if fields.len() % N != 0 {
        return None;
    }
    fields.chunks(N).map(|chunk| chunk.try_into().ok()).collect()
}
