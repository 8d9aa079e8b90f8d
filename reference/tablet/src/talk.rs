//! One conversation with the module: the lines to send, and how each reply is judged.
//!
//! Every line is known beforehand but for the memoranda in it, and every reply but for the one
//! that it brings. A line takes the memoranda that came last: one or, in a pair and a raise, two.

use crate::store::Leaf;
use crate::tree::{Change, Climb, Fork};
use reference::frames::{line_of, unhex, Frame, Request};
use reference::strings::{Digest, One, Record, Two, ZERO};
use std::collections::VecDeque;

/// Bytes of a memorandum.
const MEMORANDUM: usize = 32;

/// The numbers that refusals have (§6.2).
const REFUSALS: std::ops::RangeInclusive<u8> = 1..=16;

/// One line for the module and the reply that has to come.
#[derive(Clone, Debug, PartialEq, Eq)]
pub struct Step {
    /// The request, its memoranda left 0.
    request: Request,
    /// All that the keeper can know of the reply: its bytes up to the memorandum.
    known: Vec<u8>,
    /// Whether a memorandum follows.
    brings: bool,
}

/// What a line is that came where a reply was awaited.
#[derive(Clone, Copy, Debug, PartialEq, Eq)]
pub enum Reply {
    /// The reply that had to come, with its memorandum if it brings one.
    Right(Option<Digest>),
    /// A refusal, by its number.
    Refused(u8),
    /// Anything else.
    Otherwise,
}

impl Step {
    /// A request whose reply brings a memorandum behind these digests.
    fn bringing(request: Request, shown: &[Digest]) -> Step {
        let known = reply_to(&request).digests(shown).bytes;
        Step { request, known, brings: true }
    }

    /// A request whose reply is known whole.
    fn known(request: Request, known: Frame) -> Step {
        Step { request, known: known.bytes, brings: false }
    }

    /// The line with its 0A, of the memoranda so far.
    fn line(&self, memoranda: &[Digest]) -> Vec<u8> {
        let mut request = self.request.clone();
        fill(&mut request, memoranda);
        line_of(&request.frame())
    }

    /// What a line, given without its 0A, is as the reply to this one.
    fn judge(&self, line: &[u8]) -> Reply {
        let frame = unhex(line).unwrap_or_default();
        match frame.as_slice() {
            [0, number] if REFUSALS.contains(number) => Reply::Refused(*number),
            reply => match reply.strip_prefix(self.known.as_slice()) {
                Some([]) if !self.brings => Reply::Right(None),
                Some(rest) if self.brings && rest.len() == MEMORANDUM => {
                    Reply::Right(rest.try_into().ok())
                }
                _ => Reply::Otherwise,
            },
        }
    }
}

/// The beginning of the reply to a request: its kind, 80 added to it (§5.3.1).
fn reply_to(request: &Request) -> Frame {
    Frame::of(0x80 + request.frame()[0])
}

/// Puts the last memoranda into a request, as many as it carries.
fn fill(request: &mut Request, memoranda: &[Digest]) {
    match request {
        Request::Pair { m1, m2, .. } | Request::Raise { m1, m2, .. } => {
            if let [.., last_but_one, last] = memoranda {
                (*m1, *m2) = (*last_but_one, *last);
            }
        }
        Request::Witness { m, .. }
        | Request::Swap { m, .. }
        | Request::Place { m, .. }
        | Request::Turn { m, .. }
        | Request::Adopt { m, .. }
        | Request::Set { m, .. }
        | Request::Clear { m, .. }
        | Request::Ask { m, .. } => {
            if let [.., last] = memoranda {
                *m = *last;
            }
        }
        _ => {}
    }
}

/// A path up a way, with what changes on it.
pub fn path(climb: &Climb) -> Step {
    let (foot, head) = (climb.foot, climb.head);
    let (sides, siblings) = (climb.way.sides, climb.way.siblings.clone());
    let request = Request::Path { x: foot.now, x_new: foot.new, sides, siblings };
    Step::bringing(request, &[head.now, head.new])
}

/// The five lines for two places: left, right, both as a pair, the way above, and the raise.
pub fn two_places(fork: &Fork) -> Vec<Step> {
    vec![path(&fork.left), path(&fork.right), pair(fork), path(&fork.above), raise(fork)]
}

fn pair(fork: &Fork) -> Step {
    let (first, second) = (one(&fork.left), one(&fork.right));
    Step::bringing(Request::Pair { first, m1: ZERO, second, m2: ZERO }, &[])
}

/// The digests of the U1 that a path brings.
fn one(climb: &Climb) -> One {
    let (foot, head) = (climb.foot, climb.head);
    One { x: foot.now, y: head.now, x_new: foot.new, y_new: head.new }
}

fn raise(fork: &Fork) -> Step {
    let (left, right, meeting) = (fork.left.foot, fork.right.foot, fork.above.foot);
    let low = Two {
        x1: left.now,
        x2: right.now,
        y: meeting.now,
        x1_new: left.new,
        x2_new: right.new,
        y_new: meeting.new,
    };
    let Change { now: z, new: z_new } = fork.root();
    Step::bringing(Request::Raise { low, m1: ZERO, z, z_new, m2: ZERO }, &[])
}

/// The two leaves of a fork change places.
pub fn swap(fork: &Fork) -> Step {
    let (x1, x2) = (fork.left.foot.now, fork.right.foot.now);
    let Change { now: y, new: y_new } = fork.root();
    Step::bringing(Request::Swap { x1, x2, y, y_new, m: ZERO }, &[])
}

/// The item is alone in the list.
pub fn first(item: u64) -> Step {
    Step::bringing(Request::First { item }, &[])
}

/// `[A, A', B']`: A', next to A and before B', goes out; `hash` is that of A's record.
pub fn place([item, next, after]: [u64; 3], hash: Digest, root: Change) -> Step {
    let Change { now: y, new: y_new } = root;
    Step::bringing(Request::Place { item, next, after, hash, y, y_new, m: ZERO }, &[])
}

/// What was shown of a change of the root is turned round.
pub fn turn(root: Change) -> Step {
    Step::bringing(Request::Turn { x: root.now, y: root.new, m: ZERO }, &[])
}

/// The root is changed.
pub fn adopt(root: Change) -> Step {
    let request = Request::Adopt { y: root.now, y_new: root.new, m: ZERO };
    let reply = reply_to(&request).digests(&[root.new]);
    Step::known(request, reply)
}

/// The leaf gets the values of a record, `counter` being the raised one.
pub fn set(leaf: &Leaf, values: [u64; 3], root: Change, counter: u64) -> Step {
    let Leaf { item, next, record: old } = *leaf;
    let Change { now: y, new: y_new } = root;
    let request = Request::Set { item, next, old, values, y, y_new, m: ZERO };
    let reply = reply_to(&request).digests(&[y_new]).numbers(&[counter]);
    Step::known(request, reply)
}

/// The leaf loses its record, `counter` being the raised one.
pub fn clear(leaf: &Leaf, root: Change, counter: u64) -> Step {
    let Leaf { item, next, record: old } = *leaf;
    let Change { now: y, new: y_new } = root;
    let request = Request::Clear { item, next, old, y, y_new, m: ZERO };
    let reply = reply_to(&request).digests(&[y_new]).numbers(&[counter]);
    Step::known(request, reply)
}

/// The root stands above what the way begins at.
pub fn witness(climb: &Climb) -> Step {
    Step::bringing(Request::Witness { x: climb.foot.now, y: climb.head.now, m: ZERO }, &[])
}

/// What is found about a number (§5.2.14).
#[derive(Clone, Copy, Debug, PartialEq, Eq)]
pub enum Finding {
    Record {
        item: u64,
        record: Record,
    },
    Empty {
        item: u64,
    },
    Gap {
        item: u64,
        next: u64,
    },
    /// Nothing is listed at all.
    None {
        q: u64,
    },
}

impl Finding {
    /// What a leaf says of a number that it tells of.
    pub fn of(q: u64, leaf: &Leaf) -> Finding {
        let Leaf { item, next, record } = *leaf;
        if q != item {
            Finding::Gap { item, next }
        } else if record.is_empty() {
            Finding::Empty { item }
        } else {
            Finding::Record { item, record }
        }
    }

    /// The fields of the module's answer.
    fn fields(&self, mut reply: Frame) -> Frame {
        let (number, item) = match self {
            Finding::None { q } => return reply.numbers(&[*q]),
            Finding::Record { item, .. } => (1, item),
            Finding::Empty { item } => (2, item),
            Finding::Gap { item, .. } => (3, item),
        };
        reply.bytes.push(number);
        let reply = reply.numbers(&[*item]);
        match self {
            Finding::Record { record, .. } => reply.numbers(&record.numbers()),
            Finding::Gap { next, .. } => reply.numbers(&[*next]),
            _ => reply,
        }
    }
}

/// A question that a leaf answers, under a root.
pub fn ask(q: u64, leaf: &Leaf, root: Digest) -> Step {
    let Leaf { item, next, record } = *leaf;
    let request = Request::Ask { q, item, next, record, y: root, m: ZERO };
    let reply = Finding::of(q, leaf).fields(reply_to(&request));
    Step::known(request, reply)
}

/// A question where nothing is listed.
pub fn ask_of_none(q: u64) -> Step {
    let request = Request::AskNone { q };
    let reply = Finding::None { q }.fields(reply_to(&request));
    Step::known(request, reply)
}

/// The lines still to be answered, the first of which is with the module, and the memoranda
/// that came so far.
#[derive(Clone, Debug, PartialEq, Eq)]
pub struct Talk {
    steps: VecDeque<Step>,
    memoranda: Vec<Digest>,
}

impl Talk {
    pub fn new(steps: Vec<Step>) -> Talk {
        Talk { steps: steps.into(), memoranda: Vec::new() }
    }

    /// The line that is to be answered next; none where all are.
    pub fn line(&self) -> Option<Vec<u8>> {
        self.steps.front().map(|step| step.line(&self.memoranda))
    }

    /// Judges a reply, and goes on to the next line if it is right.
    pub fn hear(&mut self, line: &[u8]) -> Reply {
        let reply = self.steps.front().map_or(Reply::Otherwise, |step| step.judge(line));
        if let Reply::Right(memorandum) = reply {
            self.steps.pop_front();
            self.memoranda.extend(memorandum);
        }
        reply
    }
}

#[cfg(test)]
mod tests {
    use super::*;

    const ROOT: Change = Change { now: [1; 32], new: [2; 32] };

    fn hex(bytes: &[u8]) -> String {
        bytes.iter().map(|byte| format!("{:02x}", byte)).collect()
    }

    #[test]
    fn an_adopt_carries_the_last_memorandum_and_awaits_the_new_root() {
        let step = adopt(ROOT);
        let line = step.line(&[[8; 32], [9; 32]]);
        let expected = ["0b", &"01".repeat(32), &"02".repeat(32), &"09".repeat(32), "\n"].concat();
        assert_eq!(String::from_utf8(line).unwrap(), expected);
        let reply = ["8b", &"02".repeat(32)].concat();
        assert_eq!(step.judge(reply.as_bytes()), Reply::Right(None));
    }

    #[test]
    fn a_pair_and_a_raise_carry_the_last_two() {
        let change = |n: u8| Change { now: [n; 32], new: [n + 1; 32] };
        let climb = |foot, head| Climb {
            foot: change(foot),
            head: change(head),
            way: crate::tree::Way { sides: 0, siblings: Vec::new() },
        };
        let fork = Fork { left: climb(10, 20), right: climb(30, 40), above: climb(50, 60) };
        let memoranda = [[7; 32], [8; 32], [9; 32]];
        let frame = |numbers: &[u8]| -> Vec<u8> {
            let digests = numbers[1..].iter().flat_map(|n| [*n; 32]);
            numbers[..1].iter().copied().chain(digests).collect()
        };
        let pair_line = line_of(&frame(&[4, 10, 20, 11, 21, 8, 30, 40, 31, 41, 9]));
        assert_eq!(pair(&fork).line(&memoranda), pair_line);
        let raise_line = line_of(&frame(&[5, 10, 30, 50, 11, 31, 51, 8, 60, 61, 9]));
        assert_eq!(raise(&fork).line(&memoranda), raise_line);
    }

    #[test]
    fn a_reply_with_a_memorandum_may_bring_any() {
        let step = turn(ROOT);
        for memorandum in [[0; 32], [0xab; 32]] {
            let reply = format!("89{}", hex(&memorandum));
            assert_eq!(step.judge(reply.as_bytes()), Reply::Right(Some(memorandum)));
        }
        let good = format!("89{}", hex(&[0xab; 32]));
        let wrong = [
            String::new(),
            good.to_uppercase(),
            good[..64].to_string(),
            good[..65].to_string(),
            good.clone() + "0",
            good.clone() + "00",
            good.clone() + "\r",
            format!("09{}", &good[2..]),
            format!("8a{}", &good[2..]),
            format!(" {}", good),
        ];
        for line in wrong {
            assert_eq!(step.judge(line.as_bytes()), Reply::Otherwise, "{}", line);
        }
    }

    #[test]
    fn refusals_have_numbers_from_1_to_16() {
        let step = adopt(ROOT);
        for number in 0..=255 {
            let expected =
                if (1..=16).contains(&number) { Reply::Refused(number) } else { Reply::Otherwise };
            assert_eq!(step.judge(hex(&[0, number]).as_bytes()), expected);
        }
        for line in ["00", "000", "00010", "000100", "0 01", "000A", "01", "0008\r", " 0008"] {
            assert_eq!(step.judge(line.as_bytes()), Reply::Otherwise, "{}", line);
        }
    }

    #[test]
    fn findings_by_hand() {
        let record = Record { revision: 1, mass_kg: 2, offset_mm: 3, rigging: 4 };
        let known = |q, item, next, record| hex(&ask(q, &Leaf { item, next, record }, ZERO).known);
        let number = |n: u64| format!("{:016x}", n);
        let numbers: String = [5, 1, 2, 3, 4].into_iter().map(number).collect();
        assert_eq!(known(5, 5, 9, record), "8e01".to_string() + &numbers);
        assert_eq!(known(5, 5, 9, Record::EMPTY), "8e02".to_string() + &number(5));
        let gap = "8e03".to_string() + &number(5) + &number(9);
        assert_eq!(known(7, 5, 9, record), gap);
        assert_eq!(known(7, 5, 9, Record::EMPTY), gap);
        assert_eq!(hex(&ask_of_none(7).known), "8f".to_string() + &number(7));
    }
}
