//! The replay: the list got from the accepted changes of a run,
//! and the truth of every answer against it. It sees only lines and replies and
//! knows no tree, no registers and no keeper.
//!
//! The protocol's paper, 7.1 and 7.2.

use reference::frames::{parse, unhex, Request};
use reference::module::SENSIBLE_KG;
use reference::strings::{in_gap, Digest, Record};
use std::collections::{BTreeMap, HashMap};

/// One step of a change to the ring.
#[derive(Clone, Copy, Debug, PartialEq, Eq)]
enum Step {
    Add(u64),
    Remove(u64),
}

/// What a memorandum stands for: a change, or nothing that can be adopted.
#[derive(Clone, Debug, PartialEq, Eq)]
enum Meaning {
    Change(Vec<Step>),
    Statement,
}

/// The abstract list, from the lines so far.
#[derive(Clone, Debug, Default)]
pub struct Replay {
    list: BTreeMap<u64, Record>,
    counter: u64,
    meanings: HashMap<Digest, Meaning>,
}

impl Replay {
    pub fn new() -> Replay {
        Replay::default()
    }

    /// The items with their records.
    pub fn list(&self) -> &BTreeMap<u64, Record> {
        &self.list
    }

    /// The number of accepted record changes.
    pub fn counter(&self) -> u64 {
        self.counter
    }

    /// The ring of the list: each item, the next, and its record, ascending.
    pub fn ring(&self) -> Vec<(u64, u64, Record)> {
        let items: Vec<u64> = self.list.keys().copied().collect();
        let next_items = items.iter().cycle().skip(1);
        items.iter().zip(next_items).map(|(a, next)| (*a, *next, self.list[a])).collect()
    }

    /// Takes in a line (without 0A) and its reply line (with 0A). Says what is
    /// wrong if the reply is untrue of the list, if a change cannot be done, or if
    /// an accepted line carries a memorandum that no earlier line issued.
    pub fn line(&mut self, line: &[u8], reply_line: &[u8]) -> Result<(), String> {
        let reply = bytes_of(reply_line)?;
        if reply[0] == 0 {
            return Ok(());
        }
        let frame = unhex(line).map_err(|_| "a damaged line was accepted")?;
        let request = parse(&frame).map_err(|_| "a damaged frame was accepted")?;
        if reply[0] != frame[0] + 0x80 {
            return Err("the reply is of another kind".to_string());
        }
        for memorandum in carried(&request) {
            if !self.meanings.contains_key(&memorandum) {
                return Err("a memorandum nobody issued was accepted".to_string());
            }
        }
        self.accepted(&request, &reply[1..])
    }

    fn accepted(&mut self, request: &Request, fields: &[u8]) -> Result<(), String> {
        match request {
            Request::Path { .. }
            | Request::Witness { .. }
            | Request::Join { .. }
            | Request::Pair { .. }
            | Request::Raise { .. } => self.issue(fields, Meaning::Statement),
            Request::Swap { .. } => self.issue(fields, Meaning::Change(Vec::new())),
            Request::First { item } => self.issue(fields, Meaning::Change(vec![Step::Add(*item)])),
            Request::Place { next, .. } => {
                self.issue(fields, Meaning::Change(vec![Step::Remove(*next)]))
            }
            Request::Turn { m, .. } => {
                let turned = reversed(&self.change(m)?);
                self.issue(fields, Meaning::Change(turned))
            }
            Request::Chain { m1, m2, .. } => {
                let both = [self.change(m1)?, self.change(m2)?].concat();
                self.issue(fields, Meaning::Change(both))
            }
            Request::Adopt { m, .. } => {
                let steps = self.change(m)?;
                steps.into_iter().try_for_each(|step| self.step(step))
            }
            Request::Set { item, old, values, .. } => {
                let [mass_kg, offset_mm, rigging] = *values;
                true_or(SENSIBLE_KG.contains(&mass_kg), "a silly mass was set")?;
                let revision = self.counter + 1;
                let new = Record { revision, mass_kg, offset_mm, rigging };
                self.change_record(*item, *old, new, fields)
            }
            Request::Clear { item, old, .. } => {
                self.change_record(*item, *old, Record::EMPTY, fields)
            }
            Request::Ask { q, .. } => self.check_finding(*q, fields),
            Request::AskNone { q } => {
                let honest = self.list.is_empty() && fields == q.to_be_bytes();
                true_or(honest, "\"none listed\" is untrue")
            }
            Request::Open { .. } => true_or(fields.is_empty(), "open answers nothing more"),
        }
    }

    /// The memorandum that a line issues is its reply's last field; what it
    /// stands for is decided by the earliest line that issued it.
    fn issue(&mut self, fields: &[u8], meaning: Meaning) -> Result<(), String> {
        let start = fields.len().checked_sub(32).ok_or("the reply is too short")?;
        let issued = fields[start..].try_into().map_err(|_| "the reply is too short")?;
        self.meanings.entry(issued).or_insert(meaning);
        Ok(())
    }

    fn change(&self, memorandum: &Digest) -> Result<Vec<Step>, String> {
        match self.meanings.get(memorandum) {
            Some(Meaning::Change(steps)) => Ok(steps.clone()),
            _ => Err("an accepted memorandum stands for no change".to_string()),
        }
    }

    fn step(&mut self, step: Step) -> Result<(), String> {
        let (item, done) = match step {
            Step::Add(item) => {
                let fresh = !self.list.contains_key(&item);
                if fresh {
                    self.list.insert(item, Record::EMPTY);
                }
                (item, fresh)
            }
            Step::Remove(item) => {
                let removable = self.list.get(&item) == Some(&Record::EMPTY);
                if removable {
                    self.list.remove(&item);
                }
                (item, removable)
            }
        };
        true_or(done, &format!("the step {:?} on {} cannot be done", step, item))
    }

    fn change_record(
        &mut self,
        item: u64,
        old: Record,
        new: Record,
        fields: &[u8],
    ) -> Result<(), String> {
        true_or(self.list.get(&item) == Some(&old), "the old record is untrue")?;
        self.list.insert(item, new);
        self.counter += 1;
        let counter_shown = fields.get(32..) == Some(&self.counter.to_be_bytes()[..]);
        true_or(counter_shown, "the counter shown is untrue")
    }

    /// The reply holds one of three findings, which must be true of the
    /// list and be about the number asked.
    fn check_finding(&self, q: u64, fields: &[u8]) -> Result<(), String> {
        let (finding, rest) = fields.split_first().ok_or("the finding is missing")?;
        let shown = numbers(rest)?;
        let honest = match (finding, shown.as_slice()) {
            (1, [item, record @ ..]) => {
                let held = self.list.get(item).map(Record::numbers);
                *item == q
                    && record.first() != Some(&0)
                    && held.as_ref().map(|r| &r[..]) == Some(record)
            }
            (2, [item]) => *item == q && self.list.get(item) == Some(&Record::EMPTY),
            (3, [item, next]) => {
                let neighbours = self.ring().iter().any(|(a, b, _)| (a, b) == (item, next));
                neighbours && in_gap(q, *item, *next) && !self.list.contains_key(&q)
            }
            _ => false,
        };
        true_or(honest, &format!("the finding {:?} on {} is untrue", fields, q))
    }
}

/// The memoranda a request carries.
fn carried(request: &Request) -> Vec<Digest> {
    match request {
        Request::Join { m1, m2, .. }
        | Request::Pair { m1, m2, .. }
        | Request::Raise { m1, m2, .. }
        | Request::Chain { m1, m2, .. } => vec![*m1, *m2],
        Request::Witness { m, .. }
        | Request::Swap { m, .. }
        | Request::Place { m, .. }
        | Request::Turn { m, .. }
        | Request::Adopt { m, .. }
        | Request::Set { m, .. }
        | Request::Clear { m, .. }
        | Request::Ask { m, .. } => vec![*m],
        Request::Path { .. }
        | Request::First { .. }
        | Request::AskNone { .. }
        | Request::Open { .. } => Vec::new(),
    }
}

/// What a turned exchange stands for: the steps undone, last first.
fn reversed(steps: &[Step]) -> Vec<Step> {
    let undo = |step: &Step| match step {
        Step::Add(item) => Step::Remove(*item),
        Step::Remove(item) => Step::Add(*item),
    };
    steps.iter().rev().map(undo).collect()
}

fn true_or(condition: bool, fault: &str) -> Result<(), String> {
    if condition {
        Ok(())
    } else {
        Err(fault.to_string())
    }
}

fn bytes_of(reply_line: &[u8]) -> Result<Vec<u8>, String> {
    let digits = reply_line.strip_suffix(b"\n").ok_or("the reply has no 0A")?;
    unhex(digits).map_err(|_| "the reply is no line".to_string())
}

fn numbers(fields: &[u8]) -> Result<Vec<u64>, String> {
    let number = |chunk: &[u8]| chunk.try_into().map(u64::from_be_bytes);
    let all: Result<Vec<u64>, _> = fields.chunks(8).map(number).collect();
    all.map_err(|_| "the finding has a broken number".to_string())
}

#[cfg(test)]
mod tests {
    use super::*;

    fn digest(n: u8) -> Digest {
        [n; 32]
    }

    fn hex_line(bytes: &[u8]) -> Vec<u8> {
        let mut line = reference::frames::line_of(bytes);
        line.pop();
        line
    }

    /// Plays a request with a made-up reply.
    fn play(replay: &mut Replay, request: &Request, fields: &[u8]) -> Result<(), String> {
        let frame = request.frame();
        let reply = [&[frame[0] + 0x80][..], fields].concat();
        replay.line(&hex_line(&frame), &reference::frames::line_of(&reply))
    }

    fn adopt(replay: &mut Replay, m: Digest) -> Result<(), String> {
        play(replay, &Request::Adopt { y: digest(0), y_new: digest(0), m }, &digest(0))
    }

    fn listed(items: &[u64]) -> Replay {
        let mut replay = Replay::new();
        for (n, item) in items.iter().enumerate() {
            let m = digest(n as u8 + 1);
            play(&mut replay, &Request::First { item: *item }, &m).unwrap();
            adopt(&mut replay, m).unwrap();
        }
        replay
    }

    #[test]
    fn first_adds_and_its_turn_removes() {
        let mut replay = listed(&[5]);
        let turn = Request::Turn { x: digest(0), y: digest(0), m: digest(1) };
        play(&mut replay, &turn, &digest(2)).unwrap();
        adopt(&mut replay, digest(2)).unwrap();
        assert!(replay.list().is_empty());
    }

    #[test]
    fn chain_does_both_in_order_and_its_turn_undoes_them() {
        let mut replay = Replay::new();
        play(&mut replay, &Request::First { item: 5 }, &digest(1)).unwrap();
        play(&mut replay, &Request::First { item: 8 }, &digest(2)).unwrap();
        let z = digest(0);
        let chain = Request::Chain { x: z, y: z, m1: digest(1), z, m2: digest(2) };
        play(&mut replay, &chain, &digest(3)).unwrap();
        adopt(&mut replay, digest(3)).unwrap();
        assert_eq!(replay.ring(), vec![(5, 8, Record::EMPTY), (8, 5, Record::EMPTY)]);
        play(&mut replay, &Request::Turn { x: z, y: z, m: digest(3) }, &digest(4)).unwrap();
        adopt(&mut replay, digest(4)).unwrap();
        assert!(replay.list().is_empty());
    }

    #[test]
    fn the_earliest_line_decides_what_a_memorandum_stands_for() {
        let mut replay = Replay::new();
        play(&mut replay, &Request::First { item: 5 }, &digest(1)).unwrap();
        play(&mut replay, &Request::First { item: 6 }, &digest(1)).unwrap();
        adopt(&mut replay, digest(1)).unwrap();
        assert_eq!(replay.ring(), vec![(5, 5, Record::EMPTY)]);
    }

    #[test]
    fn what_cannot_be_done_or_was_never_issued_is_reported() {
        let mut replay = listed(&[5]);
        assert!(adopt(&mut replay, digest(1)).is_err());
        assert!(adopt(&mut replay, digest(9)).is_err());
        assert_eq!(replay.list().len(), 1);
    }

    #[test]
    fn untrue_findings_are_reported() {
        let mut replay = listed(&[5, 10]);
        play(&mut replay, &Request::First { item: 99 }, &digest(7)).unwrap();
        let m = digest(7);
        let ask =
            |q: u64| Request::Ask { q, item: q, next: q, record: Record::EMPTY, y: digest(0), m };
        let fields = |finding: u8, numbers: &[u64]| {
            let tail = numbers.iter().flat_map(|n| n.to_be_bytes());
            std::iter::once(finding).chain(tail).collect::<Vec<u8>>()
        };
        assert!(play(&mut replay, &ask(5), &fields(2, &[5])).is_ok());
        assert!(play(&mut replay, &ask(7), &fields(3, &[5, 10])).is_ok());
        assert!(play(&mut replay, &ask(3), &fields(3, &[10, 5])).is_ok());
        for (q, untrue) in [
            (5, fields(1, &[5, 1, 2, 3, 4])),
            (5, fields(1, &[5, 0, 0, 0, 0])),
            (5, fields(2, &[10])),
            (7, fields(2, &[7])),
            (7, fields(3, &[10, 5])),
            (7, fields(3, &[5, 9])),
            (10, fields(3, &[5, 10])),
            (7, fields(4, &[5, 10])),
            (7, vec![3, 1, 2]),
            (7, vec![]),
        ] {
            assert!(play(&mut replay, &ask(q), &untrue).is_err(), "{} {:?}", q, untrue);
        }
        assert!(play(&mut replay, &Request::AskNone { q: 5 }, &5u64.to_be_bytes()).is_err());
    }
}
