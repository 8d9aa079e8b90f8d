//! The keeper: leaves, tree and counter, the wishes it takes, and what it refuses by itself.
//!
//! A wish is a conversation with the module, one line after the other. Memory changes only where
//! the reply to a committing line (adopt, set, clear) is the one that has to come.

use crate::digests::Digests;
use crate::store::{self, Broken, Leaf};
use crate::talk::{self, Finding, Reply, Step, Talk};
use crate::tree::{Change, Fork, Tree, SLOTS};
use reference::strings::{in_gap, Digest, Record, ZERO};

/// The masses in kilograms that a set may give (§3.4.4).
const SENSIBLE_KG: std::ops::RangeInclusive<u64> = 1..=2_000_000;

/// What a person may wish.
#[derive(Clone, Copy, Debug, PartialEq, Eq)]
pub enum Wish {
    Insert(u64),
    Remove(u64),
    /// An item, and its mass, offset and rigging code.
    Set(u64, [u64; 3]),
    Clear(u64),
    Ask(u64),
}

impl Wish {
    /// The number that the wish is about.
    fn number(&self) -> u64 {
        match *self {
            Wish::Insert(item) | Wish::Remove(item) | Wish::Clear(item) => item,
            Wish::Set(item, _) => item,
            Wish::Ask(q) => q,
        }
    }
}

/// Why the keeper refuses a wish by itself, in the order in which it looks.
#[derive(Clone, Copy, Debug, PartialEq, Eq)]
pub enum Refusal {
    Zero,
    Mass,
    Listed,
    Unlisted,
    Recorded,
    Empty,
    Full,
    Top,
}

/// What comes of a reply.
#[derive(Clone, Debug, PartialEq, Eq)]
pub struct Heard {
    /// Whether the leaves changed: then the store has to be written before anything is said.
    pub changed: bool,
    pub say: Say,
}

/// What is to be said next.
#[derive(Clone, Debug, PartialEq, Eq)]
pub enum Say {
    /// A line for the module, with its 0A.
    Line(Vec<u8>),
    /// The wish is done.
    Done,
    Found(Finding),
    /// The module refused, by this number, and the wish is over.
    Refused(u8),
    /// The module spoke otherwise than it has to, and the wish is over.
    Otherwise,
}

/// A leaf for a slot, with its digest.
#[derive(Clone, Debug, PartialEq, Eq)]
struct Put {
    slot: usize,
    leaf: Leaf,
    digest: Digest,
}

/// A change of memory: leaves put into slots, and how many there are then.
#[derive(Clone, Debug, PartialEq, Eq)]
struct Edit {
    puts: Vec<Put>,
    count: usize,
    counter: u64,
}

/// What the last reply of a conversation leads to.
#[derive(Clone, Debug, PartialEq, Eq)]
enum Ending {
    Change(Edit),
    /// A change of places, behind which the item in the last slot is removed.
    Swap(Edit),
    Find(Finding),
}

/// A conversation that is under way, and what it leads to.
#[derive(Clone, Debug, PartialEq, Eq)]
struct Plan {
    talk: Talk,
    ending: Ending,
}

impl Plan {
    fn new(steps: Vec<Step>, ending: Ending) -> Plan {
        Plan { talk: Talk::new(steps), ending }
    }
}

/// The keeper and its memory.
#[derive(Clone, Debug, PartialEq, Eq)]
pub struct Keeper {
    leaves: Vec<Leaf>,
    tree: Tree,
    counter: u64,
    digests: Digests,
    plan: Option<Plan>,
}

impl Keeper {
    /// A keeper of what a store's bytes hold, with the counter at 0.
    pub fn load(bytes: &[u8]) -> Result<Keeper, Broken> {
        store::load(bytes).map(Keeper::of)
    }

    /// A keeper of leaves that were loaded from a store.
    pub(crate) fn of(leaves: Vec<Leaf>) -> Keeper {
        let mut digests = Digests::new();
        let mut hashed = Vec::new();
        for leaf in &leaves {
            let hash = digests.record(&leaf.record);
            hashed.push(digests.leaf(leaf.item, leaf.next, hash));
        }
        let tree = Tree::of(&hashed, &mut digests);
        Keeper { leaves, tree, counter: 0, digests, plan: None }
    }

    /// The leaves in the order of the slots.
    pub fn leaves(&self) -> &[Leaf] {
        &self.leaves
    }

    pub fn root(&self) -> Digest {
        self.tree.root()
    }

    pub fn counter(&self) -> u64 {
        self.counter
    }

    /// How many SHA-256 digests were worked since the keeper was made.
    pub fn worked(&self) -> u64 {
        self.digests.worked()
    }

    /// Takes over the counter that the module gave last.
    pub fn set_counter(&mut self, counter: u64) {
        self.counter = counter;
    }

    /// Whether a line is with the module, so that what comes next is its reply.
    pub fn awaits(&self) -> bool {
        self.plan.is_some()
    }

    /// Takes a wish: its first line for the module, or why it is refused. A wish that is under
    /// way ends where it is.
    pub fn wish(&mut self, wish: Wish) -> Result<Vec<u8>, Refusal> {
        self.plan = None;
        if let Some(refusal) = self.refusal(&wish) {
            return Err(refusal);
        }
        let plan = self.plan(wish);
        Ok(self.begin(plan))
    }

    /// Takes a reply, given without its 0A.
    pub fn hear(&mut self, line: &[u8]) -> Heard {
        let mut plan = match self.plan.take() {
            Some(plan) => plan,
            None => return unchanged(Say::Otherwise),
        };
        match plan.talk.hear(line) {
            Reply::Refused(number) => unchanged(Say::Refused(number)),
            Reply::Otherwise => unchanged(Say::Otherwise),
            Reply::Right(_) => match plan.talk.line() {
                Some(line) => {
                    self.plan = Some(plan);
                    unchanged(Say::Line(line))
                }
                None => self.end(plan.ending),
            },
        }
    }

    /// The first line of a conversation, which is then under way.
    fn begin(&mut self, plan: Plan) -> Vec<u8> {
        let line = plan.talk.line().unwrap_or_default();
        self.plan = Some(plan);
        line
    }

    /// What is done and said when the last reply was right.
    fn end(&mut self, ending: Ending) -> Heard {
        match ending {
            Ending::Find(finding) => unchanged(Say::Found(finding)),
            Ending::Change(edit) => {
                self.commit(edit);
                Heard { changed: true, say: Say::Done }
            }
            Ending::Swap(edit) => {
                self.commit(edit);
                let plan = self.plan_remove_last();
                Heard { changed: true, say: Say::Line(self.begin(plan)) }
            }
        }
    }

    /// Changes memory.
    fn commit(&mut self, edit: Edit) {
        for slot in edit.count..self.leaves.len() {
            self.tree.put(slot, ZERO, &mut self.digests);
        }
        self.leaves.truncate(edit.count);
        for Put { slot, leaf, digest } in edit.puts {
            self.tree.put(slot, digest, &mut self.digests);
            match self.leaves.get_mut(slot) {
                Some(old) => *old = leaf,
                None => self.leaves.push(leaf),
            }
        }
        self.counter = edit.counter;
    }
}

/// The refusals.
impl Keeper {
    /// The first reason that applies for refusing a wish.
    fn refusal(&self, wish: &Wish) -> Option<Refusal> {
        if wish.number() == 0 {
            return Some(Refusal::Zero);
        }
        if matches!(wish, Wish::Set(_, [mass, ..]) if !SENSIBLE_KG.contains(mass)) {
            return Some(Refusal::Mass);
        }
        if matches!(wish, Wish::Ask(_)) {
            return None;
        }
        self.refusal_by_list(wish).or_else(|| self.refusal_by_counter())
    }

    /// Whether the list, as it is, lets a change be made.
    fn refusal_by_list(&self, wish: &Wish) -> Option<Refusal> {
        let leaf = self.slot_of(wish.number()).map(|slot| self.leaves[slot]);
        match (wish, leaf) {
            (Wish::Insert(_), Some(_)) => Some(Refusal::Listed),
            (Wish::Insert(_), None) => (self.leaves.len() >= SLOTS).then_some(Refusal::Full),
            (_, None) => Some(Refusal::Unlisted),
            (Wish::Remove(_), Some(leaf)) => (!leaf.record.is_empty()).then_some(Refusal::Recorded),
            (Wish::Clear(_), Some(leaf)) => leaf.record.is_empty().then_some(Refusal::Empty),
            (_, Some(_)) => None,
        }
    }

    fn refusal_by_counter(&self) -> Option<Refusal> {
        (self.counter == u64::MAX).then_some(Refusal::Top)
    }
}

/// The lines for each wish that is not refused.
impl Keeper {
    fn plan(&mut self, wish: Wish) -> Plan {
        match wish {
            Wish::Insert(item) if self.leaves.is_empty() => self.plan_first(item),
            Wish::Insert(item) => self.plan_insert(item),
            Wish::Remove(item) => self.plan_remove(item),
            Wish::Set(item, values) => self.plan_set(item, values),
            Wish::Clear(item) => self.plan_clear(item),
            Wish::Ask(q) => self.plan_ask(q),
        }
    }

    /// Insert into the empty list: first, adopt.
    fn plan_first(&mut self, item: u64) -> Plan {
        let put = self.put(0, Leaf { item, next: item, record: Record::EMPTY }, ZERO);
        let root = Change { now: ZERO, new: put.digest };
        let steps = vec![talk::first(item), talk::adopt(root)];
        Plan::new(steps, Ending::Change(self.edit(vec![put], 1)))
    }

    /// Insert into the next free slot: a place from the list with the item to the one without,
    /// turned round, and adopted.
    fn plan_insert(&mut self, item: u64) -> Plan {
        let (slot, free) = (self.slot_telling_of(item), self.leaves.len());
        let before = self.leaves[slot];
        let hash = self.digests.record(&before.record);
        let changed = self.put(slot, Leaf { next: item, ..before }, hash);
        let new = self.put(free, Leaf { item, next: before.next, record: Record::EMPTY }, ZERO);
        let fork = self.fork([slot, free], [changed.digest, new.digest]).turned();
        let numbers = [before.item, item, before.next];
        let mut steps = talk::two_places(&fork);
        steps.push(talk::place(numbers, hash, fork.root()));
        steps.push(talk::turn(fork.root()));
        steps.push(talk::adopt(fork.root().turned()));
        Plan::new(steps, Ending::Change(self.edit(vec![changed, new], free + 1)))
    }

    fn plan_remove(&mut self, item: u64) -> Plan {
        let (slot, last) = (self.listed_slot(item), self.leaves.len() - 1);
        if last == 0 {
            self.plan_remove_only(item)
        } else if slot == last {
            self.plan_remove_last()
        } else {
            self.plan_swap(slot, last)
        }
    }

    /// Remove the only item: first, turn, adopt.
    fn plan_remove_only(&mut self, item: u64) -> Plan {
        let listing = Change { now: ZERO, new: self.root() };
        let steps = vec![talk::first(item), talk::turn(listing), talk::adopt(listing.turned())];
        Plan::new(steps, Ending::Change(self.edit(Vec::new(), 0)))
    }

    /// Remove the item in the last slot, which is not the only one: place, adopt.
    fn plan_remove_last(&mut self) -> Plan {
        let last = self.leaves.len() - 1;
        let Leaf { item, next, .. } = self.leaves[last];
        let slot = self.slot_before(item);
        let before = self.leaves[slot];
        let hash = self.digests.record(&before.record);
        let changed = self.put(slot, Leaf { next, ..before }, hash);
        let fork = self.fork([slot, last], [changed.digest, ZERO]);
        let mut steps = talk::two_places(&fork);
        steps.push(talk::place([before.item, item, next], hash, fork.root()));
        steps.push(talk::adopt(fork.root()));
        Plan::new(steps, Ending::Change(self.edit(vec![changed], last)))
    }

    /// The item to be removed changes places with the last one: swap, adopt.
    fn plan_swap(&mut self, slot: usize, last: usize) -> Plan {
        let (left, right) = (self.tree.slot(slot), self.tree.slot(last));
        let fork = self.fork([slot, last], [right, left]);
        let mut steps = talk::two_places(&fork);
        steps.push(talk::swap(&fork));
        steps.push(talk::adopt(fork.root()));
        let puts = vec![
            Put { slot, leaf: self.leaves[last], digest: right },
            Put { slot: last, leaf: self.leaves[slot], digest: left },
        ];
        Plan::new(steps, Ending::Swap(self.edit(puts, last + 1)))
    }

    fn plan_set(&mut self, item: u64, values: [u64; 3]) -> Plan {
        let [mass_kg, offset_mm, rigging] = values;
        let revision = self.counter + 1;
        let record = Record { revision, mass_kg, offset_mm, rigging };
        self.plan_record(item, record, |leaf, root| talk::set(leaf, values, root, revision))
    }

    fn plan_clear(&mut self, item: u64) -> Plan {
        let counter = self.counter + 1;
        self.plan_record(item, Record::EMPTY, |leaf, root| talk::clear(leaf, root, counter))
    }

    /// Another record for an item: the path, and the line that commits it.
    fn plan_record(
        &mut self,
        item: u64,
        record: Record,
        committing: impl Fn(&Leaf, Change) -> Step,
    ) -> Plan {
        let slot = self.listed_slot(item);
        let leaf = self.leaves[slot];
        let hash = self.digests.record(&record);
        let put = self.put(slot, Leaf { record, ..leaf }, hash);
        let climb = self.tree.climb(slot, put.digest, &mut self.digests);
        let steps = vec![talk::path(&climb), committing(&leaf, climb.head)];
        let counter = self.counter + 1;
        Plan::new(
            steps,
            Ending::Change(Edit { counter, ..self.edit(vec![put], self.leaves.len()) }),
        )
    }

    /// A question: path, witness, ask; or ask of none.
    fn plan_ask(&mut self, q: u64) -> Plan {
        if self.leaves.is_empty() {
            return Plan::new(vec![talk::ask_of_none(q)], Ending::Find(Finding::None { q }));
        }
        let slot = self.slot_telling_of(q);
        let (leaf, climb) = (self.leaves[slot], self.tree.still(slot));
        let asked = talk::ask(q, &leaf, climb.head.now);
        let steps = vec![talk::path(&climb), talk::witness(&climb), asked];
        Plan::new(steps, Ending::Find(Finding::of(q, &leaf)))
    }
}

/// What the plans are made of.
impl Keeper {
    /// A leaf for a slot, by the hash of its record.
    fn put(&mut self, slot: usize, leaf: Leaf, hash: Digest) -> Put {
        Put { slot, leaf, digest: self.digests.leaf(leaf.item, leaf.next, hash) }
    }

    /// A change of memory that leaves the counter as it is.
    fn edit(&self, puts: Vec<Put>, count: usize) -> Edit {
        Edit { puts, count, counter: self.counter }
    }

    fn fork(&mut self, slots: [usize; 2], new: [Digest; 2]) -> Fork {
        self.tree.fork(slots, new, &mut self.digests)
    }

    fn slot_of(&self, item: u64) -> Option<usize> {
        self.leaves.iter().position(|leaf| leaf.item == item)
    }

    /// The slot of an item that is listed.
    fn listed_slot(&self, item: u64) -> usize {
        self.slot_of(item).expect("the item is listed")
    }

    /// The slot of the leaf whose next item this is.
    fn slot_before(&self, item: u64) -> usize {
        let before = self.leaves.iter().position(|leaf| leaf.next == item);
        before.expect("every item of a ring is some leaf's next")
    }

    /// The slot of the leaf that tells of a number: its own, or the one whose gap has it.
    fn slot_telling_of(&self, q: u64) -> usize {
        let gap = |leaf: &Leaf| in_gap(q, leaf.item, leaf.next);
        let found = self.slot_of(q).or_else(|| self.leaves.iter().position(gap));
        found.expect("a ring tells of every number but 0")
    }
}

/// Nothing changed, and this is to be said.
fn unchanged(say: Say) -> Heard {
    Heard { changed: false, say }
}
