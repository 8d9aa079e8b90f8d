//! The keeper's tree: the tablet's own copy of the list, in a binary tree of any
//! shape and depth, with empty places allowed anywhere.
//!
//! The protocol's paper, 3.3 and 3.5: leaves are (A, A', ω) with A' the next
//! number round the ring; H(u,0) = u, so an empty place changes no digest and the
//! shape may be padded or tidied without a line.

use reference::strings::{in_gap, Digest, Formed, Record, ZERO};
use std::collections::BTreeMap;

/// A place in the tree.
pub type Place = usize;

#[derive(Clone, Copy, Debug, PartialEq, Eq)]
enum Content {
    Empty,
    Leaf(u64),
    Branch(Place, Place),
}

#[derive(Clone, Debug)]
struct Node {
    parent: Option<Place>,
    content: Content,
    digest: Digest,
}

/// One level of a way up: the sibling's digest, and whether it stands on the left.
#[derive(Clone, Copy, Debug, PartialEq, Eq)]
pub struct Level {
    pub sibling: Digest,
    pub on_left: bool,
}

/// Where two separate places meet: the node above both, and its two children,
/// `first_is_left` telling whether the first place lies under the left one.
#[derive(Clone, Copy, Debug, PartialEq, Eq)]
pub struct Meeting {
    pub at: Place,
    pub left: Place,
    pub right: Place,
    pub first_is_left: bool,
}

/// Where a new leaf is put: in place of an empty place, or beside any other on a
/// new node.
#[derive(Clone, Copy, Debug, PartialEq, Eq)]
pub struct Spot {
    pub beside: Place,
    pub new_on_left: bool,
}

/// A leaf as the ring has it: A, A' and the record.
pub type RingLeaf = (u64, u64, Record);

/// The tree with every record. Clones are independent, so that a change can be
/// prepared on one and kept only if the module accepts it.
#[derive(Clone, Debug)]
pub struct Tree {
    nodes: Vec<Node>,
    top: Place,
    places: BTreeMap<u64, Place>,
    records: BTreeMap<u64, Record>,
}

impl Default for Tree {
    fn default() -> Tree {
        Tree::new()
    }
}

impl Tree {
    /// The empty tree, whose root is 0.
    pub fn new() -> Tree {
        let only = Node { parent: None, content: Content::Empty, digest: ZERO };
        Tree { nodes: vec![only], top: 0, places: BTreeMap::new(), records: BTreeMap::new() }
    }

    pub fn root(&self) -> Digest {
        self.digest(self.top)
    }

    pub fn top(&self) -> Place {
        self.top
    }

    pub fn digest(&self, place: Place) -> Digest {
        self.nodes[place].digest
    }

    /// The listed numbers, ascending.
    pub fn items(&self) -> Vec<u64> {
        self.places.keys().copied().collect()
    }

    pub fn len(&self) -> usize {
        self.places.len()
    }

    pub fn is_empty(&self) -> bool {
        self.places.is_empty()
    }

    pub fn place_of(&self, item: u64) -> Option<Place> {
        self.places.get(&item).copied()
    }

    pub fn record(&self, item: u64) -> Record {
        self.records.get(&item).copied().unwrap_or(Record::EMPTY)
    }

    /// The next listed number round the ring.
    pub fn next_of(&self, item: u64) -> Option<u64> {
        let above = self.places.range(item..).map(|(key, _)| *key).find(|key| *key != item);
        above.or_else(|| self.places.keys().next().copied())
    }

    /// The listed number whose `next_of` is `item`.
    pub fn before(&self, item: u64) -> Option<u64> {
        let below = self.places.range(..item).next_back();
        below.or_else(|| self.places.iter().next_back()).map(|(key, _)| *key)
    }

    /// The listed number that is `q`, or else whose gap has `q`.
    pub fn holder_of(&self, q: u64) -> Option<u64> {
        if self.places.contains_key(&q) {
            return Some(q);
        }
        let holder = self.before(q)?;
        debug_assert!(in_gap(q, holder, self.next_of(holder)?));
        Some(holder)
    }

    /// The digests above a place, from its own sibling up to the last one below
    /// `ancestor`.
    pub fn way_up(&self, from: Place, ancestor: Place) -> Vec<Level> {
        let mut levels = Vec::new();
        let mut at = from;
        while at != ancestor {
            let parent = self.nodes[at].parent.expect("the ancestor is above the place");
            levels.push(self.level(parent, at));
            at = parent;
        }
        levels
    }

    fn level(&self, parent: Place, child: Place) -> Level {
        match self.nodes[parent].content {
            Content::Branch(left, right) if right == child => {
                Level { sibling: self.digest(left), on_left: true }
            }
            Content::Branch(_, right) => Level { sibling: self.digest(right), on_left: false },
            _ => unreachable!("a parent is a branch"),
        }
    }

    /// Levels between a place and the top.
    pub fn depth(&self, place: Place) -> usize {
        self.line_to_top(place).len() - 1
    }

    /// The place, its parent, and so on up to the top.
    fn line_to_top(&self, place: Place) -> Vec<Place> {
        let mut line = vec![place];
        while let Some(parent) = self.nodes[line[line.len() - 1]].parent {
            line.push(parent);
        }
        line
    }

    /// Where two places meet; none if one lies above the other.
    pub fn meeting(&self, first: Place, second: Place) -> Option<Meeting> {
        let mut ups = [self.line_to_top(first), self.line_to_top(second)];
        let mut at = None;
        while !ups[0].is_empty() && ups[0].last() == ups[1].last() {
            at = ups[0].pop();
            ups[1].pop();
        }
        let (first_child, second_child) = (*ups[0].last()?, *ups[1].last()?);
        let at = at?;
        match self.nodes[at].content {
            Content::Branch(left, right) => {
                debug_assert!(first_child != second_child);
                Some(Meeting { at, left, right, first_is_left: first_child == left })
            }
            _ => None,
        }
    }

    /// Every place in use, top first.
    pub fn all_places(&self) -> Vec<Place> {
        let mut found = vec![self.top];
        let mut next = 0;
        while next < found.len() {
            if let Content::Branch(left, right) = self.nodes[found[next]].content {
                found.extend([left, right]);
            }
            next += 1;
        }
        found
    }

    /// The leaves as they stand, left to right.
    pub fn leaves(&self) -> Vec<RingLeaf> {
        let mut leaves = Vec::new();
        let mut waiting = vec![self.top];
        while let Some(place) = waiting.pop() {
            match self.nodes[place].content {
                Content::Empty => {}
                Content::Leaf(item) => leaves.push(self.ring_leaf(item)),
                Content::Branch(left, right) => waiting.extend([right, left]),
            }
        }
        leaves
    }

    fn ring_leaf(&self, item: u64) -> RingLeaf {
        (item, self.next_of(item).unwrap_or(item), self.record(item))
    }

    /// The root worked out anew from the leaves, without the digests kept.
    pub fn root_from_leaves(&self) -> Digest {
        self.digest_anew(self.top)
    }

    fn digest_anew(&self, place: Place) -> Digest {
        match self.nodes[place].content {
            Content::Empty => ZERO,
            Content::Leaf(item) => self.leaf_digest(item),
            Content::Branch(left, right) => {
                Formed::new().parent(self.digest_anew(left), self.digest_anew(right))
            }
        }
    }

    fn leaf_digest(&self, item: u64) -> Digest {
        let (item, next, record) = self.ring_leaf(item);
        leaf_digest(item, next, &record)
    }

    /// The spot beside the leaf whose gap has `item`, which splits that leaf in
    /// two; in the empty list, the top.
    pub fn spot_at_holder(&self, item: u64, new_on_left: bool) -> Spot {
        let holder = self.holder_of(item).and_then(|holder| self.place_of(holder));
        Spot { beside: holder.unwrap_or(self.top), new_on_left }
    }

    /// The tree with `item` listed, without a record, at the spot. `item` must not
    /// be listed yet.
    pub fn with_inserted(&self, item: u64, spot: Spot) -> Tree {
        let mut tree = self.clone();
        let place = match tree.nodes[spot.beside].content {
            Content::Empty => spot.beside,
            _ => tree.add_beside(spot),
        };
        tree.nodes[place].content = Content::Leaf(item);
        tree.places.insert(item, place);
        tree.refresh(item);
        if let Some(before) = tree.before(item) {
            tree.refresh(before);
        }
        tree
    }

    /// The tree without `item`, whose place becomes empty.
    pub fn without(&self, item: u64) -> Tree {
        let mut tree = self.clone();
        let before = tree.before(item);
        if let Some(place) = tree.places.remove(&item) {
            tree.records.remove(&item);
            tree.nodes[place].content = Content::Empty;
            tree.nodes[place].digest = ZERO;
            tree.rehash_above(place);
            if let Some(before) = before.filter(|before| *before != item) {
                tree.refresh(before);
            }
        }
        tree
    }

    /// The tree with `item`'s record changed.
    pub fn with_record(&self, item: u64, record: Record) -> Tree {
        let mut tree = self.clone();
        tree.records.insert(item, record);
        tree.refresh(item);
        tree
    }

    /// The tree with what stands at two separate places exchanged.
    pub fn with_exchanged(&self, first: Place, second: Place) -> Tree {
        let mut tree = self.clone();
        tree.exchange(first, second);
        tree.rehash_above(first);
        tree.rehash_above(second);
        tree
    }

    /// The same tree with `levels` empty places put above a place, one to a level,
    /// left and right by turns. No digest changes.
    pub fn padded(&self, place: Place, levels: usize) -> Tree {
        let mut tree = self.clone();
        let mut at = place;
        for level in 0..levels {
            tree.add_beside(Spot { beside: at, new_on_left: level % 2 == 0 });
            at = tree.nodes[at].parent.unwrap_or(at);
        }
        tree
    }

    /// The same tree without its empty places. No digest changes.
    pub fn tidied(&self) -> Tree {
        let mut tree = Tree { records: self.records.clone(), ..Tree::new() };
        tree.nodes.clear();
        let kept = self.copy_tidied(self.top, &mut tree);
        tree.top = kept.unwrap_or_else(|| tree.add(Content::Empty, ZERO));
        tree
    }

    /// Copies what is below a place into `into`; none if nothing is.
    fn copy_tidied(&self, place: Place, into: &mut Tree) -> Option<Place> {
        let digest = self.digest(place);
        match self.nodes[place].content {
            Content::Empty => None,
            Content::Leaf(item) => {
                let copy = into.add(Content::Leaf(item), digest);
                into.places.insert(item, copy);
                Some(copy)
            }
            Content::Branch(left, right) => {
                let halves = (self.copy_tidied(left, into), self.copy_tidied(right, into));
                match halves {
                    (Some(left), Some(right)) => {
                        let copy = into.add(Content::Branch(left, right), digest);
                        into.nodes[left].parent = Some(copy);
                        into.nodes[right].parent = Some(copy);
                        Some(copy)
                    }
                    (left, right) => left.or(right),
                }
            }
        }
    }

    fn add(&mut self, content: Content, digest: Digest) -> Place {
        self.nodes.push(Node { parent: None, content, digest });
        self.nodes.len() - 1
    }

    /// Puts a new node where `spot.beside` was, with that and a new empty place
    /// below it. Gives the empty place. No digest changes.
    fn add_beside(&mut self, spot: Spot) -> Place {
        let Spot { beside, new_on_left } = spot;
        let empty = self.add(Content::Empty, ZERO);
        let halves = if new_on_left { (empty, beside) } else { (beside, empty) };
        let branch = self.add(Content::Branch(halves.0, halves.1), self.digest(beside));
        let above = self.nodes[beside].parent;
        self.nodes[branch].parent = above;
        match above {
            Some(above) => self.rename_child(above, beside, branch),
            None => self.top = branch,
        }
        self.nodes[beside].parent = Some(branch);
        self.nodes[empty].parent = Some(branch);
        empty
    }

    fn rename_child(&mut self, parent: Place, old: Place, new: Place) {
        if let Content::Branch(left, right) = &mut self.nodes[parent].content {
            for child in [left, right] {
                if *child == old {
                    *child = new;
                }
            }
        }
    }

    /// Exchanges the two halves of a branch.
    fn turn_over(&mut self, branch: Place) {
        if let Content::Branch(left, right) = self.nodes[branch].content {
            self.nodes[branch].content = Content::Branch(right, left);
        }
    }

    /// Exchanges two separate places under their parents.
    fn exchange(&mut self, first: Place, second: Place) {
        let (above_first, above_second) = (self.nodes[first].parent, self.nodes[second].parent);
        if above_first == above_second {
            above_first.into_iter().for_each(|above| self.turn_over(above));
            return;
        }
        if let (Some(above_first), Some(above_second)) = (above_first, above_second) {
            self.rename_child(above_first, first, second);
            self.rename_child(above_second, second, first);
            self.nodes[first].parent = Some(above_second);
            self.nodes[second].parent = Some(above_first);
        }
    }

    /// Works out a leaf's digest again, and those above it.
    fn refresh(&mut self, item: u64) {
        if let Some(place) = self.place_of(item) {
            self.nodes[place].digest = self.leaf_digest(item);
            self.rehash_above(place);
        }
    }

    fn rehash_above(&mut self, place: Place) {
        let mut above = self.nodes[place].parent;
        while let Some(at) = above {
            if let Content::Branch(left, right) = self.nodes[at].content {
                self.nodes[at].digest = Formed::new().parent(self.digest(left), self.digest(right));
            }
            above = self.nodes[at].parent;
        }
    }
}

/// The digest of a leaf with a record's hash in it.
pub fn leaf_digest(item: u64, next: u64, record: &Record) -> Digest {
    let mut formed = Formed::new();
    let hash = formed.record_hash(record);
    formed.leaf(item, next, hash)
}
