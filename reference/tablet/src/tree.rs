//! The tree: 1,024 slots under ten levels, with the digest of every node kept.
//!
//! Node 1 is the root, the children of node n are 2n and 2n + 1, and the slots are the nodes from
//! 1,024 on. A slot without a leaf is 0. Putting one leaf works the ten nodes above it.

use crate::digests::Digests;
use reference::strings::{Digest, ZERO};

/// The slots, as many as a store may have lines.
pub const SLOTS: usize = crate::store::MOST_LINES;

/// The levels above the slots.
pub const LEVELS: usize = 10;

/// What stands in one place of the tree and what is to stand there.
#[derive(Clone, Copy, Debug, PartialEq, Eq)]
pub struct Change {
    pub now: Digest,
    pub new: Digest,
}

impl Change {
    /// The way back.
    pub fn turned(self) -> Change {
        Change { now: self.new, new: self.now }
    }
}

/// The siblings on a way up, the lowest first, and their sides (§5.2.2).
#[derive(Clone, Debug, PartialEq, Eq)]
pub struct Way {
    pub sides: u64,
    pub siblings: Vec<Digest>,
}

/// A way up with what changes at its foot and at its head.
#[derive(Clone, Debug, PartialEq, Eq)]
pub struct Climb {
    pub foot: Change,
    pub head: Change,
    pub way: Way,
}

impl Climb {
    fn turned(self) -> Climb {
        Climb { foot: self.foot.turned(), head: self.head.turned(), way: self.way }
    }
}

/// Two slots that change together: the ways up to where they meet, and the one from there.
#[derive(Clone, Debug, PartialEq, Eq)]
pub struct Fork {
    pub left: Climb,
    pub right: Climb,
    pub above: Climb,
}

impl Fork {
    /// The way back.
    pub fn turned(self) -> Fork {
        let Fork { left, right, above } = self;
        Fork { left: left.turned(), right: right.turned(), above: above.turned() }
    }

    /// What changes at the root.
    pub fn root(&self) -> Change {
        self.above.head
    }
}

/// The digests of all nodes.
#[derive(Clone, Debug, PartialEq, Eq)]
pub struct Tree {
    nodes: Vec<Digest>,
}

impl Tree {
    /// The tree with these leaves in its first slots, at most as many as there are slots.
    pub fn of(leaves: &[Digest], digests: &mut Digests) -> Tree {
        let mut nodes = vec![ZERO; 2 * SLOTS];
        nodes[SLOTS..SLOTS + leaves.len()].copy_from_slice(leaves);
        for node in (1..SLOTS).rev() {
            nodes[node] = digests.parent(nodes[2 * node], nodes[2 * node + 1]);
        }
        Tree { nodes }
    }

    pub fn root(&self) -> Digest {
        self.nodes[1]
    }

    /// What stands in a slot.
    pub fn slot(&self, slot: usize) -> Digest {
        self.above(slot, 0)
    }

    /// Puts a leaf, or 0, into a slot.
    pub fn put(&mut self, slot: usize, leaf: Digest, digests: &mut Digests) {
        let mut node = SLOTS + slot;
        self.nodes[node] = leaf;
        while node > 1 {
            node /= 2;
            self.nodes[node] = digests.parent(self.nodes[2 * node], self.nodes[2 * node + 1]);
        }
    }

    /// The way from a slot to the root on which nothing changes.
    pub fn still(&self, slot: usize) -> Climb {
        let (foot, head) = (self.slot(slot), self.root());
        let same = |digest| Change { now: digest, new: digest };
        Climb { foot: same(foot), head: same(head), way: self.way(slot, 0, LEVELS) }
    }

    /// The way from a slot to the root, with another leaf to come into the slot.
    pub fn climb(&self, slot: usize, new: Digest, digests: &mut Digests) -> Climb {
        self.part(slot, [0, LEVELS], new, digests)
    }

    /// The three ways of two slots, the left one first, with other leaves to come into both.
    pub fn fork(&self, slots: [usize; 2], new: [Digest; 2], digests: &mut Digests) -> Fork {
        let top = meeting(slots);
        let left = self.part(slots[0], [0, top - 1], new[0], digests);
        let right = self.part(slots[1], [0, top - 1], new[1], digests);
        let both = digests.parent(left.head.new, right.head.new);
        let above = self.part(slots[0], [top, LEVELS], both, digests);
        Fork { left, right, above }
    }

    /// The way above a slot from one level to another, with something new to come at its foot.
    fn part(&self, slot: usize, levels: [usize; 2], new: Digest, digests: &mut Digests) -> Climb {
        let [low, high] = levels;
        let way = self.way(slot, low, high);
        let foot = Change { now: self.above(slot, low), new };
        let head = Change { now: self.above(slot, high), new: fold(new, &way, digests) };
        Climb { foot, head, way }
    }

    /// What stands above a slot on a level, 0 being the slot's own.
    fn above(&self, slot: usize, level: usize) -> Digest {
        self.nodes[(SLOTS + slot) >> level]
    }

    /// The siblings above a slot from one level to another, and their sides.
    fn way(&self, slot: usize, low: usize, high: usize) -> Way {
        let nodes = (low..high).map(|level| (SLOTS + slot) >> level);
        let siblings = nodes.map(|node| self.nodes[node ^ 1]).collect();
        let sides = (slot as u64 >> low) & ((1 << (high - low)) - 1);
        Way { sides, siblings }
    }
}

/// The level on which the ways up from two different slots meet.
fn meeting([left, right]: [usize; 2]) -> usize {
    (1..=LEVELS).find(|level| left >> level == right >> level).unwrap_or(LEVELS)
}

/// What the siblings of a way make of a digest (§5.2.4).
fn fold(from: Digest, way: &Way, digests: &mut Digests) -> Digest {
    way.siblings.iter().enumerate().fold(from, |below, (level, sibling)| {
        if way.sides >> level & 1 == 1 {
            digests.parent(*sibling, below)
        } else {
            digests.parent(below, *sibling)
        }
    })
}

#[cfg(test)]
mod tests {
    use super::*;
    use reference::sha256::digest;

    fn leaf(number: usize) -> Digest {
        digest(&number.to_be_bytes())
    }

    fn tree(count: usize) -> Tree {
        let leaves: Vec<Digest> = (0..count).map(leaf).collect();
        Tree::of(&leaves, &mut Digests::new())
    }

    fn node(left: Digest, right: Digest) -> Digest {
        digest(&[&[2][..], &left, &right].concat())
    }

    #[test]
    fn roots_of_small_trees_by_hand() {
        assert_eq!(tree(0).root(), ZERO);
        assert_eq!(tree(1).root(), leaf(0));
        assert_eq!(tree(2).root(), node(leaf(0), leaf(1)));
        assert_eq!(tree(3).root(), node(node(leaf(0), leaf(1)), leaf(2)));
        let low = node(node(leaf(0), leaf(1)), node(leaf(2), leaf(3)));
        assert_eq!(tree(5).root(), node(low, leaf(4)));
    }

    /// The root of slots, halved until one is left.
    fn halved(slots: &[Digest], digests: &mut Digests) -> Digest {
        if let [only] = slots {
            return *only;
        }
        let (left, right) = slots.split_at(slots.len() / 2);
        let (left, right) = (halved(left, digests), halved(right, digests));
        digests.parent(left, right)
    }

    #[test]
    fn leaves_put_one_by_one_make_the_same_tree() {
        let mut digests = Digests::new();
        let mut grown = tree(0);
        let mut slots = vec![ZERO; SLOTS];
        for slot in 0..SLOTS {
            grown.put(slot, leaf(slot), &mut digests);
            slots[slot] = leaf(slot);
            if slot % 97 == 0 || slot > SLOTS - 3 {
                assert_eq!(grown, tree(slot + 1));
                assert_eq!(grown.root(), halved(&slots, &mut digests));
            }
        }
        for slot in (0..SLOTS).rev() {
            grown.put(slot, ZERO, &mut digests);
        }
        assert_eq!(grown, tree(0));
    }

    #[test]
    fn one_leaf_changed_works_the_ten_nodes_above_it() {
        let mut full = tree(SLOTS);
        let mut digests = Digests::new();
        full.put(600, leaf(7), &mut digests);
        assert_eq!(digests.worked(), 10);
        let mut all = Digests::new();
        Tree::of(&(0..SLOTS).map(leaf).collect::<Vec<_>>(), &mut all);
        assert_eq!(all.worked(), 1023);
    }

    #[test]
    fn a_way_has_siblings_and_sides() {
        let tree = tree(4);
        let way = tree.still(2).way;
        assert_eq!(way.siblings.len(), LEVELS);
        assert_eq!(way.siblings[..2], [leaf(3), node(leaf(0), leaf(1))]);
        assert!(way.siblings[2..].iter().all(|sibling| *sibling == ZERO));
        assert_eq!(way.sides, 2);
        assert_eq!(tree.still(3).way.sides, 3);
        assert_eq!(super::fold(leaf(2), &way, &mut Digests::new()), tree.root());
    }

    /// For slots of every sort: what a fork says is what comes of putting both leaves.
    #[test]
    fn a_fork_tells_what_two_puts_make() {
        let full = tree(SLOTS);
        let far = [0, 1, 2, 3, 511, 512, 767, 1022, 1023];
        for left in far {
            for right in far.into_iter().filter(|right| left < *right) {
                let mut digests = Digests::new();
                let new = [leaf(5000), leaf(6000)];
                let fork = full.fork([left, right], new, &mut digests);
                let mut put = full.clone();
                put.put(left, new[0], &mut digests);
                put.put(right, new[1], &mut digests);
                assert_eq!(fork.root(), Change { now: full.root(), new: put.root() });
                let levels = fork.left.way.siblings.len();
                assert_eq!(fork.right.way.siblings.len(), levels);
                assert_eq!(fork.above.way.siblings.len(), LEVELS - 1 - levels);
                assert_eq!(fork.left.head.now, full.above(left, levels));
                assert_eq!(fork.right.head.new, put.above(right, levels));
                assert_eq!(fork.above.foot.new, put.above(left, levels + 1));
                assert_eq!(fork.clone().turned().turned(), fork);
            }
        }
    }

    #[test]
    fn neighbours_meet_one_level_up_and_halves_at_the_root() {
        assert_eq!(meeting([0, 1]), 1);
        assert_eq!(meeting([1, 2]), 2);
        assert_eq!(meeting([510, 511]), 1);
        assert_eq!(meeting([511, 512]), 10);
        assert_eq!(meeting([0, 1023]), 10);
        let tree = tree(2);
        let fork = tree.fork([0, 1], [leaf(8), ZERO], &mut Digests::new());
        assert!(fork.left.way.siblings.is_empty());
        assert_eq!(fork.left.foot, fork.left.head);
        assert_eq!(fork.root(), Change { now: tree.root(), new: leaf(8) });
    }
}
