//! The honest keeper on lists of every size and trees of every depth: all its
//! lines are accepted, and do what was wished and nothing else.

#![forbid(unsafe_code)]

use keeper::keeper::{Fault, Finding, Keeper, Module};
use keeper::random::Random;
use keeper::replay::Replay;
use keeper::tree::Spot;
use reference::module::{answer, Registers};
use reference::strings::{Digest, Record};
use std::collections::BTreeMap;
use std::rc::Rc;

const SECRET: Digest = [1; 32];

/// A module whose every line is also followed by the replay.
struct Watched {
    registers: Registers,
    replay: Replay,
    joins: usize,
}

impl Watched {
    fn open() -> Watched {
        let registers = Registers { secret: SECRET, opened: true, ..Registers::default() };
        Watched { registers, replay: Replay::new(), joins: 0 }
    }
}

impl Module for Watched {
    fn reply(&mut self, line: &[u8]) -> Vec<u8> {
        let got = answer(&mut self.registers, line, 195);
        assert_eq!(got.refusal, None);
        self.replay.line(line, &got.reply_line).expect("the reply is true of the list");
        self.joins += usize::from(line.starts_with(b"03"));
        got.reply_line
    }
}

/// A keeper, its module, and the list as it should be.
struct Bench {
    keeper: Keeper,
    module: Watched,
    list: BTreeMap<u64, Record>,
}

impl Bench {
    fn new() -> Bench {
        Bench { keeper: Keeper::new(), module: Watched::open(), list: BTreeMap::new() }
    }

    fn insert_at(&mut self, item: u64, spot: Spot) {
        self.keeper.insert(&mut self.module, item, spot).unwrap();
        self.list.insert(item, Record::EMPTY);
    }

    fn insert(&mut self, item: u64) {
        self.insert_at(item, self.keeper.tree.spot_at_holder(item, false));
    }

    fn remove(&mut self, item: u64) {
        self.keeper.remove(&mut self.module, item).unwrap();
        self.list.remove(&item);
    }

    fn set(&mut self, item: u64, values: [u64; 3]) {
        self.keeper.set(&mut self.module, item, values).unwrap();
        let [mass_kg, offset_mm, rigging] = values;
        let revision = self.module.registers.counter;
        self.list.insert(item, Record { revision, mass_kg, offset_mm, rigging });
    }

    fn clear(&mut self, item: u64) {
        self.keeper.clear(&mut self.module, item).unwrap();
        self.list.insert(item, Record::EMPTY);
    }

    fn swap(&mut self, a: u64, b: u64) {
        self.keeper.swap(&mut self.module, a, b).unwrap();
    }

    /// Asks, and sees the one finding that is true of the list.
    fn ask(&mut self, q: u64) {
        let found = self.keeper.ask(&mut self.module, q).unwrap();
        let expected = match self.list.get(&q) {
            Some(record) if *record == Record::EMPTY => Finding::ListedEmpty { item: q },
            Some(record) => Finding::Recorded { item: q, record: *record },
            None => self.gap_of(q),
        };
        assert_eq!(found, expected);
    }

    fn gap_of(&self, q: u64) -> Finding {
        let below = self.list.range(..q).next_back().or_else(|| self.list.iter().next_back());
        let above = self.list.range(q..).next().or_else(|| self.list.iter().next());
        match (below, above) {
            (Some((item, _)), Some((next, _))) => Finding::Gap { item: *item, next: *next },
            _ => Finding::NothingListed,
        }
    }

    /// The module, the replay and the keeper's tree all stand for the list.
    fn check(&self) {
        let tree = &self.keeper.tree;
        assert_eq!(self.module.replay.list(), &self.list);
        assert_eq!(self.module.registers.root, tree.root_from_leaves());
        assert_eq!(self.module.registers.root, tree.root());
        assert_eq!(self.module.registers.counter, self.module.replay.counter());
        let mut leaves = tree.leaves();
        leaves.sort_by_key(|leaf| leaf.0);
        assert_eq!(leaves, self.module.replay.ring());
    }
}

#[test]
fn from_nothing_to_three_and_back() {
    let mut bench = Bench::new();
    for q in [1, 5, u64::MAX] {
        bench.ask(q);
    }
    for item in [10, 5, u64::MAX] {
        bench.insert(item);
        bench.check();
        for q in [1, 4, 5, 6, 9, 10, 11, u64::MAX - 1, u64::MAX] {
            bench.ask(q);
        }
    }
    bench.set(5, [61_400, 20, 3]);
    bench.set(5, [68_900, 20, 3]);
    bench.ask(5);
    bench.ask(6);
    bench.clear(5);
    bench.ask(5);
    bench.swap(5, 10);
    bench.swap(u64::MAX, 5);
    bench.check();
    for item in [5, u64::MAX, 10] {
        bench.remove(item);
        bench.check();
        bench.ask(item);
    }
    assert_eq!(bench.module.registers.root, [0; 32]);
    bench.insert(1);
    bench.check();
}

#[test]
fn a_thousand_items() {
    let mut bench = Bench::new();
    let mut random = Random::new(1000);
    while bench.list.len() < 1000 {
        let item = random.number() % 5000 + 1;
        if !bench.list.contains_key(&item) {
            bench.insert(item);
        }
    }
    bench.check();
    let items: Vec<u64> = bench.list.keys().copied().collect();
    for item in &items {
        bench.ask(*item);
        if random.percent(30) {
            bench.set(*item, [1 + random.below(2_000_000) as u64, 2, 3]);
            bench.ask(*item);
        }
    }
    for _ in 0..500 {
        bench.ask(random.number() % 5001 + 1);
    }
    for _ in 0..100 {
        let (a, b) = (random.pick(&items).unwrap(), random.pick(&items).unwrap());
        if a != b {
            bench.swap(a, b);
        }
    }
    bench.check();
    for item in &items {
        if bench.list[item] != Record::EMPTY {
            bench.clear(*item);
        }
        bench.remove(*item);
    }
    bench.check();
    assert!(bench.list.is_empty());
}

/// Ascending numbers, each beside the last: item n ends about n levels down.
fn skewed(items: u64) -> Bench {
    let mut bench = Bench::new();
    for item in 1..=items {
        bench.insert(10 * item);
    }
    bench.check();
    bench
}

/// Does one thing, and sees that it took a join.
fn with_joins(bench: &mut Bench, act: impl FnOnce(&mut Bench)) {
    let before = bench.module.joins;
    act(bench);
    assert!(bench.module.joins > before, "no join was needed");
    bench.check();
}

#[test]
fn a_tree_of_150_levels() {
    let mut bench = skewed(151);
    let tree = &bench.keeper.tree;
    assert_eq!(tree.depth(tree.place_of(1510).unwrap()), 150);
    with_joins(&mut bench, |bench| bench.set(1510, [61_400, 1, 2]));
    with_joins(&mut bench, |bench| bench.ask(1510));
    with_joins(&mut bench, |bench| bench.ask(1515));
    with_joins(&mut bench, |bench| bench.ask(5));
    with_joins(&mut bench, |bench| bench.clear(1510));
    with_joins(&mut bench, |bench| bench.insert(1505));
    with_joins(&mut bench, |bench| bench.insert(1));
    with_joins(&mut bench, |bench| bench.swap(10, 1510));
    with_joins(&mut bench, |bench| bench.swap(1490, 1500));
    with_joins(&mut bench, |bench| bench.remove(1505));
    with_joins(&mut bench, |bench| bench.remove(10));
    with_joins(&mut bench, |bench| bench.remove(1500));
}

/// The same depth by empty places alone, where the paths cost no nodes.
#[test]
fn a_tree_deep_by_empty_places() {
    let mut bench = skewed(4);
    for item in [10, 20, 30, 40] {
        let tree = bench.keeper.tree.clone();
        let padded = tree.padded(tree.place_of(item).unwrap(), 150);
        assert_eq!(padded.root(), tree.root());
        bench.keeper.tree = Rc::new(padded);
    }
    let top = bench.keeper.tree.top();
    bench.keeper.tree = Rc::new(bench.keeper.tree.padded(top, 70));
    with_joins(&mut bench, |bench| bench.set(30, [1, 2, 3]));
    with_joins(&mut bench, |bench| bench.ask(30));
    with_joins(&mut bench, |bench| bench.insert(25));
    with_joins(&mut bench, |bench| bench.swap(25, 10));
    with_joins(&mut bench, |bench| bench.remove(25));
    let root = bench.keeper.tree.root();
    bench.keeper.tree = Rc::new(bench.keeper.tree.tidied());
    assert_eq!(bench.keeper.tree.root(), root);
    bench.check();
    assert!(bench.keeper.tree.all_places().len() == 7);
}

/// Path lengths round the edges of one and two paths of 64.
#[test]
fn depths_round_64_and_128() {
    for levels in [62, 63, 64, 65, 127, 128, 129] {
        let mut bench = skewed(2);
        let tree = bench.keeper.tree.clone();
        bench.keeper.tree = Rc::new(tree.padded(tree.place_of(20).unwrap(), levels));
        bench.ask(20);
        bench.set(20, [1, 2, 3]);
        let paths = (levels + 1 + 63) / 64;
        assert_eq!(bench.module.joins, 2 * (paths - 1));
        bench.swap(10, 20);
        bench.clear(20);
        bench.remove(20);
        bench.check();
    }
}

/// A new leaf may go beside any place of the tree, on either side, or into any
/// empty one.
#[test]
fn every_spot_of_a_tree_takes_a_new_leaf() {
    let base = || {
        let mut bench = skewed(6);
        bench.remove(30);
        bench.set(20, [1, 1, 1]);
        bench
    };
    for beside in base().keeper.tree.all_places() {
        for new_on_left in [false, true] {
            for item in [1, 25, 65] {
                let mut bench = base();
                bench.insert_at(item, Spot { beside, new_on_left });
                bench.check();
                bench.ask(item);
                bench.remove(item);
                bench.check();
            }
        }
    }
}

#[test]
fn any_two_places_swap() {
    let items = [10, 20, 30, 40, 50];
    for a in items {
        for b in items {
            let mut bench = skewed(5);
            if a != b {
                bench.swap(a, b);
                bench.check();
                bench.swap(a, b);
                assert_eq!(bench.keeper.tree.root(), skewed(5).keeper.tree.root());
            } else {
                let fault = bench.keeper.swap(&mut bench.module, a, b);
                assert_eq!(fault, Err(Fault::NotLegal));
            }
        }
    }
}

#[test]
fn what_is_not_legal_sends_no_line() {
    struct NoModule;
    impl Module for NoModule {
        fn reply(&mut self, _: &[u8]) -> Vec<u8> {
            panic!("a line was sent");
        }
    }
    let mut bench = skewed(2);
    bench.set(10, [2_000_000, 2, 3]);
    bench.set(10, [1, 2, 3]);
    let keeper = &mut bench.keeper;
    let spot = keeper.tree.spot_at_holder(10, false);
    let not_legal = Err(Fault::NotLegal);
    assert_eq!(keeper.insert(&mut NoModule, 0, spot), not_legal);
    assert_eq!(keeper.insert(&mut NoModule, 10, spot), not_legal);
    assert_eq!(keeper.remove(&mut NoModule, 10), not_legal);
    assert_eq!(keeper.remove(&mut NoModule, 11), not_legal);
    assert_eq!(keeper.clear(&mut NoModule, 20), not_legal);
    assert_eq!(keeper.set(&mut NoModule, 11, [1, 2, 3]), not_legal);
    for silly in [0, 2_000_001, 61_400_000, u64::MAX] {
        assert_eq!(keeper.set(&mut NoModule, 10, [silly, 2, 3]), not_legal);
    }
    assert_eq!(keeper.swap(&mut NoModule, 10, 11), not_legal);
    assert_eq!(keeper.ask(&mut NoModule, 0), Err(Fault::NotLegal));
}

/// A refused run leaves the keeper's memory as it was.
#[test]
fn a_refusal_leaves_the_keeper_as_it_was() {
    struct Refusing;
    impl Module for Refusing {
        fn reply(&mut self, _: &[u8]) -> Vec<u8> {
            b"000a\n".to_vec()
        }
    }
    let mut bench = skewed(3);
    let root = bench.keeper.tree.root();
    assert_eq!(bench.keeper.set(&mut Refusing, 10, [1, 2, 3]), Err(Fault::Refused(10)));
    assert_eq!(bench.keeper.remove(&mut Refusing, 10), Err(Fault::Refused(10)));
    assert_eq!((bench.keeper.tree.root(), bench.keeper.counter), (root, 0));
    bench.check();
}
