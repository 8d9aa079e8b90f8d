//! Whole sessions, decided by a seed: honest runs by the keeper, with hostile
//! lines of every trick and repeats of earlier lines in between.
//!
//! They are run through the proved program and the second one, and compared. Each line is
//! answered by the second module as it is made, for an honest line is built from the
//! replies before it.

use crate::hostile::{digits, line, Scene, Seen, Trick, SILLY_KG};
use crate::keeper::{
    chain, insertion, record_change, removal, swapping, turn, two_at_one_place, Exchange, Fault,
    Keeper, Lifted, Module,
};
use crate::random::Random;
use crate::tree::{leaf_digest, Spot, Tree};
use reference::frames::{unhex, Request};
use reference::module::{answer, Answer, Registers, REPLY_SPACE, SENSIBLE_KG};
use reference::strings::{in_gap, Digest, Formed, One, Record, ZERO};
use std::collections::VecDeque;
use std::rc::Rc;

/// Where a line comes from.
#[derive(Clone, Copy, Debug, PartialEq, Eq)]
pub enum Source {
    /// An honest line of the keeper, or one that prepares a trick: accepted.
    Honest,
    /// A trick, with the answer it aims at.
    Trick(Trick),
    /// An earlier line again.
    Repeated,
    /// An earlier line with one byte changed.
    Mutated,
}

/// One line of a session and what came of it.
pub struct Step<'a> {
    /// The line without its 0A.
    pub line: &'a [u8],
    pub source: Source,
    pub answer: &'a Answer,
    /// The registers after the line.
    pub registers: &'a Registers,
    /// The keeper's tree after the line.
    pub tree: &'a Tree,
}

/// Makes a session of at least `lines` lines and shows each to `watch`.
pub fn generate(seed: u64, lines: usize, watch: &mut dyn FnMut(&Step)) {
    let mut session = Session {
        wire: Wire::new(seed, watch),
        keeper: Keeper::new(),
        lines,
        mood: Mood::Few,
        mood_left: 15,
    };
    session.run();
}

/// Earlier lines, and earlier trees, that a session goes back to.
const LINES_REMEMBERED: usize = 400;
const TREES_REMEMBERED: usize = 200;

/// A list is not let grow beyond this.
const MOST_ITEMS: usize = 110;

/// The module with everything a session remembers of it.
struct Wire<'a> {
    random: Random,
    registers: Registers,
    seen: Seen,
    lines: VecDeque<Vec<u8>>,
    trees: VecDeque<Rc<Tree>>,
    tree: Rc<Tree>,
    tricks: Vec<Trick>,
    sent: usize,
    shown_later: Option<(Vec<u8>, Source, Answer)>,
    watch: &'a mut dyn FnMut(&Step),
}

impl<'a> Wire<'a> {
    fn new(seed: u64, watch: &'a mut dyn FnMut(&Step)) -> Wire<'a> {
        let tree = Rc::new(Tree::new());
        Wire {
            random: Random::new(seed),
            registers: Registers::default(),
            seen: Seen::new(),
            lines: VecDeque::new(),
            trees: VecDeque::from([tree.clone()]),
            tree,
            tricks: Trick::all(),
            sent: 0,
            shown_later: None,
            watch,
        }
    }

    /// Sends a line. It is shown to the watcher before the next one, when the
    /// keeper has had time to take in the reply.
    fn send(&mut self, line: Vec<u8>, source: Source) -> Answer {
        self.show();
        let answer = answer(&mut self.registers, &line, REPLY_SPACE);
        if answer.refusal.is_none() {
            if let Ok(frame) = unhex(&line) {
                self.seen.remember(&frame, answer.issued);
            }
        }
        if line.len() < 5000 {
            self.lines.push_back(line.clone());
            if self.lines.len() > LINES_REMEMBERED {
                self.lines.pop_front();
            }
        }
        self.sent += 1;
        self.shown_later = Some((line, source, answer.clone()));
        answer
    }

    /// Shows the last line sent, if it has not been shown yet.
    fn show(&mut self) {
        if let Some((line, source, answer)) = self.shown_later.take() {
            (self.watch)(&Step {
                line: &line,
                source,
                answer: &answer,
                registers: &self.registers,
                tree: &self.tree,
            });
        }
    }

    /// Takes over the keeper's tree after a run.
    fn settle(&mut self, tree: &Rc<Tree>) {
        if !Rc::ptr_eq(&self.tree, tree) {
            self.tree = tree.clone();
            self.trees.push_back(tree.clone());
            if self.trees.len() > TREES_REMEMBERED {
                self.trees.pop_front();
            }
        }
        self.show();
    }

    /// The root a line would lead to, if it were sent now.
    fn root_after(&self, line: &[u8]) -> Digest {
        let mut registers = self.registers.clone();
        answer(&mut registers, line, REPLY_SPACE);
        registers.root
    }

    /// Plays a trick, on the frame about to be sent if there is one.
    fn play(&mut self, trick: Trick, fresh: Option<&[u8]>) {
        let scene = Scene {
            seen: &self.seen,
            root: self.registers.root,
            opened: self.registers.opened,
            fresh,
        };
        if let Some(made) = line(trick, &scene, &mut self.random) {
            self.send(made, Source::Trick(trick));
        }
    }

    /// Plays any trick. The aim is picked first, so that no refusal is rare because
    /// few tricks lead to it.
    fn play_any(&mut self) {
        let aims = [1, 2, 3, 4, 5, 6, 8, 9, 10, 11, 14, 16].map(Some);
        let aim = if self.random.percent(8) { None } else { self.random.pick(&aims).flatten() };
        let aimed = |trick: &&Trick| trick.aim() == aim;
        let fitting: Vec<Trick> = self.tricks.iter().filter(aimed).copied().collect();
        if let Some(trick) = self.random.pick(&fitting) {
            self.play(trick, None);
        }
    }

    /// Plays one of the tricks on the kind of an honest line about to be sent.
    fn play_on(&mut self, fresh: &[u8]) {
        let on_kind = |trick: &&Trick| trick.base_kind() == Some(fresh[0]);
        let fitting: Vec<Trick> = self.tricks.iter().filter(on_kind).copied().collect();
        if let Some(trick) = self.random.pick(&fitting) {
            self.play(trick, Some(fresh));
        }
    }
}

/// The keeper's lines go out here, with hostile ones before some of them.
impl Module for Wire<'_> {
    fn reply(&mut self, line: &[u8]) -> Vec<u8> {
        if self.random.percent(12) {
            self.play_any();
        }
        if self.random.percent(15) {
            if let Ok(frame) = unhex(line) {
                self.play_on(&frame);
            }
        }
        self.send(line.to_vec(), Source::Honest).reply_line
    }
}

/// What a session is mostly at for a while.
#[derive(Clone, Copy, Debug, PartialEq, Eq)]
enum Mood {
    /// Keeps the list at three items or fewer, and often at none.
    Few,
    /// Lists numbers anywhere.
    Grow,
    /// Lists ascending numbers, each beside the last, so that the tree gets deep.
    GrowDeep,
    /// A bit of everything.
    Mix,
    /// Clears and removes.
    Shrink,
}

struct Session<'a> {
    wire: Wire<'a>,
    keeper: Keeper,
    lines: usize,
    mood: Mood,
    mood_left: usize,
}

impl Session<'_> {
    fn run(&mut self) {
        self.before_opening();
        while self.wire.sent < self.lines {
            self.choose_mood();
            let done = self.act();
            done.expect("the module refuses no honest line");
            self.wire.settle(&self.keeper.tree);
        }
        self.wire.show();
    }

    /// Some lines to the unopened module, then the one that opens it.
    fn before_opening(&mut self) {
        for _ in 0..12 {
            let kind = 1 + self.wire.random.below(15) as u8;
            let zero = self.wire.random.percent(20);
            let trick = if zero { Trick::ZeroSecret } else { Trick::BeforeOpening(kind) };
            self.wire.play(trick, None);
            self.wire.play_any();
        }
        let secret = self.wire.random.digest();
        self.honest(&Request::Open { secret });
        self.wire.show();
    }

    /// Sends one honest line outside the keeper's runs.
    fn honest(&mut self, request: &Request) -> Answer {
        self.wire.send(digits(&request.frame()), Source::Honest)
    }

    fn choose_mood(&mut self) {
        if self.mood_left > 0 {
            self.mood_left -= 1;
            return;
        }
        let listed = self.keeper.tree.len();
        let random = &mut self.wire.random;
        let deep_pays = self.lines - self.wire.sent > 1500;
        let (mood, acts) = match random.below(8) {
            0 | 1 => (Mood::Grow, 10 + random.below(20)),
            2 if deep_pays => (Mood::GrowDeep, 66 + random.below(20)),
            3 => (Mood::Shrink, 10 + random.below(2 * listed + 1)),
            4 => (Mood::Few, 40 + 2 * listed + random.below(60)),
            _ => (Mood::Mix, 20 + random.below(40)),
        };
        // A deep tree is worth some mixed work before it is taken down again.
        self.mood = if self.mood == Mood::GrowDeep { Mood::Mix } else { mood };
        self.mood_left = acts;
    }

    fn act(&mut self) -> Result<(), Fault> {
        let roll = self.wire.random.below(100);
        match (self.mood, roll) {
            (_, 0..=14) => self.hostile_act(),
            (_, 15..=19) => self.ask(),
            (_, 20..=21) => self.there_and_back_and_there(),
            (Mood::Grow, _) => self.insert(),
            (Mood::GrowDeep, _) => self.insert_deep(),
            (Mood::Shrink, 22..=84) => self.shrink(),
            (Mood::Few, 22..=70) => self.keep_few(),
            (_, 22..=34) => self.insert(),
            (_, 35..=44) => self.remove(),
            (_, 45..=52) => self.swap_items(),
            (_, 53..=55) => self.swap_places(),
            (_, 56..=70) => self.set(),
            (_, 71..=76) => self.clear(),
            (_, 77..=86) => self.ask(),
            (_, 87..=89) => self.insert_two_at_once(),
            (_, 90..=92) => self.move_item(),
            (_, 93..=94) => self.set_in_advance(),
            (_, 95..=96) => self.pad(),
            (_, 97) => self.tidy(),
            _ => self.adopt_same_root(),
        }
    }

    fn hostile_act(&mut self) -> Result<(), Fault> {
        match self.wire.random.below(12) {
            0 => self.repeat_lines(),
            1 => self.mutate_line(),
            2 => self.halves_apart(),
            3 => self.stale_set(),
            4 => self.early_set(),
            5 => self.made_up_tree(),
            6 => self.insert_outside_gap(),
            7 => self.clear_of_listed_empty(),
            8 => self.silly_set(),
            _ => {
                for _ in 0..4 {
                    self.wire.play_any();
                }
                Ok(())
            }
        }
    }

    /// A listed item.
    fn listed(&mut self) -> Option<u64> {
        self.wire.random.pick(&self.keeper.tree.items())
    }

    /// A listed item that holds a record, or that holds none.
    fn listed_with(&mut self, recorded: bool) -> Option<u64> {
        let tree = &self.keeper.tree;
        let fits = |item: &u64| tree.record(*item).is_empty() != recorded;
        let items: Vec<u64> = tree.items().into_iter().filter(fits).collect();
        self.wire.random.pick(&items)
    }

    /// A number above 0 that is not listed.
    fn unlisted(&mut self) -> u64 {
        loop {
            let item = self.wire.random.item();
            if self.keeper.tree.place_of(item).is_none() {
                return item;
            }
        }
    }

    /// A spot for a new leaf: mostly beside the leaf it splits, else anywhere.
    fn spot(&mut self, item: u64) -> Spot {
        let random = &mut self.wire.random;
        let new_on_left = random.percent(50);
        if random.percent(60) {
            return self.keeper.tree.spot_at_holder(item, new_on_left);
        }
        let places = self.keeper.tree.all_places();
        let beside = random.pick(&places).unwrap_or_else(|| self.keeper.tree.top());
        Spot { beside, new_on_left }
    }

    /// What a set may give: a mass that is not silly, often at an edge.
    fn values(&mut self) -> [u64; 3] {
        let random = &mut self.wire.random;
        let mass_kg = match random.below(20) {
            0 => *SENSIBLE_KG.start(),
            1 => *SENSIBLE_KG.end(),
            2 => 1 + random.below(2_000_000) as u64,
            _ => 1 + random.below(100_000) as u64,
        };
        [mass_kg, random.below(500) as u64, random.number() >> random.below(64)]
    }

    fn insert(&mut self) -> Result<(), Fault> {
        if self.keeper.tree.len() >= MOST_ITEMS {
            return self.remove();
        }
        let item = self.unlisted();
        let spot = self.spot(item);
        self.keeper.insert(&mut self.wire, item, spot)
    }

    /// Lists the number after the highest one, beside it. Numbers at the very top
    /// of the range are passed over, for nothing comes after them.
    fn insert_deep(&mut self) -> Result<(), Fault> {
        if self.keeper.tree.len() >= MOST_ITEMS {
            return self.shrink();
        }
        let items = self.keeper.tree.items();
        let highest = items.into_iter().rev().find(|item| *item < u64::MAX - 8).unwrap_or(0);
        let item = highest + 1;
        let spot = self.keeper.tree.spot_at_holder(item, false);
        self.keeper.insert(&mut self.wire, item, spot)
    }

    fn remove(&mut self) -> Result<(), Fault> {
        match self.listed_with(false) {
            Some(item) => self.keeper.remove(&mut self.wire, item),
            None => self.clear(),
        }
    }

    fn clear(&mut self) -> Result<(), Fault> {
        match self.listed_with(true) {
            Some(item) => self.keeper.clear(&mut self.wire, item),
            None => self.set(),
        }
    }

    fn set(&mut self) -> Result<(), Fault> {
        let values = self.values();
        match self.listed() {
            Some(item) => self.keeper.set(&mut self.wire, item, values),
            None => self.insert(),
        }
    }

    fn shrink(&mut self) -> Result<(), Fault> {
        match self.listed_with(false) {
            Some(item) => self.keeper.remove(&mut self.wire, item),
            None if self.keeper.tree.is_empty() => self.ask(),
            None => self.clear(),
        }
    }

    fn keep_few(&mut self) -> Result<(), Fault> {
        let some = self.wire.random.below(4);
        if self.keeper.tree.len() < some {
            self.insert()
        } else {
            self.shrink()
        }
    }

    fn ask(&mut self) -> Result<(), Fault> {
        let listed = self.listed().filter(|_| self.wire.random.percent(60));
        let q = listed.unwrap_or_else(|| self.wire.random.item());
        self.keeper.ask(&mut self.wire, q).map(|_| ())
    }

    fn swap_items(&mut self) -> Result<(), Fault> {
        match (self.listed(), self.listed()) {
            (Some(a), Some(b)) if a != b => self.keeper.swap(&mut self.wire, a, b),
            _ => self.insert(),
        }
    }

    /// Swaps what stands at any two separate places: subtrees, and empty ones.
    fn swap_places(&mut self) -> Result<(), Fault> {
        let tree = self.keeper.tree.clone();
        let places = tree.all_places();
        let (a, b) = match (self.wire.random.pick(&places), self.wire.random.pick(&places)) {
            (Some(a), Some(b)) if tree.meeting(a, b).is_some() => (a, b),
            _ => return self.ask(),
        };
        let (exchange, after) = swapping(&mut self.wire, &tree, a, b)?;
        self.keeper.adopt(&mut self.wire, exchange, after)
    }

    /// Lists two numbers by one adopt of a chain.
    fn insert_two_at_once(&mut self) -> Result<(), Fault> {
        let tree = self.keeper.tree.clone();
        let (one, other) = (self.unlisted(), self.unlisted());
        if one == other || tree.len() >= MOST_ITEMS {
            return self.ask();
        }
        let spot = tree.spot_at_holder(one, true);
        let (first, between) = insertion(&mut self.wire, &tree, one, spot)?;
        let spot = between.spot_at_holder(other, false);
        let (second, after) = insertion(&mut self.wire, &between, other, spot)?;
        let both = chain(&mut self.wire, first, second)?;
        self.keeper.adopt(&mut self.wire, both, after)
    }

    /// Takes an empty item out and lists another in its stead by one adopt.
    fn move_item(&mut self) -> Result<(), Fault> {
        let tree = self.keeper.tree.clone();
        let new = self.unlisted();
        let old = match self.listed_with(false) {
            Some(old) => old,
            None => return self.insert(),
        };
        let (out, between) = removal(&mut self.wire, &tree, old)?;
        let spot = between.spot_at_holder(new, true);
        let (back, after) = insertion(&mut self.wire, &between, new, spot)?;
        let both = chain(&mut self.wire, out, back)?;
        self.keeper.adopt(&mut self.wire, both, after)
    }

    /// Sets two items, the path of the second made before the first is set: lawful,
    /// since it fits at the counter it was made for.
    fn set_in_advance(&mut self) -> Result<(), Fault> {
        let (one, other) = match (self.listed(), self.listed()) {
            (Some(one), Some(other)) if one != other => (one, other),
            _ => return self.insert(),
        };
        let values = self.values();
        let [mass_kg, offset_mm, rigging] = values;
        let revision = self.keeper.counter + 1;
        let first = Record { revision, mass_kg, offset_mm, rigging };
        let second = Record { revision: revision + 1, ..first };
        let tree = self.keeper.tree.clone();
        let between = tree.with_record(one, first);
        let (lifted, _) = record_change(&mut self.wire, &between, other, second)?;
        self.keeper.set(&mut self.wire, one, values)?;
        self.wire.settle(&self.keeper.tree);
        let request = set_request(&between, other, values, lifted);
        let sent = self.honest(&request);
        assert_eq!(sent.refusal, None, "a path made in advance fits at its counter");
        self.keeper.counter += 1;
        self.keeper.tree = Rc::new(between.with_record(other, second));
        Ok(())
    }

    /// Deepens the tree by empty places, which takes no line.
    fn pad(&mut self) -> Result<(), Fault> {
        let tree = self.keeper.tree.clone();
        if tree.all_places().len() < 400 {
            let places = tree.all_places();
            let place = self.wire.random.pick(&places).unwrap_or_else(|| tree.top());
            let levels = 1 + self.wire.random.below(130);
            self.keeper.tree = Rc::new(tree.padded(place, levels));
        }
        self.ask()
    }

    /// Drops all empty places, which takes no line.
    fn tidy(&mut self) -> Result<(), Fault> {
        self.keeper.tree = Rc::new(self.keeper.tree.tidied());
        self.ask()
    }

    /// There and back again by one chain: EI(y,y) of the root is adopted.
    fn adopt_same_root(&mut self) -> Result<(), Fault> {
        let tree = self.keeper.tree.clone();
        let item = self.unlisted();
        let spot = tree.spot_at_holder(item, true);
        let (there, _) = insertion(&mut self.wire, &tree, item, spot)?;
        let back = turn(&mut self.wire, there)?;
        let Exchange { from, to, m } = chain(&mut self.wire, there, back)?;
        let adopt = Request::Adopt { y: from, y_new: to, m };
        self.trick(Trick::AdoptSameRoot, &adopt);
        Ok(())
    }

    /// Sends the request a trick comes down to.
    fn trick(&mut self, trick: Trick, request: &Request) {
        self.wire.send(digits(&request.frame()), Source::Trick(trick));
    }

    /// Some earlier lines again, in their order. If one changes the root, the
    /// keeper goes back to the tree it had for that root; a line that would lead
    /// to a root it has no tree for is left out.
    fn repeat_lines(&mut self) -> Result<(), Fault> {
        let count = self.wire.lines.len();
        let start = self.wire.random.below(count);
        let length = 1 + self.wire.random.below(20);
        let earlier: Vec<Vec<u8>> =
            self.wire.lines.iter().skip(start).take(length).cloned().collect();
        for line in earlier {
            self.send_whatever(line, Source::Repeated);
        }
        Ok(())
    }

    /// Lists a number and takes it out again, which brings back the old root; the
    /// first adopt then fits once more and is sent again.
    fn there_and_back_and_there(&mut self) -> Result<(), Fault> {
        let root = self.keeper.tree.root();
        let item = self.unlisted();
        let spot = self.spot(item);
        self.keeper.insert(&mut self.wire, item, spot)?;
        self.wire.settle(&self.keeper.tree);
        let listed = self.keeper.tree.root();
        self.keeper.remove(&mut self.wire, item)?;
        self.wire.settle(&self.keeper.tree);
        let start = [&[0x0b][..], &root, &listed].concat();
        let adopts = |line: &&Vec<u8>| line.starts_with(&digits(&start));
        if let Some(line) = self.wire.lines.iter().find(adopts).cloned() {
            self.send_whatever(line, Source::Repeated);
        }
        Ok(())
    }

    /// An earlier line with one byte changed to a digit or to anything.
    fn mutate_line(&mut self) -> Result<(), Fault> {
        let count = self.wire.lines.len();
        let at = self.wire.random.below(count);
        let mut line = self.wire.lines[at].clone();
        if !line.is_empty() {
            let spot = self.wire.random.below(line.len());
            let other = self.wire.random.pick(b"0123456789abcdef0123456789abcdef.").unwrap_or(b'0');
            line[spot] = other;
            self.send_whatever(line, Source::Mutated);
        }
        Ok(())
    }

    fn send_whatever(&mut self, line: Vec<u8>, source: Source) {
        let leads_to = self.wire.root_after(&line);
        let tree = self.wire.trees.iter().rev().find(|tree| tree.root() == leads_to).cloned();
        if let Some(tree) = tree {
            let moves = leads_to != self.wire.registers.root;
            self.wire.send(line, source);
            self.keeper.counter = self.wire.registers.counter;
            if moves {
                self.keeper.tree = tree;
            }
            self.wire.settle(&self.keeper.tree);
        }
    }

    /// A join whose lower part ends where its upper part starts on one side only.
    fn halves_apart(&mut self) -> Result<(), Fault> {
        let new_apart = self.wire.random.percent(50);
        let trick = if new_apart { Trick::NewHalvesApart } else { Trick::OldHalvesApart };
        let (x, x_new, other) =
            (self.wire.random.digest(), self.wire.random.digest(), self.wire.random.digest());
        let (low, m1) = self.made_up_path(x, x_new, 2);
        let start = if new_apart { (low.y, other) } else { (other, low.y_new) };
        let (high, m2) = self.made_up_path(start.0, start.1, 1);
        let join = Request::Join { low, m1, z: high.y, z_new: high.y_new, m2 };
        self.trick(trick, &join);
        Ok(())
    }

    /// An accepted path over siblings that stand in no tree.
    fn made_up_path(&mut self, x: Digest, x_new: Digest, levels: usize) -> (One, Digest) {
        let siblings: Vec<Digest> = (0..levels).map(|_| self.wire.random.digest()).collect();
        let request = Request::Path { x, x_new, sides: 0, siblings: siblings.clone() };
        let m = self.honest(&request).issued.unwrap_or(ZERO);
        let fold = |from| siblings.iter().fold(from, |y, s| Formed::new().parent(y, *s));
        (One { x, y: fold(x), x_new, y_new: fold(x_new) }, m)
    }

    /// A set on a tree the module has left, made for the present counter.
    fn stale_set(&mut self) -> Result<(), Fault> {
        let root = self.wire.registers.root;
        let left = |tree: &&Rc<Tree>| tree.root() != root && !tree.is_empty();
        let trees: Vec<Rc<Tree>> = self.wire.trees.iter().filter(left).cloned().collect();
        if let Some(tree) = self.wire.random.pick(&trees) {
            self.set_on(&tree, 1, Trick::StaleSet)?;
        }
        Ok(())
    }

    /// A set on the present tree, made for a counter not reached yet.
    fn early_set(&mut self) -> Result<(), Fault> {
        let tree = self.keeper.tree.clone();
        if !tree.is_empty() {
            self.set_on(&tree, 2, Trick::EarlySet)?;
        }
        Ok(())
    }

    /// A set of a silly mass with its memorandum in good order. Only the mass stands in its way.
    fn silly_set(&mut self) -> Result<(), Fault> {
        let tree = self.keeper.tree.clone();
        if !tree.is_empty() {
            let which = self.wire.random.below(SILLY_KG.len());
            let [_, offset_mm, rigging] = self.values();
            let values = [SILLY_KG[which], offset_mm, rigging];
            self.set_to(values, &tree, 1, Trick::SillySet(which))?;
        }
        Ok(())
    }

    fn set_on(&mut self, tree: &Tree, ahead: u64, trick: Trick) -> Result<(), Fault> {
        let values = self.values();
        self.set_to(values, tree, ahead, trick)
    }

    fn set_to(
        &mut self,
        values: [u64; 3],
        tree: &Tree,
        ahead: u64,
        trick: Trick,
    ) -> Result<(), Fault> {
        let [mass_kg, offset_mm, rigging] = values;
        let revision = self.wire.registers.counter + ahead;
        let record = Record { revision, mass_kg, offset_mm, rigging };
        let item = self.wire.random.pick(&tree.items()).ok_or(Fault::NotLegal)?;
        let (lifted, _) = record_change(&mut self.wire, tree, item, record)?;
        let request = set_request(tree, item, values, lifted);
        self.trick(trick, &request);
        Ok(())
    }

    /// The insertion of a number beside a leaf whose gap has it not, with every
    /// memorandum in good order. Only the gap test stands in its way.
    fn insert_outside_gap(&mut self) -> Result<(), Fault> {
        let tree = self.keeper.tree.clone();
        let number = self.wire.random.item();
        let item = match self.listed() {
            Some(item) => item,
            None => return Ok(()),
        };
        let after = tree.next_of(item).unwrap_or(item);
        if in_gap(number, item, after) {
            return Ok(());
        }
        let place = tree.place_of(item).ok_or(Fault::NotLegal)?;
        let mut formed = Formed::new();
        let hash = formed.record_hash(&tree.record(item));
        let old = [formed.leaf(item, number, hash), formed.leaf(number, after, ZERO)];
        let new = [tree.digest(place), ZERO];
        let (two, m) = two_at_one_place(&mut self.wire, &tree, place, old, new)?;
        let (y, y_new) = (two.y, two.y_new);
        let request = Request::Place { item, next: number, after, hash, y, y_new, m };
        self.trick(Trick::InsertOutsideGap, &request);
        Ok(())
    }

    /// The clear of a listed empty item, again with its memorandum in good order.
    fn clear_of_listed_empty(&mut self) -> Result<(), Fault> {
        let tree = self.keeper.tree.clone();
        let item = match self.listed_with(false) {
            Some(item) => item,
            None => return Ok(()),
        };
        let (lifted, _) = record_change(&mut self.wire, &tree, item, Record::EMPTY)?;
        let next = tree.next_of(item).unwrap_or(item);
        let One { y, y_new, .. } = lifted.change;
        let request = Request::Clear { item, next, old: Record::EMPTY, y, y_new, m: lifted.m };
        self.trick(Trick::ClearOfListedEmpty, &request);
        Ok(())
    }

    /// A ring of two that nobody ever listed, with memoranda in good order: it may
    /// neither be adopted nor asked about.
    fn made_up_tree(&mut self) -> Result<(), Fault> {
        let (a, b) = (self.wire.random.item(), self.wire.random.item());
        if a == b {
            return Ok(());
        }
        let lone = Tree::new().with_inserted(a, Spot { beside: 0, new_on_left: false });
        let both = lone.with_inserted(b, lone.spot_at_holder(b, false));
        if both.root() == self.wire.registers.root {
            return Ok(());
        }
        if self.wire.random.percent(50) {
            let (exchange, _) = removal(&mut self.wire, &both, b)?;
            let Exchange { from, to, m } = exchange;
            self.trick(Trick::MadeUpAdopt, &Request::Adopt { y: from, y_new: to, m });
        } else {
            self.ask_made_up(a, b);
        }
        Ok(())
    }

    fn ask_made_up(&mut self, item: u64, next: u64) {
        let record = Record { revision: 1, mass_kg: 61_400, offset_mm: 0, rigging: 0 };
        let x = leaf_digest(item, next, &record);
        let (lifted, m) = self.made_up_path(x, x, 1);
        let y = lifted.y;
        let m = self.honest(&Request::Witness { x, y, m }).issued.unwrap_or(ZERO);
        self.trick(Trick::MadeUpAsk, &Request::Ask { q: item, item, next, record, y, m });
    }
}

/// The set of an item on a tree, from a U1 up to its root.
fn set_request(tree: &Tree, item: u64, values: [u64; 3], lifted: Lifted) -> Request {
    let next = tree.next_of(item).unwrap_or(item);
    let old = tree.record(item);
    let One { y, y_new, .. } = lifted.change;
    Request::Set { item, next, old, values, y, y_new, m: lifted.m }
}
