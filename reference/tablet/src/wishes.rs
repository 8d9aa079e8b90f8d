//! Wishes from a seed: legal ones and illegal ones of every sort, and lines that are no wish.
//!
//! They are meant for a keeper with an empty store and an open module with an empty list. The
//! list that comes of them is followed here, so that each sort can be aimed at. The keeper's
//! counter is at times set to a wrong one and, some wishes later, to the right one again.

use crate::tree::SLOTS;
use std::collections::BTreeMap;

const TOP: u64 = u64::MAX;

/// The same lines, without their 0A, each time for a seed.
pub fn generate(seed: u64, count: usize) -> Vec<Vec<u8>> {
    let mut wishes = Wishes::new(seed);
    (0..count).map(|_| wishes.line()).collect()
}

/// A small deterministic source of numbers (splitmix64).
struct Random {
    state: u64,
}

impl Random {
    fn number(&mut self) -> u64 {
        self.state = self.state.wrapping_add(0x9e37_79b9_7f4a_7c15);
        let mut z = self.state;
        z = (z ^ (z >> 30)).wrapping_mul(0xbf58_476d_1ce4_e5b9);
        z = (z ^ (z >> 27)).wrapping_mul(0x94d0_49bb_1331_11eb);
        z ^ (z >> 31)
    }

    /// A number below a limit that is above 0.
    fn below(&mut self, limit: usize) -> usize {
        (self.number() % limit as u64) as usize
    }

    fn pick<T: Copy>(&mut self, list: &[T]) -> T {
        list[self.below(list.len())]
    }
}

/// What is wished for mostly, for a while.
#[derive(Clone, Copy)]
enum Mood {
    Mixed,
    Grow,
    Shrink,
    Weigh,
}

impl Mood {
    /// Of a hundred lines, how many wish insert, remove, set, clear and ask; the rest are odd.
    fn shares(self) -> [usize; 5] {
        match self {
            Mood::Mixed => [25, 20, 20, 10, 20],
            Mood::Grow => [90, 1, 3, 1, 3],
            Mood::Shrink => [1, 68, 3, 20, 6],
            Mood::Weigh => [5, 2, 45, 25, 20],
        }
    }
}

struct Wishes {
    random: Random,
    /// The list: each item, and whether it has a record.
    list: BTreeMap<u64, bool>,
    /// The module's counter.
    counter: u64,
    /// The keeper's counter where it is a wrong one, and the lines until it is put right.
    wrong: Option<(u64, usize)>,
    mood: Mood,
    /// The lines until the mood changes.
    lines: usize,
}

impl Wishes {
    fn new(seed: u64) -> Wishes {
        let random = Random { state: seed };
        let (list, mood) = (BTreeMap::new(), Mood::Mixed);
        Wishes { random, list, counter: 0, wrong: None, mood, lines: 40 }
    }

    fn line(&mut self) -> Vec<u8> {
        self.change_mood();
        match self.wrong {
            Some((_, 0)) => {
                self.wrong = None;
                return format!("counter {}", self.counter).into_bytes();
            }
            Some((counter, lines)) => self.wrong = Some((counter, lines - 1)),
            None => {}
        }
        let mut share = self.random.below(100);
        for (sort, size) in self.mood.shares().into_iter().enumerate() {
            if share < size {
                return self.wish(sort).into_bytes();
            }
            share -= size;
        }
        self.odd()
    }

    fn change_mood(&mut self) {
        if self.lines == 0 {
            let moods = [Mood::Mixed, Mood::Mixed, Mood::Weigh, Mood::Grow, Mood::Shrink];
            self.mood = self.random.pick(&moods);
            self.lines = match self.mood {
                Mood::Mixed => 50 + self.random.below(200),
                Mood::Weigh => 50 + self.random.below(400),
                Mood::Grow | Mood::Shrink => 20 + self.random.below(2000),
            };
        }
        self.lines -= 1;
        if self.has_its_way() {
            self.lines = self.lines.min(20);
        }
    }

    /// Whether there is nothing more to grow or to shrink.
    fn has_its_way(&self) -> bool {
        match self.mood {
            Mood::Grow => self.list.len() == SLOTS,
            Mood::Shrink => self.list.is_empty(),
            Mood::Mixed | Mood::Weigh => false,
        }
    }

    /// A wish of a sort, in the order of the shares.
    fn wish(&mut self, sort: usize) -> String {
        match sort {
            0 => self.insert(),
            1 => self.remove(),
            2 => self.set(),
            3 => self.clear(),
            _ => self.ask(),
        }
    }

    /// Whether the keeper takes a change: not with the counter at its top.
    fn takes_changes(&self) -> bool {
        !matches!(self.wrong, Some((TOP, _)))
    }

    fn insert(&mut self) -> String {
        let item = if self.random.below(20) == 0 { self.some_number() } else { self.new_number() };
        let legal = item != 0 && self.list.len() < SLOTS && !self.list.contains_key(&item);
        if legal && self.takes_changes() {
            self.list.insert(item, false);
        }
        format!("insert {}", item)
    }

    fn ask(&mut self) -> String {
        let aimed = self.random.below(2) == 0;
        let q = if aimed { self.mostly(|recorded| recorded) } else { self.some_number() };
        format!("ask {}", q)
    }

    fn remove(&mut self) -> String {
        let aimed = self.random.below(10) != 0;
        let item = self.mostly(|recorded| recorded != aimed);
        if self.list.get(&item) == Some(&false) && self.takes_changes() {
            self.list.remove(&item);
        }
        format!("remove {}", item)
    }

    fn set(&mut self) -> String {
        let item = self.mostly(|_| true);
        let mass = self.mass();
        let (offset, rigging) = (self.value(), self.value());
        let legal = self.list.contains_key(&item) && (1..=2_000_000).contains(&mass);
        // By a wrong counter the module refuses the set.
        if legal && self.wrong.is_none() {
            self.list.insert(item, true);
            self.counter += 1;
        }
        format!("set {} {} {} {}", item, mass, offset, rigging)
    }

    /// A clear. The module takes it also by a wrong counter, but with another reply than the
    /// keeper awaits, and then they never agree again; so there it is a question.
    fn clear(&mut self) -> String {
        let item = self.mostly(|recorded| recorded);
        if self.list.get(&item) == Some(&true) && self.takes_changes() {
            if self.wrong.is_some() {
                return format!("ask {}", item);
            }
            self.list.insert(item, false);
            self.counter += 1;
        }
        format!("clear {}", item)
    }

    /// Mostly a listed item of which this is true; else any number.
    fn mostly(&mut self, fits: impl Fn(bool) -> bool) -> u64 {
        let fitting: Vec<u64> = self
            .list
            .iter()
            .filter_map(|(item, recorded)| fits(*recorded).then_some(*item))
            .collect();
        if fitting.is_empty() || self.random.below(8) == 0 {
            self.some_number()
        } else {
            self.random.pick(&fitting)
        }
    }

    /// Any number: listed or not, 0 at times.
    fn some_number(&mut self) -> u64 {
        let listed: Vec<u64> = self.list.keys().copied().collect();
        match self.random.below(12) {
            0 => 0,
            1..=5 if !listed.is_empty() => self.random.pick(&listed),
            6..=7 if !listed.is_empty() => {
                let near = self.random.pick(&listed);
                self.random.pick(&[near.wrapping_add(1), near.wrapping_sub(1)])
            }
            8 if !listed.is_empty() => self.at_the_wrap(&listed),
            _ => self.new_number(),
        }
    }

    /// A number beside the highest or the lowest item, where the ring closes.
    fn at_the_wrap(&mut self, listed: &[u64]) -> u64 {
        let (lowest, highest) = (listed[0], listed[listed.len() - 1]);
        let beside = [
            lowest,
            lowest - 1,
            lowest.wrapping_add(1),
            highest,
            highest - 1,
            highest.wrapping_add(1),
        ];
        self.random.pick(&beside)
    }

    /// A number that is likely not listed: small, at the top, or anywhere.
    fn new_number(&mut self) -> u64 {
        match self.random.below(10) {
            0 => TOP - self.random.below(6) as u64,
            1 => 1 + self.random.below(6) as u64,
            2 => 1 << self.random.below(64),
            3 => self.random.below(3000) as u64,
            _ => self.random.number() >> self.random.pick(&[0, 0, 8, 32, 48]),
        }
    }

    fn mass(&mut self) -> u64 {
        let any = self.random.number();
        match self.random.below(16) {
            0 => 0,
            1 => 2_000_001,
            2 => TOP,
            3 => any,
            4 => 1,
            5 => 2_000_000,
            _ => 1 + any % 2_000_000,
        }
    }

    fn value(&mut self) -> u64 {
        let any = self.random.number();
        self.random.pick(&[0, 1, TOP, any, any % 5000, any % 5000])
    }

    /// A line about the counter, or one that is no wish.
    fn odd(&mut self) -> Vec<u8> {
        if self.wrong.is_some() || self.random.below(3) != 0 {
            return self.no_wish();
        }
        let other =
            [TOP, TOP, self.counter + 1, self.counter.wrapping_sub(1), self.random.number()];
        let counter = self.random.pick(&other);
        if counter != self.counter {
            self.wrong = Some((counter, self.random.below(8)));
        }
        format!("counter {}", counter).into_bytes()
    }

    fn no_wish(&mut self) -> Vec<u8> {
        match self.random.below(8) {
            0 => self.rubbish(),
            1..=2 => self.misspelt(),
            _ => self.random.pick(NO_WISHES).to_vec(),
        }
    }

    /// Bytes of any sort but 0A, at times very many.
    fn rubbish(&mut self) -> Vec<u8> {
        let length = self.random.pick(&[1, 2, 10, 100, 194, 195, 255, 256, 257, 5000]);
        let byte = |random: &mut Random| match random.number() as u8 {
            b'\n' => 0,
            other => other,
        };
        (0..length).map(|_| byte(&mut self.random)).collect()
    }

    /// A wish with one byte too many, which makes it none.
    fn misspelt(&mut self) -> Vec<u8> {
        let verb = self.random.pick(&["insert", "remove", "clear", "ask", "counter"]);
        let mut line = format!("{} {}", verb, self.some_number()).into_bytes();
        let at = self.random.below(line.len() + 1);
        line.insert(at, self.random.pick(b" \r\t\0-+.,xA#\xff"));
        line
    }
}

/// Lines that are no wish.
const NO_WISHES: &[&[u8]] = &[
    b"",
    b" ",
    b"#",
    b"# done",
    b"what?",
    b"90",
    b"0008",
    b"000f",
    b"8f0000000000000005",
    b"insert",
    b"insert ",
    b"insert 05",
    b"insert 00",
    b"insert 5 6",
    b"insert 18446744073709551616",
    b"insert 99999999999999999999",
    b"insert 100000000000000000005",
    b"insert -1",
    b"insert five",
    b"insert 1e3",
    b"INSERT 5",
    b"inser 5",
    b"inserts 5",
    b"remove",
    b"remove 36893488147419103237",
    b"set",
    b"set 5",
    b"set 5 100 0",
    b"set 5 100 0 0 0",
    b"set 5 100  0",
    b"set 5 0100 0 0",
    b"set 5 100 0 18446744073709551616",
    b"clear",
    b"clear 5 0",
    b"ask",
    b"ask 5?",
    b"ask 0x5",
    b"counter",
    b"counter -1",
    b"counter 007",
    b"counter 1 2",
    b"counter 18446744073709551616",
    b"swap 5 9",
    b"quit",
    b"save",
    b"ask 5\r",
    b"ask 5\0",
    b"\xef\xbb\xbfask 5",
    b"ask \xd9\xa5",
];
