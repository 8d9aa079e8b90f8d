//! What the tests share: a keeper and a module that talk, and a plain list to compare with.

#![allow(dead_code)]

use reference::module::{answer, Registers, REPLY_SPACE};
use std::collections::BTreeMap;
use tablet::keeper::{Heard, Keeper, Say};
use tablet::store;
use tablet::words::{self, Word};

pub const SECRET: [u8; 32] = [1; 32];

/// A keeper and an open module, both with nothing listed at first.
#[derive(Clone)]
pub struct Cab {
    pub keeper: Keeper,
    pub module: Registers,
    /// The lines of the last wish with their replies, without 0A.
    pub said: Vec<(Vec<u8>, Vec<u8>)>,
}

impl Cab {
    pub fn new() -> Cab {
        let module = Registers { secret: SECRET, opened: true, ..Registers::default() };
        Cab { keeper: Keeper::load(b"").unwrap(), module, said: Vec::new() }
    }

    /// A cab in which these wishes were done.
    pub fn after(wishes: &[&str]) -> Cab {
        let mut cab = Cab::new();
        for wish in wishes {
            assert_eq!(cab.wish(wish), "# done", "{}", wish);
        }
        cab
    }

    /// Carries a wish through, and gives what a person is told.
    pub fn wish(&mut self, text: &str) -> String {
        self.say(text.as_bytes())
    }

    /// Carries a line through that need not be a wish.
    pub fn say(&mut self, line: &[u8]) -> String {
        self.said.clear();
        let mut told = begin(&mut self.keeper, line);
        while let Some(line) = for_module(&told) {
            let reply = self.reply(&line);
            told = words::line(&self.keeper.hear(&reply).say);
            self.said.push((line, reply));
        }
        text(&told)
    }

    /// The module's reply to a line, without its 0A.
    pub fn reply(&mut self, line: &[u8]) -> Vec<u8> {
        let mut reply = answer(&mut self.module, line, REPLY_SPACE).reply_line;
        assert_eq!(reply.pop(), Some(b'\n'));
        reply
    }

    /// Sees that keeper and module have one root and one counter.
    pub fn agrees(&self) {
        assert_eq!(self.keeper.root(), self.module.root);
        assert_eq!(self.keeper.counter(), self.module.counter);
    }

    pub fn store(&self) -> Vec<u8> {
        store::bytes(self.keeper.leaves())
    }

    /// The keeper is started anew on its store, and handed the counter.
    pub fn reload(&mut self) {
        let (bytes, counter) = (self.store(), self.keeper.counter());
        self.keeper = Keeper::load(&bytes).unwrap();
        self.keeper.set_counter(counter);
        assert_eq!(self.store(), bytes);
        self.agrees();
    }

    /// The kinds of the lines of the last wish.
    pub fn kinds(&self) -> Vec<u8> {
        let kind = |line: &[u8]| u8::from_str_radix(&text(&line[..2]), 16).unwrap();
        self.said.iter().map(|(line, _)| kind(line)).collect()
    }
}

/// The first output line for a line where none is awaited.
pub fn begin(keeper: &mut Keeper, line: &[u8]) -> Vec<u8> {
    match words::parse(line) {
        Some(Word::Wish(wish)) => match keeper.wish(wish) {
            Ok(line) => line,
            Err(refusal) => words::ended(&words::refused(refusal)),
        },
        Some(Word::Counter(counter)) => {
            keeper.set_counter(counter);
            words::ended(words::DONE)
        }
        None => words::ended(words::WHAT),
    }
}

/// What an output line holds for the module, without its 0A; none if it is for a person.
pub fn for_module(line: &[u8]) -> Option<Vec<u8>> {
    (line[0] != b'#').then(|| line[..line.len() - 1].to_vec())
}

/// A line as text, without its 0A.
pub fn text(line: &[u8]) -> String {
    String::from_utf8(line.strip_suffix(b"\n").unwrap_or(line).to_vec()).unwrap()
}

/// Nothing changed, and the wish is over with these words.
pub fn ended(heard: &Heard, words_told: &str) -> bool {
    !heard.changed
        && !matches!(heard.say, Say::Line(_))
        && text(&words::line(&heard.say)) == words_told
}

/// A record's four numbers.
pub type Numbers = [u64; 4];

/// The list as anybody would write it down, and what has to be told by it.
#[derive(Clone, Default)]
pub struct List {
    pub items: BTreeMap<u64, Numbers>,
    /// The module's counter, and the keeper's.
    pub counter: u64,
    pub known: u64,
}

impl List {
    /// Does a wish, and gives what has to be told.
    pub fn wish(&mut self, line: &[u8]) -> String {
        let line = match std::str::from_utf8(line) {
            Ok(line) => line,
            Err(_) => return "# what?".to_string(),
        };
        let words: Vec<&str> = line.split(' ').collect();
        let numbers: Option<Vec<u64>> = words[1..].iter().map(|word| number(word)).collect();
        match (words[0], numbers.as_deref()) {
            ("counter", Some([counter])) => {
                self.known = *counter;
                "# done".to_string()
            }
            ("ask", Some([q])) => self.ask(*q),
            ("insert", Some([item])) => self.change(*item, |list| list.insert(*item)),
            ("remove", Some([item])) => self.change(*item, |list| list.remove(*item)),
            ("set", Some([item, values @ ..])) if values.len() == 3 => {
                self.change(*item, |list| list.set(*item, values))
            }
            ("clear", Some([item])) => self.change(*item, |list| list.clear(*item)),
            _ => "# what?".to_string(),
        }
    }

    fn ask(&self, q: u64) -> String {
        if q == 0 {
            return "# refused zero".to_string();
        }
        let below = self.items.range(..q).next_back().or_else(|| self.items.iter().next_back());
        let above = self.items.range(q..).next().or_else(|| self.items.iter().next());
        match (self.items.get(&q), below, above) {
            (Some([0, ..]), ..) => format!("# empty {}", q),
            (Some([a, b, c, d]), ..) => format!("# record {} {} {} {} {}", q, a, b, c, d),
            (None, Some((below, _)), Some((above, _))) => format!("# gap {} {}", below, above),
            _ => format!("# none {}", q),
        }
    }

    fn change(&mut self, item: u64, f: impl Fn(&mut List) -> Result<(), &'static str>) -> String {
        let mut changed = self.clone();
        let refused = match f(&mut changed) {
            _ if item == 0 => "refused zero",
            Err("mass") => "refused mass",
            Err("listed") => "refused listed",
            Err("unlisted") => "refused unlisted",
            Err("recorded") => "refused recorded",
            Err("empty") => "refused empty",
            Err("full") => "refused full",
            Err(other) if self.known != u64::MAX => other,
            Ok(()) if self.known != u64::MAX => {
                *self = changed;
                "done"
            }
            _ => "refused top",
        };
        format!("# {}", refused)
    }

    fn insert(&mut self, item: u64) -> Result<(), &'static str> {
        refuse_if(self.items.contains_key(&item), "listed")?;
        refuse_if(self.items.len() == 1024, "full")?;
        self.items.insert(item, [0; 4]);
        Ok(())
    }

    fn remove(&mut self, item: u64) -> Result<(), &'static str> {
        let record = self.items.remove(&item).ok_or("unlisted")?;
        refuse_if(record[0] != 0, "recorded")
    }

    fn set(&mut self, item: u64, values: &[u64]) -> Result<(), &'static str> {
        refuse_if(values[0] == 0 || values[0] > 2_000_000, "mass")?;
        let record = self.items.get_mut(&item).ok_or("unlisted")?;
        self.counter += 1;
        *record = [self.counter, values[0], values[1], values[2]];
        refuse_if(self.known.wrapping_add(1) != self.counter, "module refused 8")?;
        self.known = self.counter;
        Ok(())
    }

    fn clear(&mut self, item: u64) -> Result<(), &'static str> {
        let record = self.items.get_mut(&item).ok_or("unlisted")?;
        refuse_if(record[0] == 0, "empty")?;
        *record = [0; 4];
        self.counter += 1;
        refuse_if(self.known.wrapping_add(1) != self.counter, "module spoke otherwise")?;
        self.known = self.counter;
        Ok(())
    }
}

fn refuse_if(condition: bool, word: &'static str) -> Result<(), &'static str> {
    if condition {
        Err(word)
    } else {
        Ok(())
    }
}

/// A number that is written as it has to be.
fn number(word: &str) -> Option<u64> {
    word.parse().ok().filter(|number: &u64| number.to_string() == word)
}

/// Numbers in an order that depends on a seed alone.
pub fn shuffled(mut list: Vec<u64>, seed: u64) -> Vec<u64> {
    let mut state = seed;
    for at in (1..list.len()).rev() {
        state =
            state.wrapping_mul(6_364_136_223_846_793_005).wrapping_add(1_442_695_040_888_963_407);
        list.swap(at, (state >> 33) as usize % (at + 1));
    }
    list
}
