//! Whole conversations with the second module: a list of 1,024 items, and generated wishes.

#![forbid(unsafe_code)]

mod common;

use common::{shuffled, Cab, List};
use std::collections::BTreeSet;
use tablet::keeper::Keeper;
use tablet::wishes;

/// 1,024 numbers, the lowest and the highest among them, in no order.
fn numbers() -> Vec<u64> {
    let mut numbers: Vec<u64> = (1..1024).map(|n| 1 + (n - 1) * 17_000_000_000_000_000).collect();
    numbers.push(u64::MAX);
    shuffled(numbers, 7)
}

/// Carries a wish through and sees that it comes out as the plain list says, with the roots equal.
fn see(cab: &mut Cab, list: &mut List, wish: &str) {
    assert_eq!(cab.wish(wish), list.wish(wish.as_bytes()), "{}", wish);
    cab.agrees();
}

#[test]
fn a_list_of_1024_items_comes_and_goes() {
    let (mut cab, mut list) = (Cab::new(), List::default());
    let items = numbers();
    for (at, item) in items.iter().enumerate() {
        see(&mut cab, &mut list, &format!("insert {}", item));
        if at % 100 == 0 {
            cab.reload();
        }
    }
    assert_eq!(list.items.len(), 1024);
    see(&mut cab, &mut list, "insert 2");
    assert_eq!(cab.wish("insert 2"), "# refused full");
    cab.reload();
    for (at, item) in items.iter().enumerate() {
        see(&mut cab, &mut list, &format!("set {} {} {} {}", item, at + 1, u64::MAX, at % 5));
    }
    cab.reload();
    for item in &items {
        for q in [*item, item.wrapping_add(1).max(1), (item - 1).max(1)] {
            see(&mut cab, &mut list, &format!("ask {}", q));
        }
    }
    let items = shuffled(items, 8);
    for item in &items {
        see(&mut cab, &mut list, &format!("clear {}", item));
        see(&mut cab, &mut list, &format!("ask {}", item));
    }
    cab.reload();
    for (at, item) in items.iter().enumerate() {
        see(&mut cab, &mut list, &format!("remove {}", item));
        see(&mut cab, &mut list, &format!("ask {}", item));
        if at % 100 == 0 {
            cab.reload();
        }
    }
    assert!(list.items.is_empty());
    assert_eq!(cab.keeper.root(), [0; 32]);
    assert_eq!(cab.store(), b"");
}

/// A wish, what is told, and the digests that are worked for it.
fn worked(cab: &mut Cab, wish: &str) -> (String, u64) {
    let before = cab.keeper.worked();
    (cab.wish(wish), cab.keeper.worked() - before)
}

/// A wish costs digests of a few paths, however many items there are.
#[test]
fn digests_worked_for_wishes_of_a_full_list() {
    let mut cab = Cab::new();
    let done = |count: u64| ("# done".to_string(), count);
    for item in 1..1024 {
        assert!(worked(&mut cab, &format!("insert {}", item * 10)).1 <= 42);
    }
    // The item before 5 round the ring is the highest, in slot 1,022, beside the free slot. Two
    // leaves, the ten nodes above both, and the puts: over an empty neighbour one node less.
    assert_eq!(worked(&mut cab, "insert 5"), done(2 + 10 + 9 + 10));
    // A record, a leaf, ten nodes for the lines and ten to put it.
    assert_eq!(worked(&mut cab, "set 10 1 2 3"), done(2 + 10 + 10));
    assert_eq!(worked(&mut cab, "ask 10"), ("# record 10 1 1 2 3".to_string(), 0));
    assert_eq!(worked(&mut cab, "ask 11"), ("# gap 10 20".to_string(), 0));
    // A leaf, and nine nodes three times, the neighbour being empty before and after.
    assert_eq!(worked(&mut cab, "remove 5"), done(1 + 9 + 9 + 9));
    // The item before 15 is in slot 0 and has a record, and the two ways meet at the root.
    assert_eq!(worked(&mut cab, "insert 15"), done(3 + 9 + 9 + 1 + 10 + 10));
    assert_eq!(worked(&mut cab, "clear 10"), done(1 + 10 + 10));
    let (told, count) = worked(&mut cab, "remove 10");
    assert_eq!(told, "# done");
    assert!(count <= 2 * 41, "{}", count);
    let loaded = Keeper::load(&cab.store()).unwrap();
    assert_eq!(loaded.worked(), 1023 + 1022);
}

/// Generated wishes come out as the plain list says, whatever the sort.
#[test]
fn generated_wishes_come_out_as_the_list_says() {
    let mut told = BTreeSet::new();
    let mut fullest = 0;
    for seed in 0..6 {
        let (mut cab, mut list) = (Cab::new(), List::default());
        for (at, line) in wishes::generate(seed, 6000).iter().enumerate() {
            let expected = list.wish(line);
            assert_eq!(cab.say(line), expected, "seed {} line {}", seed, at + 1);
            assert_eq!(cab.keeper.root(), cab.module.root);
            assert_eq!(cab.keeper.counter(), list.known);
            assert_eq!(cab.module.counter, list.counter);
            fullest = fullest.max(list.items.len());
            told.insert(sort(&expected));
        }
        cab.keeper.set_counter(list.counter);
        cab.reload();
        let leaves = cab.keeper.leaves();
        assert_eq!(leaves.len(), list.items.len());
        assert!(leaves.iter().all(|leaf| list.items[&leaf.item] == leaf.record.numbers()));
    }
    let sorts = [
        "done",
        "empty",
        "gap",
        "module 8",
        "none",
        "record",
        "refused empty",
        "refused full",
        "refused listed",
        "refused mass",
        "refused recorded",
        "refused top",
        "refused unlisted",
        "refused zero",
        "what?",
    ];
    assert_eq!(told, sorts.into_iter().map(String::from).collect());
    assert_eq!(fullest, 1024);
}

/// What was told, without item numbers.
fn sort(told: &str) -> String {
    match told.split(' ').skip(1).collect::<Vec<_>>().as_slice() {
        ["refused", word] => format!("refused {}", word),
        ["module", "refused", number] => format!("module {}", number),
        [first, ..] => first.to_string(),
        [] => String::new(),
    }
}

#[test]
fn a_seed_settles_the_wishes_and_their_count_only_how_many() {
    let wishes = wishes::generate(5, 3000);
    assert_eq!(wishes, wishes::generate(5, 3000));
    assert_eq!(wishes[..1000], wishes::generate(5, 1000));
    assert_ne!(wishes, wishes::generate(6, 3000));
    assert!(wishes.iter().all(|line| !line.contains(&b'\n')));
}
