//! What the keeper refuses by itself: the words, their order, and that nothing changes by them.

#![forbid(unsafe_code)]

mod common;

use common::{begin, text, Cab};

/// Sees that a wish is refused by this word, without a line, and that nothing changes.
fn refused(cab: &Cab, wish: &str, word: &str) {
    let mut keeper = cab.keeper.clone();
    assert_eq!(
        text(&begin(&mut keeper, wish.as_bytes())),
        format!("# refused {}", word),
        "{}",
        wish
    );
    assert_eq!(keeper, cab.keeper, "{}", wish);
    assert!(!keeper.awaits());
}

/// Sees that a wish has a line.
fn taken(cab: &Cab, wish: &str) {
    let mut keeper = cab.keeper.clone();
    assert!(!begin(&mut keeper, wish.as_bytes()).starts_with(b"#"), "{}", wish);
    assert!(keeper.awaits());
}

fn at_the_top(cab: &Cab) -> Cab {
    let mut cab = cab.clone();
    assert_eq!(cab.wish("counter 18446744073709551615"), "# done");
    cab
}

/// Item 5 without a record, and 9 with one.
fn two_items() -> Cab {
    Cab::after(&["insert 5", "insert 9", "set 9 1 0 0"])
}

#[test]
fn number_0_comes_first() {
    for cab in [Cab::new(), two_items(), at_the_top(&two_items())] {
        for wish in ["insert 0", "remove 0", "set 0 0 0 0", "set 0 1 0 0", "clear 0", "ask 0"] {
            refused(&cab, wish, "zero");
        }
    }
}

#[test]
fn then_the_mass() {
    for cab in [Cab::new(), two_items(), at_the_top(&two_items())] {
        for mass in [0, 2_000_001, 61_400_000, u64::MAX] {
            for item in [1, 5, 9] {
                refused(&cab, &format!("set {} {} 0 0", item, mass), "mass");
            }
        }
    }
    for mass in [1, 2_000_000] {
        taken(&two_items(), &format!("set 5 {} 0 0", mass));
    }
}

#[test]
fn then_what_is_listed_and_what_is_not() {
    for cab in [two_items(), at_the_top(&two_items())] {
        for item in [5, 9] {
            refused(&cab, &format!("insert {}", item), "listed");
        }
        for wish in ["remove 7", "set 7 1 0 0", "clear 7"] {
            refused(&cab, wish, "unlisted");
            refused(&at_the_top(&Cab::new()), wish, "unlisted");
        }
    }
}

#[test]
fn then_records() {
    for cab in [two_items(), at_the_top(&two_items())] {
        refused(&cab, "remove 9", "recorded");
        refused(&cab, "clear 5", "empty");
    }
}

#[test]
fn then_a_full_list() {
    let mut cab = Cab::new();
    for item in 1..=1024 {
        assert_eq!(cab.wish(&format!("insert {}", item)), "# done");
    }
    for cab in [at_the_top(&cab), cab] {
        refused(&cab, "insert 2000", "full");
        refused(&cab, "insert 1", "listed");
        refused(&cab, "insert 0", "zero");
    }
}

#[test]
fn then_the_counter_and_it_stops_no_question() {
    let cab = at_the_top(&two_items());
    for wish in ["insert 7", "remove 5", "set 5 1 0 0", "set 9 1 0 0", "clear 9"] {
        refused(&cab, wish, "top");
    }
    for wish in ["ask 5", "ask 7", "ask 9"] {
        taken(&cab, wish);
    }
    taken(&at_the_top(&Cab::new()), "ask 1");
    refused(&at_the_top(&Cab::new()), "insert 1", "top");
    let mut below = cab;
    assert_eq!(below.wish("counter 18446744073709551614"), "# done");
    for wish in ["insert 7", "remove 5", "set 5 1 0 0", "clear 9"] {
        taken(&below, wish);
    }
}

/// The counter's last step is taken, and then no more.
#[test]
fn the_counter_reaches_its_top() {
    let mut cab = Cab::after(&["insert 5"]);
    cab.module.counter = u64::MAX - 1;
    assert_eq!(cab.wish("counter 18446744073709551614"), "# done");
    assert_eq!(cab.wish("set 5 1 2 3"), "# done");
    assert_eq!(cab.keeper.counter(), u64::MAX);
    cab.agrees();
    assert_eq!(cab.wish("ask 5"), "# record 5 18446744073709551615 1 2 3");
    assert_eq!(cab.wish("clear 5"), "# refused top");
}
