"""What came of a wish, in plain words: of a keeper's line `# …` and the wish that it answers. Shared by bin/cab and the demo.

Masses and offsets have thousands commas and units. Item numbers and rigging codes are names, and are written as they are.
"""
import re

# What a keeper may tell of a wish.
TOLD = re.compile(
    r"# (done|record( \d+){5}|empty \d+|gap \d+ \d+|none \d+|refused [a-z]+|module refused \d+|module spoke otherwise)", re.ASCII
)

# The refusals, as docs/PROTOCOL.md says them in plain words; scripts/check-cab holds them to that table.
REFUSALS = {
    1: "this is not a line of hexadecimal",
    2: "no such request",
    3: "the request is cut short, too long or inconsistent",
    4: "item number 0 does not exist",
    5: "a record without a revision may hold nothing else",
    6: "this leaf says nothing about that number",
    7: "the counter is used up",
    8: "this module did not vouch for that",
    9: "the same, of the second",
    10: "stale: your copy is old, fetch the present one",
    11: "there is nothing to clear",
    12: "the secret may not be all zero",
    13: "the module has to be opened first",
    14: "it is open; it opens once",
    15: "the caller lent too little room for a reply",
    16: "no load weighs that: give its mass in kilograms",
}
HEAVIEST = 2_000_000  # kg, the most that a set may give
SLOTS = 1_024  # the most items of a list
AGAIN = "quit, and start cab again: it lists anew what the store has"


def weight(mass, offset, rigging):
    return f"{mass:,} kg, offset {offset:,} mm, rigging code {rigging}"


def record(item, revision, *values):
    return f"item {item}: {weight(*values)} (revision {revision:,})"


def gap(q, item, following):
    """Why a number is not listed, by the gap that it lies in."""
    if item == following:
        return f"item {q} is not listed: item {item} is the only one that is"
    if q > item and item > following:
        return f"item {q} is not listed: item {item} is the highest that is"
    if item > following:
        return f"item {q} is not listed: item {following} is the lowest that is"
    return f"item {q} is not listed: behind item {item} the next one that is, is item {following}"


def heavy(mass):
    """Why a mass cannot be set."""
    if mass == 0:
        return "a record has to have a mass above 0 kg; to take a record away, clear it"
    return f"{mass:,} kg is above {HEAVIEST:,} kg, which no load is; give the mass in kilograms, and not in grams"


def refused(word, item, mass):
    """Why the keeper refuses by itself."""
    return {
        "zero": "item number 0 does not exist; item numbers begin with 1",
        "mass": heavy(mass),
        "listed": f"item {item} is listed already",
        "unlisted": f"item {item} is not listed; insert it first",
        "recorded": f"item {item} still has a record; clear it first, and then remove it",
        "empty": f"item {item} has no record, so there is nothing to clear",
        "full": f"{SLOTS:,} items are listed, and there is room for no more; remove one first",
        "top": "the module's change counter is used up; nothing can be changed any more, so replace the module",
    }.get(word)


def done(verb, item, values, counter):
    if verb == "set":
        return record(item, counter, *values)
    return {
        "insert": f"item {item} is listed; it has no record yet",
        "remove": f"item {item} is not listed any more",
        "clear": f"item {item} has no record any more",
    }.get(verb)


def found(q, sort, numbers):
    """A finding that the module vouches for."""
    if sort == "record":
        return f"{record(*numbers)}; the module vouches for it"
    if sort == "empty":
        return f"item {numbers[0]} is listed and has no record; the module vouches for no weight"
    if sort == "gap":
        return f"{gap(q, *numbers)}; the module vouches for it"
    return f"item {q} is not listed: nothing is; the module vouches for it"


def not_done(verb, why):
    """Whoever asked for a weight must not think that there is one."""
    return f"no answer: {why}; do not lift by a weight that is not vouched for" if verb == "ask" else f"not done: {why}"


def otherwise(verb, committed):
    """The module's reply was not the one that was due. `committed`: it was one to a line by which the module changes."""
    if committed:
        return f"not sure: the module's reply is not the one that was due, and whether it made the change is not known; {AGAIN}"
    return not_done(verb, f"the module's reply is not the one that was due, and nothing is changed; {AGAIN}")


def tell(wish, told, counter, committed):
    """What came of a wish, as `verb number..`, by what the keeper told of it; `counter` is the module's after it. None where the
    keeper told what no keeper tells of such a wish."""
    verb, item, *values = [int(word) if word.isdigit() else word for word in wish.split(" ")]
    if not TOLD.fullmatch(told):
        return None
    words = told.split(" ")[1:]
    if words == ["done"]:
        return done(verb, item, values, counter)
    if words == ["module", "spoke", "otherwise"]:
        return otherwise(verb, committed)
    if words[0] == "module":
        number = int(words[2])
        return not_done(verb, f"the module refuses it, by {number}: {REFUSALS[number]}") if number in REFUSALS else None
    if words[0] == "refused":
        why = refused(words[1], item, values[0] if values else 0)
        return why and not_done(verb, why)
    return found(item, words[0], [int(number) for number in words[1:]]) if verb == "ask" else None
