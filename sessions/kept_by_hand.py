"""The keeper by hand: the lines that a tablet sends for each wish, worked out from docs/KEEPER.md and docs/PROTOCOL.md.

A tree of 1,024 slots under ten levels, its leaves in the first of them; every digest is worked out anew each time that it is needed,
which for a few leaves costs nothing. Nothing here comes from either of the two keepers.

A conversation is written to NAME.talk, one thing to a line:
    copy STORE            the store is copied under this name
    start STORE COUNTER   from here on it is the keeper on that store, told that counter
    wish WORDS            a wish, handed to the keeper
    > LINE                its line for the module
    < LINE                the module's reply, handed to the keeper
    told # WORDS          what the keeper tells in the end
and to NAME.in, .out and .notes the module's part of it, as for every other session.
"""
import pathlib
import sys

from by_hand import EMPTY, ZERO, Session, leaf, parent

LEVELS = 10


class Keeper(Session):
    """A session whose lines a keeper makes. Leaves are [item, next item, record], in the order of the slots."""

    def __init__(self, secret):
        super().__init__(secret)
        self.leaves, self.stores, self.store, self.talk = [], {}, None, []

    # The tree.

    def node(self, level, at):
        """The node that stands `level` levels above the slots, counted from the left."""
        if at << level >= len(self.leaves):
            return ZERO  # only empty slots are below it
        if level == 0:
            return leaf(*self.leaves[at])
        return parent(self.node(level - 1, 2 * at), self.node(level - 1, 2 * at + 1))

    def way(self, slot, low=0, high=LEVELS):
        """The siblings on the way up from a slot, from level `low` to level `high`."""
        steps = ((level, slot >> level) for level in range(low, high))
        return [("left" if at % 2 else "right", self.node(level, at ^ 1)) for level, at in steps]

    def root(self):
        return self.node(LEVELS, 0)

    def slot_of(self, item):
        return next((slot for slot, entry in enumerate(self.leaves) if entry[0] == item), None)

    def slot_telling_of(self, q):
        """The slot of the item itself, or of the one whose gap has the number: the highest below it, or the highest of all."""
        items = [entry[0] for entry in self.leaves]
        return items.index(q if q in items else max([item for item in items if item < q] or items))

    # Lines.

    def line(self, comment, request, reply):
        super().line(comment, request, reply)
        self.talk += [f"> {request}", f"< {reply}"]

    def wish(self, words):
        self.talk.append(f"wish {words}")

    def told(self, words):
        self.talk.append(f"told # {words}")

    def copy(self, name):
        self.stores[name] = [list(entry) for entry in self.leaves]
        self.talk.append(f"copy {name}")

    def start(self, name):
        """The keeper on another store, told the counter as it is."""
        self.stores[self.store] = self.leaves
        self.store, self.leaves = name, self.stores.get(name, [])
        self.talk.append(f"start {name} {self.counter}")

    # Wishes, each with what the keeper tells of it.

    def insert(self, item):
        self.wish(f"insert {item}")
        if not self.leaves:
            m = self.first(f"Allow {item} as the first.", item)
            self.adopt(f"Item {item} is listed.", ZERO, leaf(item, item, EMPTY), m)
            self.leaves.append([item, item, EMPTY])
        else:
            self.insert_behind(self.slot_telling_of(item), item)
        self.told("done")

    def insert_behind(self, slot, item):
        """Five lines for two places, from the tree with the item to the one without; place, turn, adopt."""
        before, following, record = self.leaves[slot]
        free, old = len(self.leaves), self.root()
        fork = next(level for level in range(1, LEVELS + 1) if slot >> level == free >> level)  # the lowest node above both
        left_, left, right = leaf(before, following, record), leaf(before, item, record), leaf(item, following, EMPTY)
        ways = self.way(slot, 0, fork - 1), self.way(free, 0, fork - 1), self.way(slot, fork)
        y1, y1_, m1 = self.path(f"Backwards, from the tree with {item}: {before}'s next from {item} to {following}.", left, left_, *ways[0])
        y2, y2_, m2 = self.path(f"The leaf of {item} becomes an empty place.", right, ZERO, *ways[1])
        low, low_, m = self.pair("Both under the lowest node above them.", left, y1, left_, y1_, m1, right, y2, ZERO, y2_, m2)
        y, y_, m2 = self.path("The way up from that node.", low, low_, *ways[2])
        m = self.lift("The two raised to the root.", left, right, low, left_, ZERO, low_, m, y, y_, m2)
        m = self.place(f"From the tree with {item} to the one without is a fair exchange.", before, item, following, record, y, y_, m)
        m = self.turn("Turned round, it inserts.", y, y_, m)
        self.adopt(f"Item {item} is listed.", old, y, m)
        self.leaves[slot][1] = item
        self.leaves.append([item, following, EMPTY])

    def weigh(self, item, mass, offset, rigging):
        """A set."""
        self.wish(f"set {item} {mass} {offset} {rigging}")
        slot = self.slot_of(item)
        _, following, old = self.leaves[slot]
        new = (self.counter + 1, mass, offset, rigging)
        ways = self.way(slot)
        y, y_, m = self.path(f"The leaf of {item} as it is and with its new record.", leaf(item, following, old), leaf(item, following, new), *ways)
        self.leaves[slot][2] = self.set(f"Item {item} has {mass:,} kg.", item, following, old, new[1:], y, y_, m)
        self.told("done")

    def question(self, q, told, refused=0):
        """An ask, and what is told of it; `refused` where the module refuses its last line."""
        self.wish(f"ask {q}")
        slot = self.slot_telling_of(q)
        item, following, record = self.leaves[slot]
        own = leaf(item, following, record)
        y, _, m = self.path(f"The way up from the leaf of {item}.", own, own, *self.way(slot))
        m = self.witness("Its witness.", own, y, m)
        self.ask(f"What is item {q}?", q, item, following, record, y, m, refused)
        self.told(told)

    def refuse(self, words, word):
        """A wish that the keeper refuses by itself."""
        self.wish(words)
        self.told(f"refused {word}")

    def write(self, name):
        super().write(name)
        folder = pathlib.Path(sys.argv[1]) if len(sys.argv) > 1 else pathlib.Path(__file__).parent
        (folder / f"{name}.talk").write_text("".join(f"{line}\n" for line in self.talk))
