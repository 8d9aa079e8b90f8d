"""The protocol by hand, from docs/PROTOCOL.md: how a tablet computes, and what a module owes it.

The strings, the parent H, the memoranda and the sixteen kinds of request, straight from the tables in docs/PROTOCOL.md.
SHA-256 is Python's own, so nothing here comes from either of the project's two programs. A tablet knows everything
below but the secret: it copies the memoranda out of the replies; here they are worked out, as the module must.
"""
import hashlib
import pathlib
import sys

# Strings and digests.

ZERO = bytes(32)  # the digest 0
EMPTY = (0, 0, 0, 0)  # the record of an item that has none: revision, kg, mm, rigging code
SENSIBLE = range(1, 2_000_001)  # the masses in kg that a set may give: any other is silly


def number(value):
    return value.to_bytes(8, "big")  # 8 bytes, most significant first


def digest(tag, *fields):
    return hashlib.sha256(bytes([tag]) + b"".join(fields)).digest()  # of one tag byte and the fields


def leaf(item, following, record):
    return digest(1, number(item), number(following), record_hash(record))  # A, A' and the hash of A's record


def parent(u, v):
    return u if v == ZERO else v if u == ZERO else digest(2, u, v)  # H(u,v): an empty side does not count


def record_hash(record):
    return digest(3, *map(number, record)) if record[0] else ZERO  # revision 0: no record


class Session:
    """Request lines, the reply due to each, and a comment on each, under the step they belong to."""

    def __init__(self, secret):
        self.secret = secret  # known to the module alone
        self.counter = 0  # accepted record changes
        self.step = ""  # what the lines to come are for
        self.rows = []  # (request, reply, step, comment)

    # Memoranda: digests that end in the secret.

    def U1(self, x, y, x_, y_):
        return digest(4, x, y, x_, y_, self.secret)  # y stands above x; with x' there it is y'

    def V1(self, x, y):
        return digest(5, x, y, self.secret)  # y is above x

    def U2(self, x1, x2, y, x1_, x2_, y_):
        return digest(6, x1, x2, y, x1_, x2_, y_, self.secret)  # as U1, for two separate places

    def EI(self, y, y_):
        return digest(7, y, y_, self.secret)  # of two roots

    # Lines.

    def line(self, comment, request, reply):
        self.rows.append((request, reply, self.step, comment))  # in the order sent

    def send(self, comment, kind, fields, answer=(), needs=(), refused=0):
        """One request and its reply. `needs` are pairs of what it carries, a memorandum or other, and what that has to be."""
        if not refused and any(carried != due for carried, due in needs):
            sys.exit(f"by_hand: line {len(self.rows) + 1} is not honest: {comment}")
        request = bytes([kind]) + b"".join(fields)  # the kind, then the fields
        reply = bytes([0, refused]) if refused else bytes([kind + 0x80]) + b"".join(answer)  # refusal, or kind + 80
        self.line(comment, request.hex(), reply.hex())  # a line is the bytes in lower-case hexadecimal
        return answer[-1] if answer and not refused else None  # the memorandum, where the reply lists one

    # The kinds, in the order of the table: what each carries, needs and answers.

    def path(self, comment, x, x_, *siblings):
        """Siblings lowest first, each ("left", digest) or ("right", digest). Gives back y, y' and the memorandum."""
        y, y_, sides = x, x_, 0
        for level, (side, other) in enumerate(siblings):
            if side == "left":
                y, y_ = parent(other, y), parent(other, y_)  # the sibling stands before
                sides |= 1 << level  # a bit for each sibling on the left
            else:
                y, y_ = parent(y, other), parent(y_, other)  # the sibling stands behind
        fields = [x, x_, bytes([len(siblings)]), number(sides), *(other for _, other in siblings)]
        return y, y_, self.send(comment, 0x01, fields, [y, y_, self.U1(x, y, x_, y_)])

    def witness(self, comment, x, y, m):
        return self.send(comment, 0x02, [x, y, m], [self.V1(x, y)], [(m, self.U1(x, y, x, y))])

    def join(self, comment, x, y, x_, y_, m1, z, z_, m2, refused=0):
        needs = [(m1, self.U1(x, y, x_, y_)), (m2, self.U1(y, z, y_, z_))]
        return self.send(comment, 0x03, [x, y, x_, y_, m1, z, z_, m2], [self.U1(x, z, x_, z_)], needs, refused)

    def pair(self, comment, x1, y, x1_, y_, m1, x2, z, x2_, z_, m2):
        """Gives back H(y,z) and H(y',z'), which the reply does not list, and the memorandum."""
        above, above_ = parent(y, z), parent(y_, z_)
        needs = [(m1, self.U1(x1, y, x1_, y_)), (m2, self.U1(x2, z, x2_, z_))]
        answer = [self.U2(x1, x2, above, x1_, x2_, above_)]
        fields = [x1, y, x1_, y_, m1, x2, z, x2_, z_, m2]
        return above, above_, self.send(comment, 0x04, fields, answer, needs)

    def lift(self, comment, x1, x2, y, x1_, x2_, y_, m1, z, z_, m2):
        """Raise, which Python keeps for itself as a word."""
        needs = [(m1, self.U2(x1, x2, y, x1_, x2_, y_)), (m2, self.U1(y, z, y_, z_))]
        fields = [x1, x2, y, x1_, x2_, y_, m1, z, z_, m2]
        return self.send(comment, 0x05, fields, [self.U2(x1, x2, z, x1_, x2_, z_)], needs)

    def swap(self, comment, x1, x2, y, y_, m):
        return self.send(comment, 0x06, [x1, x2, y, y_, m], [self.EI(y, y_)], [(m, self.U2(x1, x2, y, x2, x1, y_))])

    def first(self, comment, item):
        return self.send(comment, 0x07, [number(item)], [self.EI(ZERO, leaf(item, item, EMPTY))])

    def place(self, comment, item, out, after, record, y, y_, m, refused=0):
        """Takes `out` from between `item`, whose record is given, and `after`."""
        x1, x1_, x2 = leaf(item, out, record), leaf(item, after, record), leaf(out, after, EMPTY)
        orders = [self.U2(x1, x2, y, x1_, ZERO, y_), self.U2(x2, x1, y, ZERO, x1_, y_)]  # the second is tried second
        fields = [number(item), number(out), number(after), record_hash(record), y, y_, m]
        return self.send(comment, 0x08, fields, [self.EI(y, y_)], [(m in orders, True)], refused)

    def turn(self, comment, x, y, m):
        return self.send(comment, 0x09, [x, y, m], [self.EI(y, x)], [(m, self.EI(x, y))])

    def chain(self, comment, x, y, m1, z, m2):
        needs = [(m1, self.EI(x, y)), (m2, self.EI(y, z))]
        return self.send(comment, 0x0A, [x, y, m1, z, m2], [self.EI(x, z)], needs)

    def adopt(self, comment, y, y_, m):
        self.send(comment, 0x0B, [y, y_, m], [y_], [(m, self.EI(y, y_))])

    def set(self, comment, item, following, old, load, y, y_, m, refused=0):
        """Gives back the new record, [c+1, v2, v3, v4]."""
        new = (self.counter + 1, *load)
        self.counter += not refused  # both set and clear raise it; a refusal changes nothing
        needs = [(load[0] in SENSIBLE, True), (m, self.U1(leaf(item, following, old), y, leaf(item, following, new), y_))]
        fields = [*map(number, (item, following, *old, *load)), y, y_, m]
        self.send(comment, 0x0C, fields, [y_, number(self.counter)], needs, refused)
        return new

    def clear(self, comment, item, following, old, y, y_, m, refused=0):
        self.counter += not refused  # a refusal changes nothing
        needs = [(m, self.U1(leaf(item, following, old), y, leaf(item, following, EMPTY), y_))]
        fields = [*map(number, (item, following, *old)), y, y_, m]
        self.send(comment, 0x0D, fields, [y_, number(self.counter)], needs, refused)

    def ask(self, comment, q, item, following, record, y, m, refused=0):
        if q != item:
            finding = [b"\3", number(item), number(following)]  # q lies in the gap
        elif record[0] == 0:
            finding = [b"\2", number(item)]  # listed, no record
        else:
            finding = [b"\1", number(item), *map(number, record)]  # the record
        needs = [(m, self.V1(leaf(item, following, record), y))]
        self.send(comment, 0x0E, [*map(number, (q, item, following, *record)), y, m], finding, needs, refused)

    def ask_of_none(self, comment, q, refused=0):
        self.send(comment, 0x0F, [number(q)], [number(q)], refused=refused)

    def open(self, comment, refused=0):
        self.send(comment, 0x10, [self.secret], refused=refused)

    def write(self, name):
        """Writes NAME.in, NAME.out and NAME.notes into the folder named on the command line, or into this one."""
        folder = pathlib.Path(sys.argv[1]) if len(sys.argv) > 1 else pathlib.Path(__file__).parent
        requests, replies, steps, comments = zip(*self.rows)
        notes = (f"{step} | {comment}" for step, comment in zip(steps, comments))
        for ending, lines in (("in", requests), ("out", replies), ("notes", notes)):
            (folder / f"{name}.{ending}").write_text("".join(f"{line}\n" for line in lines), encoding="utf-8")
