"""Programs that answer each line with a line, and a wish carried between a keeper and a module. Shared by bin/cab and the tests.

A line is handed over and given back as bytes, without its 0A.
"""
import os
import pathlib
import select
import shutil
import signal
import subprocess
import sys

ROOT = pathlib.Path(__file__).resolve().parent.parent
MADE = ROOT / "reference" / "target" / "release"
COMMITTING = (b"0b", b"0c", b"0d")  # adopt, set and clear: the kinds of line by which the module changes
COUNTED = (b"8c", b"8d")  # the replies of set and clear, which end in the counter
GRACE = 3  # seconds for a program to end by itself once its input has


def module_command():
    """The module: MODULE, or the proved one."""
    return [os.environ.get("MODULE") or str(ROOT / "bin" / "knotcinder")]


def keeper_command(store):
    """The keeper on a store: KEEPER, or the proved one."""
    return [os.environ.get("KEEPER") or str(ROOT / "bin" / "keeper"), str(store)]


def build():
    """Sees that the programs are built, so that no test takes the building for a program that hangs; ends where they cannot be."""
    scripts = ROOT / "scripts"
    commands = [[scripts / "build-reference"]]
    commands += [[scripts / "build-program", name] for name, other in (("keeper", "KEEPER"), ("knotcinder", "MODULE")) if not os.environ.get(other)]
    for command in commands:
        if status := subprocess.run(command).returncode:
            sys.exit(status)


def ended_how(status):
    """A status in words."""
    return f"by {signal.Signals(-status).name}" if status < 0 else f"with status {status}"


class Ended(Exception):
    """A program ended, or has said nothing for too long, where a line of it was awaited."""

    def __init__(self, name, status):
        self.name, self.status = name, status
        how = "said nothing for too long" if status is None else f"ended {ended_how(status)}"
        super().__init__(f"the {name} {how}")


class Program:
    """A program under way. It is in a session of its own, so that an interrupt at the terminal is for whoever started it."""

    def __init__(self, name, command, patience=None, errors=None):
        """`patience` is how many seconds a line of it may take; `errors` where its standard error goes."""
        self.name, self.patience, self.got = name, patience, b""
        self.child = subprocess.Popen(
            command, stdin=subprocess.PIPE, stdout=subprocess.PIPE, stderr=errors, bufsize=0, start_new_session=True
        )

    def answer(self, line):
        """Sends a line and gives the one that comes back."""
        self.send(line + b"\n")
        return self.heard()

    def send(self, sent):
        try:
            while sent:
                sent = sent[self.child.stdin.write(sent) :]
        except BrokenPipeError:
            pass  # it has ended; what it said before is still to be heard

    def heard(self):
        while b"\n" not in self.got:
            if self.patience and not select.select([self.child.stdout], [], [], self.patience)[0]:
                self.kill()
                raise Ended(self.name, None)
            part = os.read(self.child.stdout.fileno(), 65536)
            if not part:
                raise Ended(self.name, self.end())
            self.got += part
        line, _, self.got = self.got.partition(b"\n")
        return line

    def rest(self):
        """Ends its input: all that it says behind what was heard, and its status."""
        self.close()
        while part := os.read(self.child.stdout.fileno(), 65536):
            self.got += part
        return self.got, self.end()

    def close(self):
        try:
            self.child.stdin.close()
        except BrokenPipeError:
            pass

    def end(self):
        """Ends its input and waits for it: its status."""
        self.close()
        try:
            return self.child.wait(GRACE)
        except subprocess.TimeoutExpired:
            self.kill()
            return self.child.wait()

    def kill(self):
        """Ends it, and what it started, which is all of its session."""
        if self.child.poll() is None:
            os.killpg(self.child.pid, signal.SIGKILL)


def open_module(module, secret):
    """Opens a module that nobody has opened yet: whether it says that it is open."""
    return module.answer(b"10" + secret.hex().encode()) == b"90"


def carry(keeper, module, wish, heed=lambda line, reply: reply):
    """Carries a wish through: what the keeper tells in the end. `heed` sees each line with its reply, and gives the reply that
    is handed on."""
    said = keeper.answer(wish)
    while not said.startswith(b"# "):
        said = keeper.answer(heed(said, module.answer(said)))
    return said


# ── conversations worked out by hand ──


class Otherwise(Exception):
    """Keeper or module said something else than was worked out."""


class Replay:
    """Plays a conversation of sessions/*.talk with keeper and module; sessions/kept_by_hand.py says what its lines are. The stores
    are made in a folder, under the names that the conversation gives them."""

    def __init__(self, folder, patience=None):
        self.folder, self.patience = pathlib.Path(folder), patience
        self.module = Program("module", module_command(), patience)
        self.keeper, self.store = None, None

    def play(self, text, after=lambda verb, words: None):
        """`after` is called behind each line of the conversation."""
        said = None  # by the keeper, and not yet looked at
        for number, line in enumerate(text.splitlines(), 1):
            verb, _, words = line.partition(" ")
            if verb in ("copy", "start"):
                getattr(self, verb)(*words.split(" "))
            elif verb == "wish":
                said = self.keeper.answer(words.encode())
            elif verb in (">", "told"):
                self.compare(number, "keeper", words if said is None else said.decode("ascii", "replace"), words)
                replied = self.module.answer(words.encode()).decode("ascii", "replace") if verb == ">" else None
            elif verb == "<":
                self.compare(number, "module", replied, words)
                said = self.keeper and self.keeper.answer(words.encode())
            after(verb, words)
        self.end()

    def compare(self, number, name, said, due):
        if said != due:
            raise Otherwise(f"line {number} of the conversation: the {name} says {said[:100]}, and worked out is {due[:100]}")

    def copy(self, name):
        shutil.copy(self.folder / self.store, self.folder / name)

    def start(self, name, counter):
        if self.keeper:
            self.keeper.end()
        self.keeper, self.store = Program("keeper", keeper_command(self.folder / name), self.patience), name
        self.compare(0, "keeper", self.keeper.answer(b"counter " + counter.encode()).decode("ascii", "replace"), "# done")

    def end(self):
        for program in (self.keeper, self.module):
            if program:
                program.end()
