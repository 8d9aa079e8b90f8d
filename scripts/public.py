"""What a public function is, and what its contract lacks: said once, for scripts/promises and scripts/check-trace.

A public function is one that code outside its crate can call, or could as soon as one line changes:
- `pub fn`, also with `const`, `unsafe` or `extern "C"` between the two, with attributes before it, and wherever it stands:
  in a module that is itself private too, since `pub mod` in another file would open that without anybody looking here;
- a `#[unsafe(no_mangle)]` function without `pub`, since a program in another language finds it all the same;
- a function of an `impl` of `From`, `TryFrom` or `Display` for a type, which has no `pub` and is called wherever the type is known.
`pub(crate) fn` and any other plain `fn` are not public. What stands in comments or between quotation marks is no code.
A public function is called `crate::function`, and a method or a trait's function `crate::Type::function`, whatever module it stands
in; so no two of a crate, or of a type, may have one name.

A function of one of these traits promises what the trait says of it, and that is a ghost member of the `impl`: where it writes
the member, the function has an `ensures`, and where it leaves it out, the trait says nothing. It may have clauses of its own.
"""
import collections
import re

Function = collections.namedtuple("Function", "name source clauses")

NO_CODE = re.compile(r'//[^\n]*|/\*.*?\*/|"(?:\\.|[^"\\])*"', re.S)
ATTRIBUTE = r"#\[[^\]]*\]\s*"
HEAD = re.compile(rf'(?:\bpub\s+|#\[unsafe\(no_mangle\)\]\s*(?:{ATTRIBUTE})*)(?:const\s+|unsafe\s+|extern\s*""\s*)*fn\s+(\w+)')
FIRST_CLAUSE = re.compile(r"(?:requires|ensures|ghost)\b")
CLAUSE = re.compile(r"\s*([a-z]+)\b[^{;]*\{")
OWNER = re.compile(r"\bimpl\b\s*(?:<[^{]*?>\s*)?(\w+)(?:<[^{]*>)?\s*\{")
# the traits, and the ghost member by which each says what its function gives
GIVES = {"From": "from_gives", "TryFrom": "try_from_gives", "Display": "output"}
TRAIT = re.compile(rf"\bimpl\b\s*(?:<[^{{]*?>\s*)?(?:\w+::)*({'|'.join(GIVES)})\b\s*(?:<[^{{]*>)?"
                   r"\s+for\s+[&\[(\s]*(?:'\w+\s+)?(?:\w+::)*(\w+)[^{]*\{")
NAMED = re.compile(r"\bfn\s+(\w+)")
MEMBER = re.compile(r"\bghost\s+(\w+)\s*=")
EXCUSED = re.compile(r"`(\w+(?:::\w+)+)`")


def code(text):
    """A source without comments, and with nothing between its quotation marks."""
    return NO_CODE.sub(lambda found: '""' if found[0].startswith('"') else " ", text)


def past_signature(text, at):
    """Where a function's clauses begin, or its body: the first of them outside brackets."""
    depth = 0
    while at < len(text):
        depth += (text[at] in "([") - (text[at] in ")]")
        begins_word = not (text[at - 1].isalnum() or text[at - 1] == "_")
        if depth == 0 and (text[at] == "{" or begins_word and FIRST_CLAUSE.match(text, at)):
            break
        at += 1
    return at


def past_braces(text, at):
    """Where the brace at `at` has been closed."""
    depth = 0
    for i in range(at, len(text)):
        depth += (text[i] == "{") - (text[i] == "}")
        if depth == 0:
            return i + 1
    return len(text)


def owners(text):
    """(begin, end, type) of each block of a type's own functions."""
    return [(found.end(), past_braces(text, found.end() - 1), found[1]) for found in OWNER.finditer(text)]


def clauses(text, at):
    """The kinds of clause of a function whose name ends at a place, and where its body begins."""
    at, kinds = past_signature(text, at), []
    while clause := CLAUSE.match(text, at):
        kinds.append(clause[1])
        at = past_braces(text, clause.end() - 1)
    return kinds, at


def of_traits(text):
    """(place, name, kinds of clause) of each function of one of the traits, with an `ensures` where its member is written."""
    for block in TRAIT.finditer(text):
        at, end, found, members = block.end(), past_braces(text, block.end() - 1), [], set()
        while head := NAMED.search(text, at, end):
            members.update(MEMBER.findall(text, at, head.start()))
            kinds, body = clauses(text, head.end())
            found.append((head.start(), f"{block[2]}::{head[1]}", kinds))
            at = past_braces(text, body)
        members.update(MEMBER.findall(text, at, end))
        for place, name, kinds in found:
            yield place, name, kinds + ["ensures"] * (GIVES[block[1]] in members)


def contracts(text):
    """(name, kinds of clause) of each public function of a source, in order of its text."""
    text = code(text)
    blocks, found = owners(text), list(of_traits(text))
    for head in HEAD.finditer(text):
        owned = [owner for begin, end, owner in blocks if begin <= head.start() < end]
        found.append((head.start(), "::".join(owned + [head[1]]), clauses(text, head.end())[0]))
    for _, name, kinds in sorted(found):
        yield name, kinds


def functions(root):
    """Every public function of crates/*/src below a root, in order of its file."""
    for source in sorted(root.glob("crates/*/src/**/*.rt")):
        crate = source.relative_to(root).parts[1]
        for name, kinds in contracts(source.read_text()):
            yield Function(f"{crate}::{name}", source.relative_to(root), kinds)


def lacks(function):
    """What a contract lacks by the two rules: no `requires`, and an `ensures`."""
    faults = ["has a `requires`"] if "requires" in function.clauses else []
    return faults + ([] if "ensures" in function.clauses else ["has no `ensures`"])


def excused(root):
    """The functions that docs/EXCEPTIONS.md names, each as a whole `crate::function` in backticks."""
    page = root / "docs" / "EXCEPTIONS.md"
    return set(EXCUSED.findall(page.read_text())) if page.exists() else set()
