"""The must-fail edits, and the fact at which the prover refused each, by what the gate said."""

import re
from collections import namedtuple
from pathlib import Path

ROOT = Path(__file__).resolve().parent.parent.parent
# What the gate, or `rt must-fail`, said.
LOG = ROOT / "build/gate.log"
REFUSED = re.compile(
    r"^rt: must-fail (\w+)/(\w+)\.edit: refused, as it must be(?: \(.*?\))?: (.*)$", re.M
)
# An answer that is false now, and a goal that nothing proves any more.
ERROR = re.compile(r"^(\S+?):\d+:\d+: error: (?:`([^`]+)`: )?(.*)$")
OPEN = re.compile(r"^note: (\S+?\.rt):(\d+):\d+: .*?\(`([\w-]+)`\)")
FUNCTION = re.compile(r"\bfn (\w+)")
# What is said where a proof does not fit, or where only what it cites was refused: no fact.
UNFIT = "no rewrite fits"
NOTHING_FOUND = ("no equation of the list has an instance", "no occurrence of the path's")
NO_FACT = (
    "binders, but its type",
    "on the face ",
    "was not admitted",
    "not in scope",
    "has no field",
    "can be named from here",
    "level argument",
    "does not parse",
)

# An edit's crate and name, the truth that it breaks, and its changes: file, old text, new text.
Edit = namedtuple("Edit", "crate name truth changes")


def changes_of(text):
    """In the order of the edit: the file in force, what is looked for, what stands there then."""
    file, old, found = None, None, []
    for line in text.splitlines():
        word, _, rest = line.partition(": ")
        if word == "file":
            file = rest
        elif word == "old":
            old = rest
        elif word.rstrip(":") == "new":
            found.append((file, old, rest))
    return found


def edit_of(path):
    text = path.read_text()
    truth = text.splitlines()[0].removeprefix("# ")
    return Edit(path.parts[-3], path.stem, truth, changes_of(text))


def all_edits():
    return [edit_of(path) for path in sorted((ROOT / "crates").glob("*/must-fail/*.edit"))]


def refusals(log):
    """What the gate said of each edit that it refused, by crate and name; none without a log."""
    if not log.exists():
        return {}
    return {(crate, name): said for crate, name, said in REFUSED.findall(log.read_text())}


def function_at(crate, file, line):
    """The function that starts in this line, below attributes, or that this line stands in."""
    lines = (ROOT / "crates" / crate / file).read_text().split("\n")
    while lines[line - 1].startswith("#["):
        line += 1
    return next(found[1] for found in map(FUNCTION.search, reversed(lines[:line])) if found)


def fact_of(crate, said):
    """The place in the proofs with what no longer holds there, and whether it is shown false."""
    error, left = ERROR.match(said), OPEN.match(said)
    if left:
        return f"{function_at(crate, left[1], int(left[2]))}: {left[3]}", True
    if not error or "/proofs/" not in error[1] or not error[2]:
        return None, False
    if any(phrase in error[3] for phrase in NO_FACT):
        return None, False
    place = re.sub(r"/(Answers|Invariants|Proof)$", "",
                   error[1].split("/proofs/", 1)[1].removesuffix(".antt"))
    return f"{place}: {error[2]}", not any(phrase in error[3] for phrase in NOTHING_FOUND)


def judged(edit, said):
    """The fact at which an edit was refused, by what was said of it, and what is wrong with it."""
    name = f"{edit.crate}/{edit.name}"
    if any(old == new for _, old, new in edit.changes):
        return None, f"{name}: changes nothing"
    if (edit.crate, edit.name) not in said:
        return None, f"{name}: not refused: run the gate first"
    fact, is_false = fact_of(edit.crate, said[edit.crate, edit.name])
    if not fact:
        return None, f"{name}: refused at no fact"
    return (f"`{fact}`", None) if is_false else (f"`{fact}`, {UNFIT}", None)
