"""What code and specifications declare: public functions, what an edit changes, the words above."""

import re
from collections import namedtuple
from functools import lru_cache

from edits import ROOT

# A function, type or constant of code.
ITEM = re.compile(
    r'^(?P<indent> *)(?P<pub>pub )?(?:pub\(crate\) )?(?:extern "C" )?'
    r"(?P<kind>fn|struct|enum|const|impl)(?:<[^>]*>)? (?:(?P<trait>\w+)(?:<.*>)? for )?"
    r"(?P<name>\w+)",
    re.M,
)
# A type or a trait, and whether other crates may name it.
NAMED = re.compile(r"^(pub )?(?:pub\(crate\) )?(?:struct|enum|trait) (\w+)", re.M)
# A definition or a statement of a specification.
DEFINITION = re.compile(
    r"^(?:(?:pub|abbrev|unfoldable) )*(?:(?:data|record) )?(?P<name>[^\s:]+)(?: .*)? :", re.M
)
# The line whose brace opens a function's body; its contract stands before it.
BODY = re.compile(r"^(?! *(?:ensures|requires)\b).*\{$", re.M)
COMMENT = re.compile(r"^ *(?://|--) ?(.*)$")
PASSED_OVER = re.compile(r"^ *#\[")

# Where something is declared, its name and kind, and the words above it.
Declared = namedtuple("Declared", "file start name kind public words")


def words_above(source, start):
    """The comment that ends right above a declaration, without its marks; attributes between are
    passed over."""
    found = []
    for line in reversed(source[:start].splitlines()):
        comment = COMMENT.match(line)
        if comment:
            found.insert(0, comment[1])
        elif not PASSED_OVER.match(line):
            break
    return " ".join(found)


@lru_cache(maxsize=None)
def text_of(crate, file):
    return (ROOT / "crates" / crate / file).read_text()


@lru_cache(maxsize=None)
def hidden_in(crate):
    """The types and traits that a crate keeps to itself."""
    files = sorted((ROOT / "crates" / crate / "src").glob("*.rt"))
    named = [found for file in files for found in NAMED.findall(file.read_text())]
    return {name for _, name in named} - {name for public, name in named if public}


def items_of_code(crate, file, source):
    """Functions, types and constants; those of an `impl` with their type's name before them. A
    method of a trait is as public as its type and its trait."""
    owner, of_trait = "", False
    for found in ITEM.finditer(source):
        if found["kind"] == "impl":
            owner = found["name"]
            of_trait = bool(found["trait"]) and not {owner, found["trait"]} & hidden_in(crate)
        name = f"{owner}::{found['name']}" if found["indent"] else found["name"]
        public = bool(found["pub"] or found["indent"] and of_trait)
        words = words_above(source, found.start())
        yield Declared(file, found.start(), name, found["kind"], public, words)


def definitions(crate, file, source):
    for found in DEFINITION.finditer(source):
        words = words_above(source, found.start())
        yield Declared(file, found.start(), found["name"], "definition", False, words)


@lru_cache(maxsize=None)
def declared_in(crate, file):
    """Everything that a file declares, in its order."""
    read = items_of_code if file.endswith(".rt") else definitions
    return list(read(crate, file, text_of(crate, file)))


def files_of(crate):
    folder = ROOT / "crates" / crate
    paths = sorted(folder.glob("src/*.rt")) + sorted(folder.glob("specs/**/*.antt"))
    return [str(path.relative_to(folder)) for path in paths]


def all_declared(crate):
    return [item for file in files_of(crate) for item in declared_in(crate, file)]


def public_functions(crate):
    return [item for item in all_declared(crate) if item.public and item.kind == "fn"]


def place_of(edit):
    """Where the edit's first old text stands in its file."""
    file, old, _ = edit.changes[0]
    source = text_of(edit.crate, file)
    if source.count(old) != 1:
        raise ValueError(f"{edit.crate}/{edit.name}: its old text stands not once in {file}")
    return source.index(old) + len(old) - len(old.lstrip())


def changed_by(edit):
    """What the edit's first old text stands in."""
    file, at = edit.changes[0][0], place_of(edit)
    before = [item for item in declared_in(edit.crate, file) if item.start <= at]
    if not before:
        raise ValueError(f"{edit.crate}/{edit.name}: changes nothing that {file} declares")
    return before[-1]


def is_of_a_contract(edit):
    """Does the edit stand in a function, before its body?"""
    item = changed_by(edit)
    above = text_of(edit.crate, item.file)[item.start:place_of(edit)]
    return item.kind == "fn" and not BODY.search(above)
