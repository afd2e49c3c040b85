"""References of one form, `FILE` or `FILE: NAME, NAME`: is the file there, and are the names?"""

import re
from functools import lru_cache

from edits import ROOT

REFERENCE = re.compile(r"([\w./-]+)(?:: (.+))?")
# By a file's suffix; a script may have none.
DECLARES = {
    ".antt": r"^ *(?:(?:pub|abbrev|unfoldable) )*(?:(?:data|record) NAME |NAME :)",
    ".rt": r"\b(?:fn|struct|enum|const) NAME\b",
    ".md": r"^(?:NAME\. |#+ NAME$)",
    ".py": r"^(?:def |class )?NAME\b",
    ".c": r"^[\w ]+[ *]NAME\b",
    ".h": r"\bNAME\b",
    ".sh": r"^NAME\(\)",
    "": r"^(?:def |class )?NAME\b",
}
MEMBER = r"^ +(?:pub(?:\(crate\))? )?(?:fn |const )?NAME\b"
BLOCK = (r"^(?:pub(?:\(crate\))? )?"
         r"(?:impl(?:<[^>]*>)?(?: \w+(?:<.*>)? for)?|struct|enum) NAME\b.*?^}")


@lru_cache(maxsize=None)
def text(path):
    return path.read_text()


def has_item(source, owner, item):
    """Of code: a function or constant of a type's `impl`, a case of an enum, a field of a type."""
    blocks = re.findall(BLOCK.replace("NAME", owner), source, re.M | re.S)
    return any(re.search(MEMBER.replace("NAME", item), block, re.M) for block in blocks)


def is_declared(path, name):
    if path.suffix == ".rt" and "::" in name:
        return has_item(text(path), *name.split("::"))
    pattern = DECLARES.get(path.suffix)
    return bool(pattern and re.search(pattern.replace("NAME", re.escape(name)), text(path), re.M))


def missing_of(reference):
    """What the reference names and is not there."""
    found = REFERENCE.fullmatch(reference)
    if not found or not (ROOT / found[1]).is_file():
        return [f"no file: {reference}"]
    path, names = ROOT / found[1], found[2].split(", ") if found[2] else []
    return [f"{found[1]} declares no {name}" for name in names if not is_declared(path, name)]
