#!/usr/bin/env -S python3 -B
"""Writes docs/CONTRACTS.md: every public function, its contract in words, and its must-fail edits.

    tests/checks/contracts.py --check [--log FILE]
    tests/checks/contracts.py --write [--log FILE]

The words are the comments above functions and definitions, a truth is the first line of its edit,
and the text that no script can write stands in contracts.md beside this one: the introduction, and
what is said of a crate. The fact at which an edit was refused is taken from the gate's log of it.
Without a log it is the fact that the page has now: --check needs no gate, and reads a log only
where one is named; --write reads build/gate.log where none is.

--check fails, and says what differs, if the page is not what would be written; both fail if an edit
has no fact, and if the introduction names something that is not there.
"""

import argparse
import difflib
import re
import sys
import textwrap
from pathlib import Path

from declared import all_declared, changed_by, is_of_a_contract, public_functions
from edits import LOG, ROOT, all_edits, judged, refusals
from references import missing_of

PAGE = ROOT / "docs/CONTRACTS.md"
TEMPLATE = Path(__file__).with_suffix(".md")
COLUMNS = 100
HEADING = re.compile(r"^## `(\w+)`$", re.M)
# An edit's lines, the last of which has the fact.
TOLD = re.compile(r"^  - `(\w+)`[^\n]*(?:\n    (?!→)[^\n]*)*\n    → ([^\n]*)$", re.M)
# Rattle's own words, which nothing here declares.
WORDS = {"requires", "ensures", "returns"}
OF_THE_CONTRACT = " (in the contract)"
WITHOUT = "No edit is made in its own text; those of what it stands on are listed under that."
KINDS = {"fn": "private", "const": "constant", "struct": "type", "enum": "type"}


def by_crate(text):
    """What stands before the first crate's heading, and below each."""
    opening, *rest = HEADING.split(text)
    return opening.strip(), dict(zip(rest[::2], map(str.strip, rest[1::2])))


def crates():
    lines = (ROOT / "crates.txt").read_text().splitlines()
    return [line.split()[0].rstrip(":") for line in lines
            if ":" in line and not line.startswith("#")]


def facts_on_page():
    """The facts of the page as it stands, by crate and edit."""
    _, below = by_crate(PAGE.read_text()) if PAGE.exists() else ("", {})
    found = {}
    for crate, text in below.items():
        found.update({(crate, name): fact for name, fact in TOLD.findall(text)})
    return found


def facts_of(edits, log):
    """The fact of each edit, how many of them are by a log, and what is wrong."""
    found, by_log, wrong = facts_on_page(), 0, []
    said = refusals(log) if log else {}
    for edit in edits:
        if (edit.crate, edit.name) in said:
            found[edit.crate, edit.name], fault = judged(edit, said)
            by_log += 1
            wrong += [fault] if fault else []
        elif (edit.crate, edit.name) not in found:
            wrong.append(f"{edit.crate}/{edit.name}: no fact: "
                         f"run rt must-fail {edit.crate}, then --write")
    return found, by_log, wrong


def laid_out(text, first="", later=""):
    return textwrap.fill(text, COLUMNS, initial_indent=first, subsequent_indent=later,
                         break_long_words=False, break_on_hyphens=False)


def sentence(words):
    return words[:1].upper() + words[1:] + ("" if words.endswith((".", ":", "?")) else ".")


def entry(edit, fact):
    where = OF_THE_CONTRACT if is_of_a_contract(edit) else ""
    return laid_out(f"`{edit.name}`{where}: {edit.truth}", "  - ", "    ") + f"\n    → {fact}"


def group(name, words, edits, facts):
    """What is edited, what is said of it, and its edits."""
    said = f"{name}: {sentence(words)}" if words else name
    listed = [entry(edit, facts.get((edit.crate, edit.name))) for edit in edits]
    return "\n".join([laid_out(said, "- ", "  ")] + listed)


def name_of(item):
    if item.public and item.kind == "fn":
        return f"**`{item.name}`**"
    if item.kind == "definition":
        return f"definition `{item.name}` of `{item.file}`"
    return f"{KINDS[item.kind]} `{item.name}`"


def crate_page(crate, edits, facts, said):
    """A crate's part of the page, or nothing where there is nothing to tell."""
    changed = {item: [] for item in public_functions(crate)}
    for edit in edits:
        changed.setdefault(changed_by(edit), []).append(edit)
    groups = [
        group(name_of(item), item.words if own else f"{sentence(item.words)} {WITHOUT}", own, facts)
        for item, own in sorted(changed.items(), key=rank)
    ]
    parts = [f"## `{crate}`", said, "\n".join(groups)]
    return "\n\n".join(part for part in parts if part) if groups else ""


def rank(group_of):
    """Public functions, then the rest of the code, then definitions; in the order of the files."""
    item = group_of[0]
    return item.kind == "definition", not (item.public and item.kind == "fn"), item


def is_there(name, edits):
    """Is a name of the template a crate, an edit CRATE/EDIT, declared as CRATE::NAME, or a file?"""
    crate, _, declared = name.partition("::")
    if declared:
        return any(item.name == declared for item in all_declared(crate))
    known = WORDS | set(crates()) | {f"{edit.crate}/{edit.name}" for edit in edits}
    return name in known or not missing_of(name.split(" --")[0])


def silent_functions():
    """Public functions that no comment says anything of."""
    for crate in crates():
        yield from (f"{crate}::{item.name}" for item in public_functions(crate) if not item.words)


def written(log):
    """The page, what was counted, and what is wrong."""
    edits = all_edits()
    facts, by_log, wrong = facts_of(edits, log)
    template = TEMPLATE.read_text()
    opening, said = by_crate(template)
    names = [" ".join(name.split()) for name in re.findall(r"`([^`]+)`", template)]
    wrong += [f"{TEMPLATE.name}: no {name}" for name in names if not is_there(name, edits)]
    wrong += [f"{name}: no comment says its contract" for name in silent_functions()]
    parts = [opening]
    for crate in crates():
        own = [edit for edit in edits if edit.crate == crate]
        parts.append(crate_page(crate, own, facts, said.get(crate)))
    functions = sum(len(public_functions(crate)) for crate in crates())
    counts = f"{functions} functions, {len(edits)} edits, {by_log} facts by a log"
    return "\n\n".join(part for part in parts if part) + "\n", counts, wrong


def differing(now, page):
    """The lines in which a page as it stands differs from what its script writes."""
    return list(difflib.unified_diff(now.splitlines(), page.splitlines(), "as it stands",
                                     "as it is written", n=0, lineterm=""))


def main():
    asked = argparse.ArgumentParser(description=__doc__.splitlines()[0])
    what = asked.add_mutually_exclusive_group(required=True)
    what.add_argument("--check", action="store_true", help="fail if the page is another")
    what.add_argument("--write", action="store_true", help="write the page")
    asked.add_argument("--log", type=Path, help="what the gate said")
    asked = asked.parse_args()
    page, counts, wrong = written(asked.log or (LOG if asked.write else None))
    if asked.write and not wrong:
        PAGE.write_text(page)
    now = PAGE.read_text() if PAGE.exists() else ""
    wrong = wrong or differing(now, page)
    end = "docs/CONTRACTS.md is not up to date" if wrong else "docs/CONTRACTS.md is up to date"
    print(*wrong, f"{counts}; {end}", sep="\n")
    return 1 if wrong else 0


if __name__ == "__main__":
    try:
        sys.exit(main())
    except ValueError as fault:
        sys.exit(str(fault))
