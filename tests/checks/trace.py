#!/usr/bin/env -S python3 -B
"""Every name in docs/TRACE.md still exists: the file of each reference, and what it should declare.

An entry of the page is a point of document 01 or 02, and indented below it what answers the point,
with references of the form `FILE` or `FILE: NAME, NAME`. An entry without one is told too.
"""

import re
import sys

from edits import ROOT
from references import missing_of, text

ENTRY = re.compile(r"^- \*\*")
ANSWER = re.compile(r"^ {2,}")
CODE = re.compile(r"`([^`]+)`")


def entries(page):
    """Each entry's first line by its number, and the text of its answers in one line."""
    found, in_answers = [], False
    for number, line in enumerate(page.splitlines(), 1):
        if ENTRY.match(line):
            found.append([number, ""])
            in_answers = False
        elif found and ANSWER.match(line):
            in_answers = in_answers or line.startswith("  - ")
            found[-1][1] += " " + line.strip() if in_answers else ""
    return found


def main():
    count, missing = 0, []
    points = entries(text(ROOT / "docs/TRACE.md"))
    for number, answers in points:
        references = CODE.findall(answers)
        count += len(references)
        told = [fault for reference in references for fault in missing_of(reference)]
        told += [] if references else ["no reference"]
        missing += [f"docs/TRACE.md:{number}: {fault}" for fault in told]
    counts = f"{len(points)} entries, {count} references, {len(missing)} missing"
    print(*missing, counts, sep="\n")
    return 0 if points and not missing else 1


if __name__ == "__main__":
    sys.exit(main())
