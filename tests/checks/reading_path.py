#!/usr/bin/env -S python3 -B
"""The reading path of docs/ARCHITECTURE.md is short.

Its files have at most 1,500 lines in all, and the page at most 120. It fails if they have more, or
if a file that the path names is not there.
"""

import re
import sys
from pathlib import Path

ROOT = Path(__file__).resolve().parent.parent.parent
PAGE = "crates/promises/specs/Promises.antt"
MOST, MOST_OF_PAGE = 1_500, 120


def lines(name):
    return len((ROOT / name).read_text().splitlines())


def main():
    text = (ROOT / "docs/ARCHITECTURE.md").read_text()
    path = text.partition("## What to read")[2].partition("The page cites more")[0]
    names = re.findall(r"`(crates/[\w./]+\.antt)`", path)
    missing = [name for name in [*names, PAGE] if not (ROOT / name).is_file()]
    if missing or not names:
        print(*(f"no file: {name}" for name in missing), f"{len(names)} files", sep="\n")
        return 1
    total = sum(map(lines, names))
    print(f"{len(names)} files, {total} lines; the page {lines(PAGE)}")
    return 0 if total <= MOST and lines(PAGE) <= MOST_OF_PAGE else 1


if __name__ == "__main__":
    sys.exit(main())
