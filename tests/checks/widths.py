#!/usr/bin/env -S python3 -B
"""Every page, C file, script and table is at most 100 columns wide, so that a terminal shows it.

Columns are characters, not octets. Asked is every text file of the repository, as git has it, or
where there is no git every one that lies here: pages, the man page's source, licences, C and
headers, Python, shell, Rust, Makefile and tables. Not asked are crates/ and crates.txt, whose
proofs, specifications and lists of crates are Rattle's to lay out, and what a build makes (target/,
build/). A line that is longer is named, and the status is 1.
"""

import subprocess
import sys

from edits import ROOT

COLUMNS = 100
NOT_ASKED = {".git", "crates", "crates.txt", "target", "build", "__pycache__"}


def below(folder):
    """Every file below a folder, by name."""
    for path in sorted(folder.iterdir()):
        if path.name in NOT_ASKED or path.is_symlink():
            continue
        if path.is_dir():
            yield from below(path)
        else:
            yield path


def files():
    """What git tracks; what else lies in a checkout is nobody's page."""
    try:
        told = subprocess.run(["git", "-C", ROOT, "ls-files", "-z"], check=True,
                              capture_output=True).stdout.decode().split("\0")
    except (OSError, subprocess.CalledProcessError):
        return list(below(ROOT))
    paths = [ROOT / name for name in told if name and name.split("/")[0] not in NOT_ASKED]
    return [path for path in paths if path.is_file() and not path.is_symlink()]


def lines_of(path):
    """The lines of a text; none of a file that is no text, such as a sample."""
    octets = path.read_bytes()
    try:
        return [] if b"\0" in octets else octets.decode().split("\n")
    except UnicodeDecodeError:
        return []


def main():
    count, longer = 0, []
    for path in files():
        lines = lines_of(path)
        count += bool(lines)
        longer += [
            f"{path.relative_to(ROOT)}:{number}: {len(line)} columns"
            for number, line in enumerate(lines, 1)
            if len(line) > COLUMNS
        ]
    print(*longer, f"{count} files, {len(longer)} lines of more than {COLUMNS} columns", sep="\n")
    return 0 if count and not longer else 1


if __name__ == "__main__":
    sys.exit(main())
