#!/usr/bin/env -S python3 -B
"""The count of missing octets, tried.

    tests/lists/missing_falls.py [--files N] [--seed N] target/bin/replay

Makes random files, cuts each at a random place and asks `replay` for its walk, its pull, its public
copy and its inventory (kinds `W`, `P`, `C`, `I`). Where one is refused by 2 with detail m, it asks
again with k octets of any content behind the file, k under m: that has to be refused by 2 at the
same place and offset, with detail m - k. Each answer is held against `reference.py`, too. The
status is 1 at a difference.
"""

import argparse
import collections
import random
import subprocess
import sys
from pathlib import Path

import reference
from reference import LEAST, Section
from walk_files import END, message, section

RUN = Path(__file__).resolve().parent.parent / "run.sh"
MOST_INPUT = 262144
KINDS = "WPCI"
MOST_GROWN = 8              # grown copies of one file


def number(value, width):
    return value.to_bytes(width, "big")


# --- Files ---------------------------------------------------------------------------------------

def random_message(pick):
    """Some submessages; now and then another total, so that any rest is left at any section."""
    numbers = [1, *pick.choice([(), (2,)]), 3, 4, 5, 6, 7]
    for _ in range(pick.choice([0, 0, 0, 1, 2])):
        numbers += pick.choice([(4, 5, 6, 7), (3, 4, 5, 6, 7), (2, 3, 4, 5, 6, 7)])
    body = b"".join(section(n, pick.randbytes(LEAST[n] + pick.choice([0, 0, 1, 2, 7, 30])))
                    for n in numbers) + END
    true = 16 + len(body)
    total = pick.choice([true] * 12 + [pick.randrange(16, 23), pick.randrange(16, true + 9), 2**40])
    return message(body, total=total)


def random_cut(pick):
    """A file cut anywhere, or in a section, whose length may be stated otherwise before; or behind
    the last section that is read. A section 6 may have length 5 and end the file."""
    file = b"".join(pick.choice([b"", b"", b"\r\n", b"GRI"]) + random_message(pick)
                    for _ in range(pick.choice([1, 1, 2, 3])))
    if pick.random() < 0.2:
        return file[:pick.randrange(len(file))]
    rows = reference.walk(file).rows
    behind = Section(None, rows[-1].offset + rows[-1].length, 5)
    n, offset, length = pick.choice(rows + [behind])
    if n == 6 and pick.random() < 0.3:
        return file[:offset] + section(6, b"")
    if n in (1, 2, 3, 4, 5, 6) and pick.random() < 0.4:
        more = length + pick.randrange(1, 40)
        length = pick.choice([5, more, 2**32 - 1, pick.randrange(5, 2**32)])
        file = file[:offset] + number(length, 4) + file[offset + 4:]
    return file[:offset + pick.randrange(min(length, 40) + 1)]


def random_tail(pick, length):
    """Octets of any content, also such as the framing has."""
    words = pick.choice([None, b"GRIB", END, b"\0\0\0\5\6", b"\0", b"\xff"])
    return pick.randbytes(length) if words is None else (words * length)[:length]


def growths(pick, missing):
    """Counts of octets from 1 to one less than are missing: all of them if they are few, else some,
    the last among them if a file can have as many."""
    if missing <= MOST_GROWN:
        return range(1, missing)
    last = min(missing - 1, 2000)
    return [1, *(pick.randrange(2, last) for _ in range(MOST_GROWN - 2)), last]


def what_is_cut(file, end):
    """By the header, if there is a whole one; else by how many octets there should be."""
    _, _, offset, detail = end
    header = file[offset:offset + 5]
    if len(header) == 5:
        return "bare section 6" if header == b"\0\0\0\5\6" else "payload"
    return "section 8" if len(header) + detail == 4 else "header"


# --- Asking --------------------------------------------------------------------------------------

def request(kind, file):
    """With room for whatever a walk or a copy stores; a refusal comes before an inventory's 20."""
    room = {"W": number(6144, 2) + number(512, 2), "P": b"", "C": number(len(file), 4),
            "I": number(0, 4)}[kind]
    return kind.encode() + room + number(len(file), 4) + file


def read_end(lines):
    """The lines of one answer; its outcome, place, offset and detail."""
    end, ended = (0, 0, 0, 0), 0
    for line in lines:
        word, *numbers = line.split()
        if word in ("end", "refused", "copy", "inventory"):
            end = tuple(map(int, numbers[:4]))
        ended += word == "ended"
        if word in ("end", "dest") or ended == 2:
            return end
    sys.exit("missing_falls: an answer is missing")


def ends(replay, kind, files):
    """The end of each file, asked in as few runs as the input's limit allows."""
    found, batch, count = [], b"", 0
    for one in [request(kind, file) for file in files] + [None]:
        if one is None or len(batch) + len(one) > MOST_INPUT:
            done = subprocess.run([RUN, replay], input=batch, capture_output=True, check=True)
            lines = iter(done.stdout.decode().splitlines())
            found += [read_end(lines) for _ in range(count)]
            batch, count = b"", 0
        batch += one or b""
        count += 1
    return found


def by_reference(kind, file):
    """An inventory without room is 20 where the walk has lines and ends clean."""
    done = reference.walk(file)
    if kind == "I" and done.outcome == 0 and done.lines:
        return 20, 0, 0, 0
    return done.outcome, done.place, done.offset, done.detail


def main():
    options = argparse.ArgumentParser(description=__doc__.splitlines()[0])
    options.add_argument("--files", type=int, default=10000)
    options.add_argument("--seed", type=int, default=1)
    options.add_argument("replay")
    given = options.parse_args()
    pick, against_law, against_reference = random.Random(given.seed), 0, 0
    outcomes, cut, asked = collections.Counter(), collections.Counter(), 0
    files = [random_cut(pick) for _ in range(given.files)]
    tails = {}
    for kind in KINDS:
        first = ends(given.replay, kind, files)
        against_reference += sum(end != by_reference(kind, file) for file, end in zip(files, first))
        grown = []              # the file with octets behind it, and the end that the law says
        for place, (file, end) in enumerate(zip(files, first)):
            outcome, at, offset, missing = end
            if kind == "W":
                outcomes[outcome] += 1
            if outcome != 2:
                continue
            if kind == "W":
                cut[what_is_cut(file, end)] += 1
                tails[place] = [random_tail(pick, more) for more in growths(pick, missing)]
            grown += [(file + tail, (2, at, offset, missing - len(tail)))
                      for tail in tails.get(place, [])]
        second = ends(given.replay, kind, [file for file, _ in grown])
        asked += len(grown)
        against_law += sum(end != said for end, (_, said) in zip(second, grown))
        against_reference += sum(end != by_reference(kind, file)
                                 for end, (file, _) in zip(second, grown))
    print(f"{len(files)} cut files; outcomes "
          + ", ".join(f"{outcome}: {count}" for outcome, count in sorted(outcomes.items())))
    print("refused by 2: " + ", ".join(f"{what}: {count}" for what, count in sorted(cut.items())))
    print(f"{asked} answers to grown files ({len(KINDS)} kinds); {against_law} unlike the law, "
          f"{against_reference} answers unlike reference.py")
    return 1 if against_law or against_reference else 0


sys.exit(main())
