#!/usr/bin/env -S python3 -B
"""Demand 3 of walk and inventory, tried.

    tests/lists/blind_pairs.py [--pairs N] [--seed N] target/bin/replay

Makes pairs of files of one length that differ in values octets only, asks `replay` for the walk and
the inventory of both (kinds `W`, `I`), and holds the answers against each other, the lines of the
walk against `reference.py`, the inventory against `inventory_by_02.py`. Which octets are values
octets is said by `reference.py`. The status is 1 if two answers differ.
"""

import argparse
import collections
import random
import subprocess
import sys
from pathlib import Path

import inventory_by_02
import reference
from reference import LEAST, values_octets
from walk_files import END, message, section

RUN = Path(__file__).resolve().parent.parent / "run.sh"
MOST_INPUT = 262144
TEMPLATES = [0, 1, 8, 11, 15, 20, 32, 40, 44, 47, 48, 51, 60, 70, 76, 82, 88, 91, 254, 1000, 1100,
             1101, 65535]


def random_section(pick, number):
    octets = pick.randbytes(LEAST[number] + pick.choice([0, 1, 8, 30, 60]))
    if number == 4:
        octets = octets[:2] + pick.choice(TEMPLATES).to_bytes(2, "big") + octets[4:]
    return section(number, octets)


def random_numbers(pick):
    """The numbers of a message's sections: some submessages, now and then out of order."""
    numbers = [1, *pick.choice([(), (2,)]), 3, 4, 5, 6, 7]
    for _ in range(pick.randrange(4)):
        numbers += pick.choice([(4, 5, 6, 7), (3, 4, 5, 6, 7), (2, 3, 4, 5, 6, 7)])
    if pick.random() < 0.1:
        numbers[pick.randrange(len(numbers))] = pick.randrange(1, 8)
    return numbers


def random_file(pick):
    parts = []
    for _ in range(pick.randrange(1, 4)):
        parts.append(pick.choice([b"", b"", b"\r\n", b"GRI", pick.randbytes(5)]))
        body = b"".join(random_section(pick, number) for number in random_numbers(pick))
        parts.append(message(body + END, discipline=pick.randrange(256)))
    file = b"".join(parts)
    return file[:pick.randrange(len(file))] if pick.random() < 0.1 else file


def other_values(pick, file):
    """The same file with other values octets; how many differ."""
    other = bytearray(file)
    for listed in reference.walk(file).rows:
        for place in values_octets(file, listed):
            other[place] = pick.randrange(256)
    return bytes(other), sum(a != b for a, b in zip(file, other))


def walk_request(file):
    """With the largest tables."""
    numbers, lines = (6144).to_bytes(2, "big"), (512).to_bytes(2, "big")
    return b"W" + numbers + lines + len(file).to_bytes(4, "big") + file


def inventory_request(file, room):
    return b"I" + room.to_bytes(4, "big") + len(file).to_bytes(4, "big") + file


def answers(replay, requests, last):
    """The lines of each answer, whose last begins so; in as few runs as the input's limit allows.
    """
    lines, batch = [], b""
    for one in requests + [None]:
        if one is None or len(batch) + len(one) > MOST_INPUT:
            done = subprocess.run([RUN, replay], input=batch, capture_output=True, check=True)
            lines += done.stdout.decode().splitlines()
            batch = b""
        batch += one or b""
    found = [[]]
    for line in lines:
        found[-1].append(line)
        if line.startswith(last):
            found.append([])
    return found[:-1]


def lines_expected(file):
    return ["line " + reference.line_words(line) for line in reference.walk(file).lines]


def inventory_expected(file, room):
    done = inventory_by_02.inventory(file, room)
    dest = done.octets.ljust(room, b"\xa5").hex() or "-"
    return [f"inventory {done.outcome} {done.place} {done.offset} {done.detail} {len(done.octets)}",
            f"dest {dest}"]


def lines_in(answer):
    return [line for line in answer if line.startswith("line ")]


def unequal(some, others):
    return sum(a != b for a, b in zip(some, others)) + abs(len(some) - len(others))


def walks_told(replay, pairs):
    """Pairs whose walks are unlike each other, and walks whose lines are unlike `reference.py`."""
    first = answers(replay, [walk_request(file) for file, _, _ in pairs], "end ")
    second = answers(replay, [walk_request(other) for _, other, _ in pairs], "end ")
    said = [lines_expected(file) for file, _, _ in pairs]
    return unequal(first, second), unequal([lines_in(one) for one in first], said)


def main():
    options = argparse.ArgumentParser(description=__doc__.splitlines()[0])
    options.add_argument("--pairs", type=int, default=10000)
    options.add_argument("--seed", type=int, default=1)
    options.add_argument("replay")
    given = options.parse_args()
    pick, pairs, changed = random.Random(given.seed), [], 0
    for _ in range(given.pairs):
        file = random_file(pick)
        other, octets = other_values(pick, file)
        whole = len(inventory_by_02.inventory(file, MOST_INPUT).octets)
        pairs.append((file, other, max(0, whole + pick.choice([-1, 0, 0, 5]))))
        changed += octets
    first = [inventory_request(file, room) for file, _, room in pairs]
    second = [inventory_request(other, room) for _, other, room in pairs]
    first, second = (answers(given.replay, requests, "dest ") for requests in (first, second))
    said = [inventory_expected(file, room) for file, _, room in pairs]
    unlike, wrong = unequal(first, second), unequal(first, said)
    unlike_walks, wrong_lines = walks_told(given.replay, pairs)
    ends = collections.Counter(int(answer[0].split()[1]) for answer in said)
    print(f"{len(pairs)} pairs, {changed} octets differ; outcomes "
          + ", ".join(f"{outcome}: {count}" for outcome, count in sorted(ends.items())))
    print(f"{unlike_walks} pairs walked unlike each other, "
          f"{wrong_lines} with lines unlike reference.py")
    print(f"{unlike} pairs answered unlike each other, {wrong} answers unlike inventory_by_02.py")
    return 1 if unlike or wrong or unlike_walks or wrong_lines else 0


sys.exit(main())
