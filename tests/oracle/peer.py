#!/usr/bin/env -S python3 -B
"""Compare ours with eccodes: its edition-2 samples and messages that it writes, alone and joined.

Of each message: offset, total length, discipline, category, number, unit and time, both surfaces,
product templates as the crate; its line of the inventory, which reads them by the Manual; and the
generating process, at the offset that templates have by the Manual. Exit status 1 at a difference
that docs/DIFFERENCES.md has not.
"""

import argparse
import random
import subprocess
import sys
import tempfile
from collections import Counter
from pathlib import Path

TESTS = Path(__file__).resolve().parent.parent
sys.path[:0] = [str(TESTS / "oracle"), str(TESTS / "lists")]

import replay_lists as lists
from reference import walk as walk_by_01
from sides import LARGEST_INPUT, fields_request, run, walk_request
from walk_files import END, message

CATEGORY_AND_NUMBER, PROCESS, UNIT_AND_TIME, SURFACES = (lists.KEYS[4][part] for part in (
    slice(2, 4), slice(4, 5), slice(5, 7), slice(7, None)))
PRODUCT_KEYS = CATEGORY_AND_NUMBER + UNIT_AND_TIME + SURFACES
# What a line of the inventory has of a product, and the generating process.
MANUAL_KEYS = CATEGORY_AND_NUMBER + UNIT_AND_TIME + SURFACES[:1] + PROCESS
MESSAGE_KEYS = ["offset", "totalLength", "discipline"]
TEMPLATE_KEY = "productDefinitionTemplateNumber"


# --- eccodes -------------------------------------------------------------------------------------

def ask_eccodes(folder, file, keys, *options):
    """A list of words for each message, or for each field of one; -f because not every template has
    every key."""
    path = folder / "asked"
    path.write_bytes(file)
    words = ["grib_get", "-f", *options, "-p", ",".join(key + ":i" for key in keys), str(path)]
    done = subprocess.run(words, check=True, capture_output=True, text=True)
    return [line.split() for line in done.stdout.splitlines()]


# --- Ours ----------------------------------------------------------------------------------------

def ask_ours(replay, *requests):
    octets = b"".join(requests)
    assert len(octets) <= LARGEST_INPUT
    return run(replay, octets).splitlines()


def fields_of(replay, file):
    """Of each submessage: its message by its line, offset and total length; then fields of its
    sections 0 and 4."""
    said = ask_ours(replay, walk_request(file))
    assert said[-1] == "end 0 0 0 0", said[-1]
    rows = [tuple(map(int, line.split()[1:])) for line in said if line.startswith("row ")]
    lines = [line.split()[2:] for line in said if line.startswith("line ")]
    found = []
    for zero, _, _, _, four, *_, offset, total in lines:
        (_, start, _), (_, at, length) = rows[int(zero)], rows[int(four)]
        indicator, product = ask_ours(replay, fields_request(0, file[start:start + 16]),
                                      fields_request(4, file[at + 5:at + length]))
        found.append(([offset, total], indicator.split()[2:], product.split()[2:]))
    return found


def by_manual(replay, file):
    """Of each submessage the last five fields of its line in the inventory, and the generating
    process: the octet where the template has it."""
    said = ask_ours(replay, lists.inventory_request(file, LARGEST_INPUT))
    words, dest = said[0].split(), said[1].split()[1]
    assert words[1] == "0", said[0]
    lines = bytes.fromhex(dest)[:int(words[5])].decode().splitlines()
    walked = walk_by_01(file)
    found = []
    for line, told in zip(lines, walked.lines, strict=True):
        row = walked.rows[told.places[4]]
        payload = file[row.offset + 5:row.offset + row.length]
        template = lists.unsigned(payload[2:4])
        answer, = ask_ours(replay, lists.offsets_request(template, lists.BY_MANUAL))
        index = answer.split()[1]
        start = None if index == "none" else lists.PRODUCT_START + int(index)
        process = None if start is None or start >= len(payload) else payload[start]
        found.append(line.split(":")[4:] + [lists.word(process)])
    return found


# --- The comparison ------------------------------------------------------------------------------

def known_as_crate(key, template):
    """Of template 88 the crate has a time, which shows where coordinates follow."""
    of_process, of_time, of_surfaces = (templates for _, templates in lists.OTHERWISE)
    if key in CATEGORY_AND_NUMBER:
        return False
    if key in PROCESS:
        return template in of_process
    return template in (of_time | {88} if key in UNIT_AND_TIME else of_surfaces)


def mended(key, template):
    """What the crate has otherwise, and the reading by the Manual as the Manual has it."""
    return (template == 44 and key in UNIT_AND_TIME) or (template == 47 and key in PROCESS)


def known_by_manual(key, template):
    return known_as_crate(key, template) and not mended(key, template)


class Peer:
    def __init__(self, given, folder):
        self.replay, self.folder, self.counts = given.replay, folder, Counter(differences=0)

    def differs(self, what, *words):
        self.counts["differences"] += 1
        print("DIFFERENCE", what, *words, sep="\n  ")

    def file(self, file, what):
        """A file whose messages have one field each."""
        keys = MESSAGE_KEYS + [TEMPLATE_KEY] + PRODUCT_KEYS
        by_eccodes = ask_eccodes(self.folder, file, keys)
        ours = fields_of(self.replay, file)
        self.counts["files"] += 1
        if len(by_eccodes) != len(ours):
            self.differs(what, f"eccodes finds {len(by_eccodes)} messages, ours {len(ours)}")
        for said, (of_line, indicator, product) in zip(by_eccodes, ours):
            self.message(what, said, of_line, indicator, product)
        by_eccodes = ask_eccodes(self.folder, file, [TEMPLATE_KEY] + MANUAL_KEYS)
        for said, product in zip(by_eccodes, by_manual(self.replay, file), strict=True):
            self.product(what, int(said[0]), MANUAL_KEYS, said[1:], product, known_by_manual)

    def message(self, what, said, of_line, indicator, product):
        """The total length is told twice, by the line and by section 0."""
        discipline, total = indicator
        self.counts["messages"] += 1
        if said[:3] != [*of_line, discipline] or said[1] != total:
            self.differs(what, f"eccodes {said[:3]}", f"ours {of_line}, section 0 {indicator}")
        self.product(what, int(said[3]), PRODUCT_KEYS, said[4:], product[2:4] + product[5:],
                     known_as_crate)

    def product(self, what, template, keys, said, ours, known):
        """By the reading whose differences these are."""
        by_eccodes = map(lists.word, map(lists.value_by_01, keys, said))
        for key, word, theirs, mine in zip(keys, said, by_eccodes, ours):
            self.counts["fields"] += 1
            if word != "not_found" and theirs != word and theirs == mine:
                self.counts["read another way: " + self.reading(key, word)] += 1
            elif theirs != mine and known(key, template):
                self.counts["another layout in eccodes, with the Manual"] += 1
            elif theirs != mine:
                self.differs(what, f"{key} of template {template}: eccodes {word}, ours {mine}")
            elif known is known_by_manual and mended(key, template):
                self.counts[f"{key} of {template}, by the Manual as eccodes"] += 1

    @staticmethod
    def reading(key, word):
        """Why the same octets are another number: docs/DIFFERENCES.md, "From eccodes"."""
        if word == "MISSING":
            return "all ones are missing in eccodes"
        if key == "forecastTime":
            return "a signed time in eccodes"
        return "an unsigned scaled value in eccodes"

    def submessages(self, file, what):
        """A message with several: eccodes lists each, at its message's offset; with -M it lists
        messages."""
        fields = ask_eccodes(self.folder, file, ["offset", "discipline"] + CATEGORY_AND_NUMBER)
        messages = ask_eccodes(self.folder, file, MESSAGE_KEYS, "-M")
        ours = fields_of(self.replay, file)
        self.counts["files with submessages"] += 1
        if fields != [[of_line[0], zero[0], *four[2:4]] for of_line, zero, four in ours]:
            self.differs(what, f"eccodes {fields}", f"ours {ours}")
        our_messages = dict.fromkeys((*of_line, zero[0]) for of_line, zero, _ in ours)
        if messages != [list(words) for words in our_messages]:
            self.differs(what, f"eccodes {messages}", f"ours {ours}")


# --- Files ---------------------------------------------------------------------------------------

# One without and one with coordinates behind the template.
WRITTEN_OVER = ["GRIB2", "reduced_gg_ml_grib2"]


def named(samples, stem):
    return next(file for name, file in samples.items() if Path(name).stem == stem)


def is_edition_2(file):
    return file[:4] == b"GRIB" and file[7] == 2


def samples_of(folder):
    paths = sorted(folder.rglob("*.tmpl"))
    files = {str(path.relative_to(folder)): path.read_bytes() for path in paths}
    return {name: file for name, file in files.items() if is_edition_2(file)}


def written_by_eccodes(folder, sample):
    """Over a sample: a message of each product template that eccodes has, and one with a negative
    time and a large scaled value."""
    path = folder / "written"
    source = folder / "sample"
    source.write_bytes(sample)
    lists.write_by_eccodes(source, lists.MESSAGE_SETTINGS, path)
    yield "a message with unlike values", path.read_bytes()
    for template in lists.numbers_in(lists.SUPPORTED):
        if template not in lists.NOT_IN_ECCODES:
            settings = f"tablesVersion=30,{TEMPLATE_KEY}={template},{lists.PRODUCT_SETTINGS}"
            lists.write_by_eccodes(source, settings, path)
            yield f"a message of template {template}", path.read_bytes()


def joined(files, seed, count):
    """Several messages in one file, some with other octets before, between and behind them."""
    rng = random.Random(f"{seed} joined")
    short = [file for file in files if len(file) < 40_000]
    for _ in range(count):
        parts = rng.sample(short, k=rng.randrange(2, 9))
        octets = b"".join(rng.choice([b"", b"", b"xyz", b"GRI", b"7777"]) + part for part in parts)
        if len(octets) < LARGEST_INPUT // 2:
            yield octets


def with_submessages(file, more):
    """The file's message with its sections 4 to 7 so often again, each time with another parameter
    number."""
    rows = walk_by_01(file).rows
    parts = {row.number: file[row.offset:row.offset + row.length] for row in rows}
    body = b"".join(parts[number] for number in sorted(parts) if 1 <= number <= 7)
    for count in range(more):
        product = parts[4][:10] + bytes([count + 1]) + parts[4][11:]
        body += product + parts[5] + parts[6] + parts[7]
    return message(body + END, discipline=file[6], reserved=file[4:6])


def main():
    options = argparse.ArgumentParser(description=__doc__.splitlines()[0])
    options.add_argument("--replay", type=Path, required=True, help="our program")
    options.add_argument("--eccodes", type=Path, required=True,
                         help="the folder below which eccodes' samples are")
    options.add_argument("--seed", default="1")
    given = options.parse_args()
    samples = samples_of(given.eccodes)
    with tempfile.TemporaryDirectory() as folder:
        peer = Peer(given, Path(folder))
        for name, file in samples.items():
            peer.file(file, name)
        written = [pair for name in WRITTEN_OVER
                   for pair in written_by_eccodes(Path(folder), named(samples, name))]
        for name, file in written:
            peer.file(file, name)
        for file in joined([*samples.values(), *(file for _, file in written)], given.seed, 60):
            peer.file(file, "joined")
        for name, file in samples.items():
            if len(file) < 2_000:
                several = file + with_submessages(file, 2) + file
                peer.submessages(several, name + " with submessages")
    for name, count in sorted(peer.counts.items(), key=lambda counted: counted[0] == "differences"):
        print(f"{name:>60} {count:>6,}")
    sys.exit(1 if peer.counts["differences"] else 0)


if __name__ == "__main__":
    main()
