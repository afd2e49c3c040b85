#!/usr/bin/env -S python3 -B
"""Feed the crate's own code and ours the same files, payloads, numbers, templates and plans, and
compare every result.

The report counts the files by outcome. Exit status 1 at any difference, or if an outcome comes too
seldom.
"""

import argparse
import subprocess
import sys
from collections import Counter
from itertools import islice
from pathlib import Path

HERE = Path(__file__).resolve().parent
sys.path[:0] = [str(HERE), str(HERE.parent / "lists")]

import differences
import files
import payloads
import plans
import verdict
from replay_lists import (AS_CRATE, BY_MANUAL, offsets_answer, offsets_pair, when_where_pair,
                          when_where_request)
from sides import (LARGEST_TABLES, Oracle, Replay, Told, fields_request, pull_request,
                   signed_request, walk_request, write_request)

BATCH = 2_000_000           # octets of files that the oracle is handed at a time
LEAST_OF_EACH = 1_000       # files of each outcome
OUTCOMES = [0, *range(2, 13)]
COUNTED = ["sections", "lines", "fields of listed sections", "plans handed to the crate",
           "intended differences"]
SHOWN = 3                   # differences of one sort that are printed
MOST_SHOWN = 3_000          # characters of a file or an answer


class Comparison:
    def __init__(self, given):
        self.kinds = given.kinds
        self.oracle = Oracle(given.oracle)
        self.replay = Replay(given.replay, self.differs)
        self.counts, self.groups, self.differences = Counter(), Counter(), Counter()
        self.compared, self.apart, self.plan_outcomes = Counter(), Counter(), Counter()
        self.seen_payloads = set()

    # --- Differences

    def differs(self, ask, answer):
        self.difference(ask.about, f"request {ask.request.hex()}", f"expected\n{ask.expected}",
                        f"ours\n{answer}")

    def difference(self, about, *words):
        """A few of each are printed."""
        self.differences[about] += 1
        if self.differences[about] <= SHOWN:
            print("DIFFERENCE in " + about, *(word[:MOST_SHOWN] for word in words), sep="\n")

    def ask(self, about, request, expected):
        """Ours is asked if its kind is wanted."""
        if chr(request[0]) in self.kinds:
            self.counts[chr(request[0])] += 1
            self.replay.ask(about, request, expected)

    # --- Files

    def files(self, named):
        batch, size = [], 0
        for group, file in named:
            self.groups[group] += 1
            batch.append(file)
            size += len(file)
            if size > BATCH:
                self.batch(batch)
                batch, size = [], 0
        self.batch(batch)

    def batch(self, batch):
        for file, lines in zip(batch, self.oracle.answers(b"W", batch)):
            self.file(file, Told(lines))

    def file(self, file, told):
        expected = self.expected(file, told)
        if not verdict.offsets_agree(told):
            self.difference("the crate's offsets and places", file.hex())
        self.counts["sections"] += len(expected.rows)
        self.counts["lines"] += len(expected.lines)
        numbers, lines = LARGEST_TABLES
        if 3 * len(expected.rows) <= numbers and len(expected.lines) <= lines:
            self.ask("walk", walk_request(file), expected.walk_words())
        self.ask("pull", pull_request(file), expected.pull_words())
        self.listed_fields(file, told)

    def expected(self, file, told):
        """Document 01's reader judges each file too; where the crate overflows it judges alone, and
        how many octets are missing it alone tells."""
        by_01 = verdict.by_01(file)
        by_crate = verdict.by_crate(told, by_01)
        if by_crate is None:
            self.apart[by_01.end[0]] += 1
            if not verdict.agrees_up_to_overflow(told, by_01):
                self.difference("01 and the crate up to its overflow", file.hex(),
                                by_01.walk_words())
            return by_01
        self.compared[by_crate.end[0]] += 1
        if by_crate.walk_words() != by_01.walk_words():
            self.difference("01 and the crate", file.hex(), by_crate.walk_words(),
                            by_01.walk_words())
        return by_crate

    def listed_fields(self, file, told):
        """The fields of every section that the crate let pass; each payload once."""
        with_fields = [row for row in told.passed if row[0] in (0, 1, 3, 4, 5, 6)]
        assert len(with_fields) == len(told.fields)
        for (number, offset, length), expected in zip(with_fields, told.fields):
            self.counts["fields of listed sections"] += 1
            payload = file[offset:offset + 16] if number == 0 else file[offset + 5:offset + length]
            key = number, payload
            if key not in self.seen_payloads:
                self.seen_payloads.add(key)
                self.ask_fields(number, payload, expected)

    def ask_fields(self, number, payload, by_crate):
        """And of section 4 its time and surfaces in one call. By the Manual they differ from the
        crate's in the time of 44, and there alone."""
        self.ask("fields", fields_request(number, payload), by_crate)
        if number != 4:
            return
        both = payloads.when_where_told(by_crate)
        self.ask("when and where", when_where_request(payload, AS_CRATE), both)
        request, by_02 = when_where_pair(payload, BY_MANUAL)
        if both != by_02 and payload[2:4] != b"\0\x2c":
            self.difference("02's and the crate's when and where", payload.hex(), both, by_02)
        self.ask("when and where by the Manual", request, by_02)

    # --- Payloads and numbers by themselves

    def fields(self, cases):
        cases = list(cases)
        requests = [bytes([number]) + payload for number, payload in cases]
        for (number, payload), told in zip(cases, self.oracle.answers(b"F", requests)):
            self.ask_fields(number, payload, payloads.fields_expected(number, told))

    def signed(self, cases):
        cases = list(cases)
        for octets, told in zip(cases, self.oracle.answers(b"S", cases)):
            self.ask("signed", signed_request(octets), payloads.signed_expected(octets, told))

    # --- Templates

    def offsets(self):
        """Of every template number, supported or not; 01's ranges judge each too. By the Manual
        ours differs from the crate in 47, and there alone."""
        requests = [b"\4" + payloads.telling_places(template) for template in range(65_536)]
        for template, told in enumerate(self.oracle.answers(b"O", requests)):
            by_crate = offsets_answer(payloads.indices_told(told))
            request, by_01 = offsets_pair(template)
            if by_crate != by_01:
                self.difference("01's and the crate's offsets", f"template {template}", by_crate,
                                by_01)
            self.ask("offsets", request, by_crate)
            request, by_02 = offsets_pair(template, BY_MANUAL)
            if (by_crate == by_02) == (template == 47):
                self.difference("02's and the crate's offsets", f"template {template}", by_crate,
                                by_02)
            self.ask("offsets by the Manual", request, by_02)

    # --- The writer

    def plans(self, all_plans):
        """What is written is walked, too."""
        all_plans = list(all_plans)
        self.plans_by_crate([plan for plan in all_plans if plans.for_crate(plan) is not None])
        written = {}
        for plan in all_plans:
            self.ask("write", write_request(plan), plans.by_01(plan))
            outcome, _ = plans.refusal(plan) or (0, 0)
            self.plan_outcomes[outcome] += 1
            if outcome == 0:
                written[plans.written(plan)] = None
        self.files(("written messages", file) for file in written)

    def plans_by_crate(self, handed):
        told = self.oracle.answers(b"M", map(plans.for_crate, handed))
        for plan, answer in zip(handed, told):
            self.counts["plans handed to the crate"] += 1
            if not plans.agrees(plan, answer):
                self.difference("01 and the crate's writer", str(plan), *answer)

    # --- Intended differences

    def intended(self):
        """Each stands as docs/DIFFERENCES.md says."""
        for kind, octets, by_crate, request, ours in differences.INTENDED:
            told, = self.oracle.answers(kind, [octets])
            if by_crate not in told:
                self.difference("an intended one, at the crate", octets.hex(), by_crate, *told)
            self.ask("an intended one", request, ours)
            self.counts["intended differences"] += 1

    # --- The report

    def report(self, given):
        print(f"\ncrate grib {differences.CRATE}; eccodes {eccodes_version()}; seed {given.seed}\n")
        self.table({"files": sum(self.groups.values())} | self.groups)
        print(f"\n{'outcome':>8} {'compared':>10} {'overflow, by 01':>16} {'all':>10}")
        for outcome in OUTCOMES:
            compared, apart = self.compared[outcome], self.apart[outcome]
            print(f"{outcome:>8} {compared:>10,} {apart:>16,} {compared + apart:>10,}")
        compared, apart = sum(self.compared.values()), sum(self.apart.values())
        print(f"{'all':>8} {compared:>10,} {apart:>16,} {compared + apart:>10,}\n")
        self.table({name: self.counts[name] for name in COUNTED})
        self.table({f"requests of kind {kind}": self.counts[kind] for kind in self.kinds})
        self.table({f"plans with outcome {outcome}": count
                    for outcome, count in sorted(self.plan_outcomes.items())})
        self.table({f"differences in {about}": count for about, count in self.differences.items()}
                   | {"differences": sum(self.differences.values())})

    @staticmethod
    def table(counts):
        for name, count in counts.items():
            print(f"{name:>36} {count:>9,}")

    def seldom(self):
        return [outcome for outcome in OUTCOMES
                if self.compared[outcome] + self.apart[outcome] < LEAST_OF_EACH]


def eccodes_version():
    done = subprocess.run(["codes_info", "-v"], check=True, capture_output=True, text=True)
    return done.stdout.strip()


def main():
    options = argparse.ArgumentParser(description=__doc__.splitlines()[0])
    options.add_argument("--replay", type=Path, required=True, help="our program")
    options.add_argument("--oracle", type=Path, required=True, help="the folder that `build` made")
    options.add_argument("--eccodes", type=Path, required=True,
                         help="the folder below which eccodes' samples are")
    options.add_argument("--seed", default="1")
    options.add_argument("--files", type=int, default=260_000,
                         help="how many distinct files at least")
    options.add_argument("--plans", type=int, default=400,
                         help="how many plans without fault; each has faulty copies")
    options.add_argument("--every", type=int, default=1, metavar="N",
                         help="every N-th only: a quick look, which counts no outcome")
    options.add_argument("--kinds", default="WPFSOTMI", help="kinds of requests that ours is asked")
    given = options.parse_args()
    comparison = Comparison(given)

    def some(cases):
        return islice(cases, 0, None, given.every)

    comparison.files(some(files.distinct(given.seed, given.eccodes, given.files)))
    comparison.files(some(files.cut_files()))
    comparison.files(some(files.carried_files()))
    comparison.fields(some(payloads.all_fields(given.seed)))
    comparison.signed(some(payloads.all_signed(given.seed)))
    comparison.offsets()
    comparison.plans(some(plans.all_plans(given.seed, given.plans)))
    comparison.intended()
    comparison.replay.run()
    comparison.report(given)
    seldom = comparison.seldom() if given.every == 1 else []
    for outcome in seldom:
        print(f"outcome {outcome} came under {LEAST_OF_EACH} times")
    sys.exit(1 if comparison.differences or seldom else 0)


if __name__ == "__main__":
    main()
