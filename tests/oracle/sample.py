#!/usr/bin/env -S python3 -B
"""Write the stored list `replay_crate`: requests, and the oracle's answers to them in the words of
docs/REPLAY.md; and last a request of no known kind.

No answer comes from the library. README.md says which numbers the crate does not tell, and who
says them.
"""

import argparse
import sys
from pathlib import Path

TESTS = Path(__file__).resolve().parent.parent
sys.path[:0] = [str(TESTS / "oracle"), str(TESTS / "lists")]

import files
import payloads
import plans
import verdict
from reference import walk
from sides import (LARGEST_INPUT, Oracle, Told, fields_request, pull_request, signed_request,
                   walk_request, write_request)
from walk_files import CARRIED, cut_anywhere

OUTCOMES = [0, *range(2, 13)]
OF_EACH = 45                # walks of each outcome; every third also a pull
FIELDS, NUMBERS, PLANS = 160, 40, 40
LONGEST = 400               # octets of a file


def evenly(cases, count):
    """So many of the cases, spread over all of them."""
    return [cases[len(cases) * k // count] for k in range(count)]


def chosen_files(seed, eccodes, count):
    """Of each outcome files from every group, in the order in which they were made."""
    by_outcome = {outcome: [] for outcome in OUTCOMES}
    for _, file in files.distinct(seed, eccodes, count):
        if len(file) <= LONGEST:
            by_outcome[walk(file).outcome].append(file)
    return [file for outcome in OUTCOMES for file in evenly(by_outcome[outcome], OF_EACH)]


def answered(oracle, chosen):
    """Each file with what the crate told of it, and the answer: the crate's, or 01's where it
    overflowed."""
    for file, lines in zip(chosen, oracle.answers(b"W", chosen)):
        told, by_01 = Told(lines), verdict.by_01(file)
        answer = verdict.by_crate(told, by_01)
        if answer is None:
            assert verdict.agrees_up_to_overflow(told, by_01)
            answer = by_01
        yield file, told, answer


def walk_pairs(cases):
    """Tables that hold every line, with a remainder and a line to spare."""
    for place, (file, _, answer) in enumerate(cases):
        numbers, lines = 3 * len(answer.rows) + 4, len(answer.lines) + 1
        yield walk_request(file, numbers, lines), answer.walk_words()
        if place % 3 == 0:
            yield pull_request(file), answer.pull_words()


def listed_payloads(cases):
    """Number and payload of each passed section with fields, and the crate's line."""
    found = {}
    for file, told, _ in cases:
        rows = [row for row in told.passed if row[0] in (0, 1, 3, 4, 5, 6)]
        for (number, offset, length), line in zip(rows, told.fields):
            skipped = 0 if number == 0 else 5
            found[number, file[offset + skipped:offset + length]] = line
    return found


def fields_pairs(cases):
    """Of section 4 the most: its fields differ by template."""
    found = listed_payloads(cases)
    of_4 = [key for key in found if key[0] == 4]
    others = [key for key in found if key[0] != 4]
    for number, payload in evenly(of_4, FIELDS * 3 // 4) + evenly(others, FIELDS // 4):
        yield fields_request(number, payload), found[number, payload]


def signed_pairs(oracle, seed):
    chosen = evenly(list(payloads.all_signed(seed)), NUMBERS)
    for octets, told in zip(chosen, oracle.answers(b"S", chosen)):
        yield signed_request(octets), payloads.signed_expected(octets, told)


def plan_pairs(oracle, seed):
    """Plans that the crate writes, or refuses for want of room."""
    def spoken(plan):
        outcome, _ = plans.refusal(plan) or (0, 0)
        return outcome in (0, 19) and len(plan.sections) < 40

    chosen = evenly([plan for plan in plans.all_plans(seed, PLANS) if spoken(plan)], PLANS)
    for plan, told in zip(chosen, oracle.answers(b"M", map(plans.for_crate, chosen))):
        assert plans.agrees(plan, told)
        words, dest = told[0].split(), told[1]
        end = f"write 0 0 0 0 {words[1]}" if words[0] == "written" else "write 19 0 0 0 0"
        yield write_request(plan), f"{end}\n{dest}"


def cut_pairs(oracle):
    """Every cut of three messages, walked and pulled. Where their sections stand says the end, too,
    with how many octets are missing."""
    _, cuts = cut_anywhere()
    cases = answered(oracle, [file for file, _ in cuts])
    for (_, end), (file, _, answer) in zip(cuts, cases):
        assert "%d %d %d %d" % answer.end == end, (len(file), answer.end, end)
        numbers, lines = 3 * len(answer.rows) + 4, len(answer.lines) + 1
        yield walk_request(file, numbers, lines), answer.walk_words()
        yield pull_request(file), answer.pull_words()


def carried_pairs(oracle):
    """What a line says of its message, walked and pulled. Lines and end stand by hand, too."""
    cases = answered(oracle, [file for file, *_ in CARRIED.values()])
    for (_, rows, lines, _, end), (file, _, answer) in zip(CARRIED.values(), cases):
        assert answer.lines == lines, (answer.lines, lines)
        assert "%d %d %d %d" % answer.end == end, (answer.end, end)
        yield walk_request(file, 3 * rows + 4, len(lines) + 1), answer.walk_words()
        yield pull_request(file), answer.pull_words()


def unknown_pairs():
    """Good requests, then one of no known kind: `s`. The run ends there, so the good request behind
    it has no answer. docs/REPLAY.md says these answers."""
    return [
        (signed_request(b"\x80\0\1"), "signed -1"),
        (fields_request(6, b"\xff"), "fields 6 255"),
        (fields_request(2, b""), "fields 2 none"),
        (b"s" + signed_request(b"\5"), "bad"),
    ]


def main():
    options = argparse.ArgumentParser(description=__doc__.splitlines()[0])
    options.add_argument("--oracle", type=Path, required=True, help="the folder that `build` made")
    options.add_argument("--eccodes", type=Path, required=True,
                         help="the folder below which eccodes' samples are")
    options.add_argument("--out", type=Path, required=True, help="the repository's crates folder")
    options.add_argument("--seed", default="1")
    options.add_argument("--files", type=int, default=260_000)
    options.add_argument("--kinds", default="WPFSM", help="kinds of requests in the list")
    given = options.parse_args()
    oracle = Oracle(given.oracle)
    cases = list(answered(oracle, chosen_files(given.seed, given.eccodes, given.files)))
    pairs = [*walk_pairs(cases), *fields_pairs(cases), *signed_pairs(oracle, given.seed),
             *plan_pairs(oracle, given.seed), *cut_pairs(oracle), *carried_pairs(oracle)]
    pairs = [pair for pair in pairs if chr(pair[0][0]) in given.kinds] + unknown_pairs()
    requests = b"".join(request for request, _ in pairs)
    assert len(requests) <= LARGEST_INPUT, len(requests)
    folder = given.out / "replay_crate"
    folder.mkdir(parents=True, exist_ok=True)
    (folder / "stdin").write_bytes(requests)
    (folder / "stdout").write_text("".join(answer + "\n" for _, answer in pairs))
    print(f"replay_crate: {len(pairs)} answers, {len(requests)} octets of requests")


if __name__ == "__main__":
    main()
