#!/usr/bin/env -S python3 -B
"""Each must-fail edit was refused at a fact that no longer holds; which fact, from the gate's logs.

    tests/checks/must_fail_logs.py [--log FILE]

Run it after the gate, which writes down what it said (build/gate.log, if no file is named; what
`rt must-fail` printed serves as well). It fails if
an edit changes nothing, or was refused only because a proof file no longer fits the code, or
because something that it stands on was refused before. An edit whose log has nothing but a rewrite
that finds no instance of what it rewrites is told by name and counted apart: what it looked for is
what the edit changed, but no false fact is shown. contracts.py writes the facts down.
"""

import argparse
import sys
from pathlib import Path

from edits import LOG, UNFIT, all_edits, judged, refusals


def main():
    asked = argparse.ArgumentParser(description=__doc__.splitlines()[0])
    asked.add_argument("--log", type=Path, default=LOG, help="what the gate said")
    said = refusals(asked.parse_args().log)
    edits = all_edits()
    judgements = [judged(edit, said) for edit in edits]
    wrong = [fault for _, fault in judgements if fault]
    unfit = [
        f"{edit.crate}/{edit.name}: refused {UNFIT}"
        for edit, (fact, _) in zip(edits, judgements)
        if fact and fact.endswith(UNFIT)
    ]
    at_a_fact = len(edits) - len(wrong) - len(unfit)
    counts = f"{len(edits)} edits, {at_a_fact} refused at a fact, {len(unfit)} {UNFIT}"
    print(*wrong, *unfit, counts, sep="\n")
    return 0 if edits and not wrong else 1


if __name__ == "__main__":
    sys.exit(main())
