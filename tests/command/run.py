#!/usr/bin/env -S python3 -B
"""Tests the command: CC=.. RUN=.. tests/command/run.py build/buttresk [MODULE..]

Each check is a line; the last line counts them, and the status is 1 if one does not hold.
tests/README.md says what is tried.
"""

import importlib
import os
import sys
import time

import shared

MODULES = ["reading", "listing", "viewing", "copying", "verifying", "changing", "errors", "large",
           "making"]


def main(arguments):
    shared.need_python()
    if not arguments or not os.access(arguments[0], os.X_OK):
        print(__doc__, file=sys.stderr)
        return 2
    shared.Command.path = os.path.abspath(arguments[0])
    shared.Command.emulator = os.environ.get("RUN", "").split()
    shared.end_in_time(1800)
    for name in arguments[1:] or MODULES:
        begun = time.monotonic()
        print(f"-- {name}", flush=True)
        importlib.import_module(name).everything()
        print(f"-- {name}: {time.monotonic() - begun:.0f} s", flush=True)
    print(shared.total())
    return 1 if shared.counts["not ok"] else 0


if __name__ == "__main__":
    sys.exit(main(sys.argv[1:]))
