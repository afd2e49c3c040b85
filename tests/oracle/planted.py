#!/usr/bin/env -S python3 -B
"""Plant faults in copies of the repository, build each and show that `compare` reports it.

A program is only built once it is proved, so a fault is planted where no proof stands against it:
in a definition and in its code alike, or in what prints. `compare` is what can tell such a fault.
Exit status 1 if one goes unreported. With --fits nothing is built: each edit has its places in the
text of today, or the status is 1.
"""

import argparse
import subprocess
import sys
import tempfile
from pathlib import Path
from typing import NamedTuple

from sides import REPOSITORY, copy_crates

HERE = Path(__file__).resolve().parent


class Edit(NamedTuple):
    file: str
    old: str
    new: str
    places: int = 1         # where the old text stands, and is replaced


# What is wrong, in which answers it must show, and the edits.
FAULTS = {
    # The files that show it are judged by 01 alone: the crate overflows there.
    "number_of_9": ("refusal 9 is told as 8, in definition and code", "walk", [
        Edit("index/specs/Numbers.antt", "fault_number (fault.LongerThanRest len) = 9",
             "fault_number (fault.LongerThanRest len) = 8"),
        Edit("index/src/numbers.rt",
             "Fault::LongerThanRest(_) => 9,", "Fault::LongerThanRest(_) => 8,"),
    ]),
    # The crate tells no count of missing octets: 02's is judged by reference.py alone.
    "count_of_8": ("of a cut 8 an octet too many is missing, in definition and code", "walk", [
        Edit("framing/specs/Framing.antt",
             "(Cut (end_size - left))", "(Cut (header_size - left))"),
        Edit("framing/src/read.rt", "Fault::Cut((EndSection::WHOLE_SIZE - left) as u32)",
             "Fault::Cut((HEADER_SIZE - left) as u32)"),
    ]),
    # Where the Manual has it; 01, the crate and both readings have it at index 2.
    "process_of_83": ("template 83's process is at index 16, in definitions and code", "fields", [
        Edit("products/specs/Templates.antt", "(83 to 83 is Some 2)", "(83 to 83 is Some 16)"),
        Edit("products/specs/Rows.antt", "row 2 22 27", "row 16 22 27"),
        Edit("products/src/templates.rt", "02 * PROCESS + 22 * TIME + 27 * SURFACES, // 83",
             "16 * PROCESS + 22 * TIME + 27 * SURFACES, // 83"),
    ]),
    "fields_by_manual": ("kind `F` reads by the Manual; what prints has no contract", "fields", [
        Edit("replaying/src/answers.rt", "product_of(TemplateReading::AsCrate, payload)",
             "product_of(TemplateReading::ByManual, payload)"),
    ]),
    "when_by_manual": ("kind `T` always reads by the Manual; what prints has no contract",
                       "when and where", [
        Edit("replaying/src/answers.rt", "when_and_where(reading, payload)",
             "when_and_where(TemplateReading::ByManual, payload)"),
    ]),
    # An unsupported template: its fields are none whatever its row says.
    "surfaces_of_16": ("template 16 has surfaces as 15 has, in definitions and code", "offsets", [
        Edit("products/specs/Templates.antt", "(0 to 15 is Some 13)", "(0 to 16 is Some 13)"),
        Edit("products/specs/Rows.antt", "row 2 8 13 ∷ row 2 no no", "row 2 8 13 ∷ row 2 no 13"),
        Edit("products/src/templates.rt", "NO * SURFACES, // 16", "13 * SURFACES, // 16"),
    ]),
    "reserved_octets": ("the two reserved octets change places, in definition and code", "write", [
        Edit("writer/specs/Message.antt",
             "reserved₁ ∷ reserved₂ ∷ discipline", "reserved₂ ∷ reserved₁ ∷ discipline"),
        Edit("writer/src/put.rt",
             "4, reserved_1, reserved_2, discipline", "4, reserved_2, reserved_1, discipline"),
        Edit("writer/proofs/put/put_indicator/Answers.antt",
             "reserved₁ ∷ reserved₂ ∷ discipline", "reserved₂ ∷ reserved₁ ∷ discipline", 2),
    ]),
    # The client's eleven hours.
    "open_as_0": ("a message that goes on is told by 0; what prints has no contract", "walk", [
        Edit("replaying/src/walk_lines.rt",
             "text(out, b\" open\"),", "text(out, b\" 0\"),"),
    ]),
    "minus_sign": ("-99 to -1 lose their sign; what prints has no contract", "signed", [
        Edit("replaying/src/printing.rt", "number: i32) -> io::Result<()> {\n",
             "number: i32) -> io::Result<()> {\n"
             "    let number = if -100 < number && number < 0 { 0 - number } else { number };\n"),
    ]),
}


def planted(edit, crates):
    """The text of a file with the edit in it."""
    text = (crates / edit.file).read_text()
    assert text.count(edit.old) == edit.places, f"{edit.file} has no place for the fault"
    return text.replace(edit.old, edit.new)


def plant(folder, edits):
    """A copy of the repository's crates with the edits."""
    copy_crates(folder)
    for edit in edits:
        (folder / "crates" / edit.file).write_text(planted(edit, folder / "crates"))


def built(folder):
    """The program, once it is proved. That it fails its own stored list is no matter here."""
    crate = folder / "crates" / "replay"
    with (crate / "stdin").open("rb") as asked:
        done = subprocess.run(["rt", "run", "--cpu", "x86-64"], cwd=crate, stdin=asked,
                              capture_output=True)
    program = crate / "out" / "replay"
    assert program.exists(), (done.stdout + done.stderr).decode(errors="replace")
    return program


def compared(program, given):
    words = [HERE / "compare.py", "--replay", program, "--oracle", given.oracle,
             "--eccodes", given.eccodes, "--every", str(given.every), "--kinds", given.kinds]
    return subprocess.run(words, capture_output=True, text=True)


def main():
    options = argparse.ArgumentParser(description=__doc__.splitlines()[0])
    options.add_argument("--fits", action="store_true",
                         help="only look whether each edit still has its places")
    options.add_argument("--oracle", type=Path, help="the folder that `build` made")
    options.add_argument("--eccodes", type=Path, help="the folder below which eccodes' samples are")
    options.add_argument("--every", type=int, default=20, metavar="N",
                         help="compare every N-th file")
    options.add_argument("--kinds", default="WPFSOTMI")
    # argparse holds the empty list to the choices, too.
    options.add_argument("fault", nargs="*", choices=[*FAULTS, []], help="all, if none is named")
    given = options.parse_args()
    every = [edit for _, _, edits in FAULTS.values() for edit in edits]
    for edit in every:
        planted(edit, REPOSITORY / "crates")
    print(f"{len(FAULTS)} faults, {len(every)} edits, each has its places")
    if given.fits:
        return
    if not (given.oracle and given.eccodes):
        options.error("--oracle and --eccodes are wanted")
    unreported = 0
    for name in given.fault or FAULTS:
        what, where, edits = FAULTS[name]
        with tempfile.TemporaryDirectory() as folder:
            plant(Path(folder), edits)
            said = compared(built(Path(folder)), given)
        lines = [line.strip() for line in said.stdout.splitlines()]
        found = [line for line in lines if line.startswith("differences in ")]
        reported = any(line.startswith(f"differences in {where} ") for line in found)
        unreported += not reported
        print(f"{name}: {what}", "reported" if reported else "NOT REPORTED" + said.stderr,
              *found, sep="\n  ", flush=True)
    sys.exit(1 if unreported else 0)


if __name__ == "__main__":
    main()
