#!/usr/bin/env -S python3 -B
"""Hold the transcription of the crate's writer (crates/as_the_encoder/specs/Encoder.antt) against
the crate: nested messages and the oracle's answers as statements that the checker decides by
computing.

    tests/oracle/encoding.py --oracle OUT [--each N] [--seed N] [--count N]
        > crates/as_the_encoder/proofs/WrittenAnswers.antt

Total length, octets counted, the whole destination, and the destination of a call through a
reference are the crate's own. Nothing here comes from the library."""

import argparse
import random
import sys
from pathlib import Path

TESTS = Path(__file__).resolve().parent.parent
sys.path[:0] = [str(TESTS / "oracle"), str(TESTS / "lists")]

from plans import Plan, all_plans, for_crate, payloads, refusal, total_length
from sides import Oracle

LONGEST = 160           # octets of a destination; what is longer takes the checker longer
IN_ONE = 20             # answers in one statement

HEAD = """\
-- Written by tests/oracle/encoding.py from the crate's own answers to {count} nested messages: \
the transcription of its writer gives the same.
use Prim.Native.Nat.{{ℕ}}
use mathlib.Core.Path.{{◌≡◌, refl}}
use mathlib.Core.List.{{List, [], ◌∷◌, map}}
use mathlib.Core.Option.{{Option, none, some}}
use lib.ListN.{{replicate}}
use Rattle.as_the_encoder.specs.Encoder.{{
  Usize,
  size,
  WriteResult,
  Ok,
  TooSmall,
  Overflows,
  OutOfRange,
  write_to_buffer,
  SectionHeader-write_to_buffer,
  Section0-write_to_buffer,
  write_section0,
  write_section8,
  write_section_header,
  section_len,
  write_section,
  data_sections_len,
  write_data_sections,
  IterL3,
  IterL3-num_octets,
  IterL3-write,
  IterL2,
  IterL2-num_octets,
  IterL2-write,
  IterL1,
  IterL1-num_octets,
  IterL1-write,
  Grib2Message,
  Grib2Message-num_octets,
  Grib2Message-write,
  reference,
}}

-- a message, its destination's length, and the crate's answer: num_octets, write, and what \
write leaves through a reference
record Asked : Type 0 where
  message : Grib2Message
  room : ℕ
  total : Usize
  answer : WriteResult
  by_reference : Option (List ℕ)

abbrev asked : Grib2Message → ℕ → ℕ → WriteResult → Option (List ℕ) → Asked
asked message room total answer by_reference =
    record {{ message = message; room = room; total = size total; answer = answer; \
by_reference = by_reference }}

-- the levels of a message
abbrev product : List ℕ → List ℕ → List ℕ → List ℕ → IterL3
product four five six seven =
    record {{ section4 = four; data_sections = record {{ section5 = five; section6 = six; \
section7 = seven }} }}

abbrev grid : List ℕ → List IterL3 → IterL2
grid three products = record {{ section3 = three; iter = products }}

abbrev local : Option (List ℕ) → List IterL2 → IterL1
local two grids = record {{ section2 = two; iter = grids }}

abbrev message : ℕ → ℕ → ℕ → List ℕ → List IterL1 → Grib2Message
message discipline reserved₁ reserved₂ one locals =
    record {{ discipline = discipline; reserved₁ = reserved₁; reserved₂ = reserved₂; \
section1 = one; iter = locals }}

-- a buffer that was written
abbrev written_in : WriteResult → Option (List ℕ)
written_in (Ok octets buf) = some buf
written_in (TooSmall buf) = none
written_in Overflows = none
written_in OutOfRange = none

-- what the transcription answers; every octet of a destination is 165 before the call
abbrev told : Asked → Asked
told a =
    record {{
      message = a.message;
      room = a.room;
      total = Grib2Message-num_octets a.message;
      answer = Grib2Message-write a.message (replicate a.room 165);
      by_reference = written_in (Grib2Message-write (reference a.message) \
(replicate a.room 165));
    }}
"""

STATEMENT = """
told_{k} : map told answers_{k} ≡ answers_{k}
unfolding answers_{k} Grib2Message-write Grib2Message-num_octets IterL1-write \
IterL1-num_octets IterL2-write IterL2-num_octets
    IterL3-write IterL3-num_octets write_data_sections data_sections_len write_section \
section_len write_section_header write_section8
    write_section0 Section0-write_to_buffer SectionHeader-write_to_buffer write_to_buffer
told_{k} = refl
"""


def listed(items):
    return " ∷ ".join([*items, "[]"])


def octets(payload):
    return f"({listed(map(str, payload))})" if payload else "[]"


def nested(plan):
    """The plan as the crate's traits have it; as shim/plan.rs does it, so that the oracle is asked
    of the same message."""
    rows = list(zip((number for number, _, _ in plan.sections), payloads(plan)))
    (_, one), rows = rows[0], rows[1:]
    locals_ = [("none", [])]
    while rows:
        number, payload = rows.pop(0)
        if number == 2:
            locals_.append((f"(some {octets(payload)})", []))
        elif number == 3:
            locals_[-1][1].append((payload, []))
        else:
            data = [rows.pop(0)[1] for _ in range(3)]
            locals_[-1][1][-1][1].append([payload, *data])
    return one, locals_


def message_text(plan):
    one, locals_ = nested(plan)

    def grid(three, products):
        each = ["product " + " ".join(map(octets, product)) for product in products]
        return f"grid {octets(three)} ({listed(each)})"

    each = [f"local {two} ({listed(grid(*g) for g in grids)})" for two, grids in locals_]
    numbers = " ".join(map(str, [plan.discipline, *plan.reserved]))
    return f"message {numbers} {octets(one)} ({listed(each)})"


def case(plan, told):
    words = told[0].split()
    dest = {line.split()[0]: bytes.fromhex(line.split()[1].strip("-")) for line in told[1:]}
    written = words[0] == "written"
    answer = f"Ok {words[1]}" if written else "TooSmall"
    again = f"(some {octets(dest['by-reference'])})" if written else "none"
    return (f"asked ({message_text(plan)}) {plan.room} {words[-1]}\n"
            f"    ({answer} {octets(dest['dest'])})\n    {again}")


def small_plans():
    """Rows of sections with payloads of one octet or none; of each one octet too little room, too.
    """
    for numbers in ([1], [1, 2], [1, 3], [1, 2, 3], [1, 3, 4, 5, 6, 7], [1, 2, 3, 4, 5, 6, 7],
                    [1, 2, 2, 3], [1, 3, 3], [1, 3, 4, 5, 6, 7, 2, 3, 4, 5, 6, 7]):
        for length in (0, 1):
            sections = tuple((number, 0, length) for number in numbers)
            plan = Plan(7, b"\x01\x02", sections, b"\x09", 0)
            for room in (0, 1, -1):
                yield plan._replace(room=total_length(plan) + room)


def kind_of(plan, told):
    """What the crate said, and what 01 says."""
    refused = refusal(plan)
    return told[0].split()[0], refused[0] if refused else 0


def main():
    parser = argparse.ArgumentParser()
    parser.add_argument("--oracle", type=Path, required=True)
    parser.add_argument("--each", type=int, default=5)
    parser.add_argument("--seed", type=int, default=1)
    parser.add_argument("--count", type=int, default=200)
    args = parser.parse_args()
    made = [*small_plans(), *all_plans(args.seed, args.count)]
    made = [plan for plan in dict.fromkeys(made)
            if max(plan.room, total_length(plan)) <= LONGEST and for_crate(plan) is not None]
    answers = Oracle(args.oracle).answers(b"M", map(for_crate, made))
    kinds = {}
    for plan, told in zip(made, answers):
        if told != ["NoShape"]:
            kinds.setdefault(kind_of(plan, told), []).append((plan, told))
    rng = random.Random(f"{args.seed} encoding")
    chosen = [pair for kind in sorted(kinds)
              for pair in rng.sample(kinds[kind], min(args.each, len(kinds[kind])))]
    print(HEAD.format(count=len(chosen)), end="")
    for k, start in enumerate(range(0, len(chosen), IN_ONE)):
        cases = "\n    ∷ ".join(case(*pair) for pair in chosen[start:start + IN_ONE])
        print(f"\nanswers_{k} : List Asked\nanswers_{k} =\n    {cases}\n    ∷ []")
        print(STATEMENT.format(k=k), end="")
    for (word, outcome), pairs in sorted(kinds.items()):
        print(f"{word}, by 01 {outcome}: {len(pairs)}", file=sys.stderr)
    print(f"kept: {len(chosen)}", file=sys.stderr)


main()
