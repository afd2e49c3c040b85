#!/usr/bin/env -S python3 -B
"""Hold the transcription of the crate (crates/as_the_crate/specs) against the crate's own code.

Files and the oracle's answers to them are written as statements, which the prover decides by
computing: sections passed, lines with places and with offsets, the end with its number, where the
crate began on the section in hand, and the number of a section that its order refused. What it told
before an overflow is among them. Nothing comes from this library.

    --write FILE    a few answers of every end, for the repository: proofs/Answers.antt
    --decide        many, in a scratch copy of the repository, decided there; exit status 1 if one
                    is refused
    --wrong WHICH   one number of one answer is changed: the prover has to refuse it

Files about the edges of the crate's blocks of 4096 octets are too long to compute: `compare` and
the law `search_is` have them.
"""

import argparse
import random
import subprocess
import sys
import tempfile
import time
from pathlib import Path

HERE = Path(__file__).resolve().parent
sys.path.insert(0, str(HERE.parent / "lists"))

import files
from sides import Oracle, Told, copy_crates
from verdict import MISPLACED, UNREAD
from walk_files import A, by_hand, least, message, section

WORDS = ["Over", *UNREAD, "UnexpectedEndOfData", *MISPLACED, "Overflow"]
LONGEST = 400           # octets of a file

# Where the crate overflows, the smallest files and those just beside them: total length under 16,
# section length under 5, section 6 of length 5, section longer than the rest, offset and total
# length of 2^64 and of one less, the latter two also at a section 0 that the order refuses.
EDGES = [message(b"", total=15), message(b"", total=16),
         message(section(1, b"", stated=4)), message(section(1, b"", stated=5)),
         message(least(1, 3, 4, 5) + section(6, b"") + b"\0"), message(least(1), total=36),
         message(b"", total=2**64 - 1), A + message(b"", total=2**64 - len(A)),
         A + message(b"", total=2**64 - len(A) - 1),
         message(b"") + message(b"", total=2**64 - 16),
         message(b"") + message(b"", total=2**64 - 17)]
TOGETHER = 60           # files in a statement

HEAD = """\
-- Written by tests/oracle/transcription.py: the answers of the crate grib 0.20.2 itself to {count}
-- files, which are those of its transcription.
use Prim.Native.Nat.{{ℕ}}
use mathlib.Core.Path.{{◌≡◌, refl}}
use mathlib.Core.List.{{List, [], ◌∷◌, ◌++◌, map}}
use lib.ListN.{{replicate}}
use Rattle.octets.specs.BigEndian.{{be_at}}
use Rattle.framing.specs.Search.{{says}}
use Rattle.as_the_crate.specs.Std.{{ReadError, GRIBVersionMismatch, UnknownSectionNumber}}
use Rattle.as_the_crate.specs.Std.{{EndSectionMismatch, SectionSizeTooSmall}}
use Rattle.as_the_crate.specs.Std.{{UnexpectedEndOfData, InvalidSectionOrder}}
use Rattle.as_the_crate.specs.Std.{{NoGridDefinition}}
use Rattle.as_the_crate.specs.Std.{{Dropped, Option, some, nothing, SectionInfo, info}}
use Rattle.as_the_crate.specs.Std.{{Cursor-read, Cursor-read_exact, Cursor-seek}}
use Rattle.as_the_crate.specs.Reader as Reader
use Rattle.as_the_crate.specs.Parser as Parser
use Rattle.as_the_crate.specs.Parser.{{Submessage, Collected, Finish, clean, fails, overflow}}
use Rattle.as_the_crate.specs.Told.{{the_rust, the_public_rust, streamed}}

-- message, submessage, nine places
abbrev line : ℕ → ℕ → ℕ → ℕ → Option ℕ → ℕ → ℕ → ℕ → ℕ → ℕ → ℕ → Submessage ℕ
line message submessage sect0 sect1 sect2 sect3 sect4 sect5 sect6 sect7 sect8 =
    record {{
      message = message;
      submessage = submessage;
      sect0 = sect0;
      sect1 = sect1;
      sect2 = sect2;
      sect3 = sect3;
      sect4 = sect4;
      sect5 = sect5;
      sect6 = sect6;
      sect7 = sect7;
      sect8 = sect8;
    }}

-- where it began, and the number of a section that the order refused
abbrev drops : ℕ → ℕ → Dropped
drops began number = record {{ began = began; number = number }}

-- a file; the crate's answer: sections, lines, end; and its public stream's lines, with offsets
record Asked : Type 0 where
  file : List ℕ
  answer : Collected ℕ
  offsets : List (Submessage ℕ)

abbrev asked : List ℕ → List SectionInfo → List (Submessage ℕ) → List (Submessage ℕ) → Finish
    → Asked
asked file sections submessages offsets end =
    record {{
      file = file;
      answer = record {{ sections = sections; submessages = submessages; end = end }};
      offsets = offsets;
    }}

abbrev offset_in : Option SectionInfo → Option ℕ
offset_in (some s) = some s.offset
offset_in nothing = nothing

abbrev offsets_in : Submessage SectionInfo → Submessage ℕ
offsets_in s =
    line s.message s.submessage s.sect0.offset s.sect1.offset (offset_in s.sect2)
    s.sect3.offset s.sect4.offset s.sect5.offset s.sect6.offset s.sect7.offset
    s.sect8.offset

-- what the transcription answers
abbrev told : List ℕ → Asked
told file =
    record {{
      file = file;
      answer = the_rust file;
      offsets = map (λ (s : Submessage SectionInfo). offsets_in s) \
(the_public_rust file).submessages;
    }}
"""

UNFOLDING = """\
unfolding {name} streamed Parser.collected Parser.next_in Parser.match_num
    Parser.ensure_next_is_sect0 Parser.ensure_next_is_sect_2_or_3_or_4 Parser.ensure_next_is_sect8
    Parser.ensure_next_is_sect_num Reader.Grib2SectionStream-next Reader.next_sect Reader.next_sect8
    Reader.next_sect0 Reader.read_sect_payload Reader.read_body Reader.skip_sect7_payload
    Reader.read_sect6_payload Reader.read_slice_without_offset_check Reader.read_sect_header
    Reader.read_sect8 Reader.read_sect0 Reader.read_sect0_loop Reader.in_block Reader.magic_among
    Reader.from_payload Reader.Indicator-from_slice Cursor-seek Cursor-read_exact Cursor-read says
    be_at
"""


# --- An answer as a statement --------------------------------------------------------------------

def listed(items):
    return "(" + " ∷ ".join([*items, "[]"]) + ")"


def octets(file):
    """A list, with long runs of one octet written short."""
    parts, plain, at = [], [], 0
    while at < len(file):
        run = len(file) - at - len(file[at:].lstrip(file[at:at + 1]))
        if run > 12:
            parts += [listed(plain)] if plain else []
            parts.append(f"replicate {run} {file[at]}")
            plain = []
        else:
            plain += [str(file[at])] * run
        at += run
    return "(" + " ++ ".join([*parts, listed(plain)]) + ")"


def line_of(words):
    name, *places = words.split()
    message, submessage = name.split(".")
    places[2] = "nothing" if places[2] == "-" else f"(some {places[2]})"
    return f"line {message} {submessage} " + " ".join(places)


def dropped(told):
    """Where the crate began, and the number of a section that its order refused."""
    if told.word in MISPLACED:
        return told.began, told.read[told.value][0]
    return (told.began, 0) if told.word in UNREAD else (0, 0)


def end_of(told):
    if told.word in ("Over", "Overflow"):
        return "clean" if told.word == "Over" else "overflow"
    plain = told.word in UNREAD and not UNREAD[told.word][1]
    error = told.word if plain else f"({told.word} {told.value})"
    return "(fails %s (drops %d %d))" % (error, *dropped(told))


def case(file, told):
    sections = listed("info %d %d %d" % row for row in told.passed)
    lines, offsets = (listed(map(line_of, words)) for words in (told.lines, told.offsets))
    return f"asked {octets(file)}\n    {sections}\n    {lines}\n    {offsets} {end_of(told)}"


def statements(cases):
    yield HEAD.format(count=len(cases))
    for start in range(0, len(cases), TOGETHER):
        number = start // TOGETHER
        name = f"answers_{number}"
        part = "\n    ∷ ".join(case(*pair) for pair in cases[start:start + TOGETHER])
        yield f"\n{name} : List Asked\n{name} =\n    {part}\n    ∷ []\n"
        yield f"\ntold_{number} : map (λ (a : Asked). told a.file) {name} ≡ {name}\n"
        yield UNFOLDING.format(name=name) + f"told_{number} = refl\n"


# --- Files ---------------------------------------------------------------------------------------

def made(rng, count):
    """Files of every kind of `compare` that are short enough, in random order."""
    pools = [[*files.short_rows(), *files.cut_and_grown(), *files.stored()],
             list(files.short_strings()), list(files.every_octet()),
             [files.of_length(rng, rng.randrange(140)) for _ in range(count // 4)],
             [file for _, file in zip(range(count), files.random_files(rng))]]
    all_files = [file for pool in pools for file in rng.sample(pool, min(len(pool), count))]
    return [file for file in dict.fromkeys(all_files) if len(file) <= LONGEST]


def answered(oracle, asked):
    return [(file, Told(lines)) for file, lines in zip(asked, oracle.answers(b"W", asked))]


def chosen(oracle, each, seed, count):
    """01's samples and slips, the edges of usize, and so many files of each end."""
    rng = random.Random(seed)
    samples = [file for file, *_ in by_hand() if len(file) <= LONGEST] + EDGES
    by_word = {word: [] for word in WORDS}
    for file, told in answered(oracle, made(rng, count)):
        if file not in samples:
            by_word[told.word].append((file, told))
    picked = {word: rng.sample(pairs, min(each, len(pairs))) for word, pairs in by_word.items()}
    return answered(oracle, samples) + [pair for pairs in picked.values() for pair in pairs]


def raised(words):
    """The last number of a line, one higher."""
    *before, last = words.split()
    return " ".join([*before, str(int(last) + 1)])


def change_section(told):
    number, offset, length = told.passed[-1]
    told.passed[-1] = number, offset + 1, length


def change_line(told):
    told.lines[-1] = raised(told.lines[-1])


def change_offset(told):
    told.offsets[-1] = raised(told.offsets[-1])


def change_error(told):
    told.value += 1


def change_began(told):
    told.began += 1


# A number of an answer that can be changed: in which answers it stands, and how.
WRONG = {"section": (lambda told: told.passed, change_section),
         "line": (lambda told: told.lines, change_line),
         "offset": (lambda told: told.offsets, change_offset),
         "error": (lambda told: told.word == "GRIBVersionMismatch", change_error),
         "began": (lambda told: told.word in UNREAD, change_began)}


def change_one(rng, cases, which):
    """Change one number of one answer, at random among those that have it."""
    has_it, change = WRONG[which]
    change(rng.choice([told for _, told in cases if has_it(told)]))


# --- Deciding ------------------------------------------------------------------------------------

def decided(text):
    """What the prover says of the statements, in a copy where all else is proved already."""
    with tempfile.TemporaryDirectory() as folder:
        copy_crates(Path(folder))
        crate = Path(folder) / "crates" / "as_the_crate"
        (crate / "proofs" / "Answers.antt").write_text(text)
        began = time.monotonic()
        done = subprocess.run(["rt", "check"], cwd=crate, capture_output=True, text=True)
    return done, time.monotonic() - began


def main():
    options = argparse.ArgumentParser(description=__doc__.splitlines()[0])
    options.add_argument("--oracle", type=Path, required=True, help="the folder that `build` made")
    options.add_argument("--write", type=Path, metavar="FILE", help="write the statements there")
    options.add_argument("--decide", action="store_true", help="decide them in a scratch copy")
    options.add_argument("--wrong", choices=WRONG, help="change one such number of one answer")
    options.add_argument("--each", type=int, default=8, metavar="N", help="files of each end")
    options.add_argument("--seed", default="1")
    options.add_argument("--count", type=int, default=20_000,
                         help="files of each kind that are made, to choose from")
    given = options.parse_args()
    cases = chosen(Oracle(given.oracle), given.each, given.seed, given.count)
    for word in WORDS:
        print(f"{word:>24} {sum(told.word == word for _, told in cases):>6,}")
    if given.wrong:
        change_one(random.Random(given.seed), cases, given.wrong)
    text = "".join(statements(cases))
    if given.write:
        given.write.write_text(text)
        print(f"{len(cases):,} files, written")
    if given.decide:
        done, seconds = decided(text)
        if done.returncode:
            print(f"{len(cases):,} files, REFUSED after {seconds:.0f} s")
            sys.exit(done.stdout + done.stderr)
        print(f"{len(cases):,} files, all decided in {seconds:.0f} s")


if __name__ == "__main__":
    main()
