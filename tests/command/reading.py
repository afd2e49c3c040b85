"""`index` and `fields`: what they print, against answers written by hand, by `reference.py` and
`replay_lists`, and by eccodes."""

import json
import os
import resource
import shutil
import signal
import subprocess
import sys
import time
from pathlib import Path

import copy_files
import reference
import replay_lists
import walk_files
from aerosols import READ, READ_COLUMNS, with_product
from fields_by_01 import fields_by_01
from fields_by_02 import fields_by_manual
from shared import (ECCODES_SAMPLES, SAMPLES, check, check_ended, check_equal, finish, folder,
                    missing, outside_of, outside_words, run, skip, start, tells, write)
from walk_files import A, END, message, section

sys.path.append(str(SAMPLES))

# --- Written by hand -----------------------------------------------------------------------------

COLUMNS = ("submessage offset length discipline centre subcentre reference product_template "
           "category number process time_unit time "
           "first_type first_factor first_value second_type second_factor second_value "
           "grid_template points representation_template bitmap").split()
HEAD = "\t".join(COLUMNS)

SEA_INDEX = """\
sections 29 submessages 4 messages 3
0.0 0 1 - 2 3 4 5 6 open 0 269
0.1 0 1 - 2 7 8 9 10 11 0 269
1.0 12 13 14 15 16 17 18 19 20 269 204
2.0 21 22 - 23 24 25 26 27 28 473 191
end 0 0 0 0
"""
SEA_FIELDS = [
    "0.0 0 269 0 65535 0 2026-03-14T06:00:00Z 0 2 2 2 1 6 "
    "103 0 10 255 -127 -2147483647 0 12 0 255",
    "0.1 0 269 0 65535 0 2026-03-14T06:00:00Z 0 2 3 2 1 6 "
    "103 0 10 255 -127 -2147483647 0 12 0 255",
    "1.0 269 204 10 65535 0 2026-03-14T06:00:00Z 0 0 3 2 1 12 "
    "1 0 0 255 -127 -2147483647 0 12 0 0",
    "2.0 473 191 0 65535 0 2026-03-15T00:00:00Z 0 3 1 2 1 0 "
    "101 0 0 255 -127 -2147483647 0 12 0 255",
]
LEAST_INDEX = "sections 8 submessages 1 messages 1\n0.0 0 1 - 2 3 4 5 6 7 0 86\nend 0 0 0 0\n"
LEAST_FIELDS = [
    "0.0 0 86 0 65535 0 2026-03-14T06:00:00Z 65535" + 11 * " none" + " 65535 0 65535 255",
]
# The columns whose code for "missing", all ones, is printed so in a table. Offset, length and bit
# map indicator have none: 255 says there that no bit map applies.
ALL_ONES = {"reference": "65535-255-255T255:255:255Z", "centre": "65535", "subcentre": "65535",
            "time": "4294967295", "points": "4294967295",
            **dict.fromkeys(["product_template", "grid_template", "representation_template"],
                            "65535"),
            **dict.fromkeys("discipline category number process time_unit first_type "
                            "second_type".split(), "255"),
            **dict.fromkeys(["first_factor", "second_factor"], "-127"),
            **dict.fromkeys(["first_value", "second_value"], "-2147483647")}
CUT_INDEX = """\
sections 16 submessages 2 messages 1
0.0 0 1 - 2 3 4 5 6 open 0 269
0.1 0 1 - 2 7 8 9 10 11 0 269
end 2 16 390 17
"""
CUT_MEANS = ("1 to 4 octets are left for a header, 1 to 3 for a section 8, "
             "or the payload of a section 1 to 6 is cut")


def cut_refusal(name, place, offset, detail):
    """The line that tells a refusal 2."""
    return (f"buttresk: {name}: refused by 2 (cut): {CUT_MEANS}; "
            f"place {place}, offset {offset}, detail {detail} ({missing(detail)})\n").encode()


def re_request(name, octet):
    """The line behind it."""
    return (f"buttresk: {name}: a re-request has to start at octet {octet}, counted from 0, "
            "where the file ends\n").encode()


# Section 4 of the second message starts at 390 and states 34 octets; the file has 407.
CUT_SAMPLE = SAMPLES / "cut.grib2"
CUT_REFUSAL = cut_refusal(CUT_SAMPLE, 16, 390, 17)
CUT_RE_REQUEST = re_request(CUT_SAMPLE, 407)
BY_HAND = [("sea", SEA_INDEX, SEA_FIELDS, 0),
           ("least", LEAST_INDEX, LEAST_FIELDS, 0),
           ("cut", CUT_INDEX, SEA_FIELDS[:2], 1)]


def missing_columns(words, reading):
    """Of a row of raw values the columns that are all ones. By the Manual template 44's time has
    two octets, any other four."""
    row = dict(zip(COLUMNS, words))
    two_octets = reading == "by-manual" and row["product_template"] == "44"
    all_ones = {**ALL_ONES, "time": "65535"} if two_octets else ALL_ONES
    return [column for column in COLUMNS if all_ones.get(column) == row[column]]


def cells(line, reading):
    """A row of raw values as the table has it: `missing` for all ones."""
    all_ones = missing_columns(line.split(), reading)
    return ["missing" if column in all_ones else word
            for column, word in zip(COLUMNS, line.split())]


def table(lines, path=None, reading="by-manual"):
    """The table of one file; of several the lines alone, behind the file's name."""
    rows = ["\t".join(([str(path)] if path else []) + cells(line, reading)) for line in lines]
    return "".join(line + "\n" for line in ([] if path else [HEAD]) + rows)


def check_said(what, done, status, errors, output):
    """As check_ended, but these are all of the errors."""
    told = (f"status {done.returncode}\nerrors {done.stderr}\noutput {done.stdout}\n"
            f"wanted {status}\nerrors {errors}\noutput {output}")
    check(what, (done.returncode, done.stderr, done.stdout) == (status, errors, output), told)


def samples_by_hand():
    for name, index, lines, status in BY_HAND:
        path = SAMPLES / f"{name}.grib2"
        refusal, rest = (CUT_REFUSAL, CUT_RE_REQUEST) if status else (b"", b"")
        check_said(f"index of the sample {name}", run("index", path),
                   status, refusal + rest, index.encode())
        check_said(f"fields of the sample {name}", run("fields", path),
                   status, refusal + rest, table(lines).encode())


def samples_are_as_made():
    done = subprocess.run([SAMPLES / "make.py", "--check"], capture_output=True, text=True)
    check("samples/make.py makes the samples octet by octet", done.returncode == 0,
          done.stdout + done.stderr)


def several_samples():
    paths = [SAMPLES / f"{name}.grib2" for name, *_ in BY_HAND]
    index = "".join(f"file {path}\n{index}" for path, (_, index, _, _) in zip(paths, BY_HAND))
    lines = f"file\t{HEAD}\n" + "".join(table(lines, path)
                                        for path, (_, _, lines, _) in zip(paths, BY_HAND))
    errors = CUT_REFUSAL + CUT_RE_REQUEST
    check_said("index of several files: each behind its name", run("index", *paths),
               1, errors, index.encode())
    check_said("fields of several files: one table, each line with its file's name",
               run("fields", *paths), 1, errors, lines.encode())
    check_said("and of one file by a list of names: the same form",
               run("fields", "--files0-from", "-", input=bytes(paths[0])), 0, b"",
               f"file\t{HEAD}\n{table(SEA_FIELDS, paths[0])}".encode())


# --- By the reference reader ---------------------------------------------------------------------

def index_of(file):
    return replay_lists.gribwalk_answer(reference.walk(file)) + "\n"


def section_of(file, done, line, number):
    """What the fields of a section are decoded from: section 0 whole, of others the payload."""
    row = done.rows[line.places[number]]
    return file[row.offset + (0 if number == 0 else 5):row.offset + row.length]


# What JSON calls the readings, the options that ask for them, and who reads so.
READINGS = {"by-manual": ([], fields_by_manual),
            "as-crate": (["--as-crate"], fields_by_01)}


def fields_of_line(file, done, line, read):
    """A row of the table as values, None for none, in the order of COLUMNS."""
    found = {number: read(number, section_of(file, done, line, number))
             for number in (0, 1, 3, 4, 5, 6)}
    discipline, total = found[0]
    centre, subcentre, _, _, _, *time = found[1][:11]
    reference_time = "%04d-%02d-%02dT%02d:%02d:%02dZ" % tuple(time)
    return [f"{line.message}.{line.submessage}", done.rows[line.places[0]].offset, total,
            discipline, centre, subcentre, reference_time,
            *found[4][1:], found[3][1], found[3][0], found[5][1], found[6][0]]


def fields_of(file, reading):
    done, (_, read) = reference.walk(file), READINGS[reading]
    return [fields_of_line(file, done, line, read) for line in done.lines]


def as_table(rows, path=None, reading="by-manual"):
    return table([" ".join("none" if value is None else str(value) for value in row)
                  for row in rows], path, reading)


def as_objects(name, rows, reading):
    """What --json prints of submessages, as pairs: the order of keys counts. The raw numbers stand
    beside the names of those that are all ones."""
    for row in rows:
        number, own = row[0].split(".")
        yield [("kind", "submessage"), ("file", name), ("reading", reading),
               ("message", int(number)), ("submessage", int(own)),
               *zip(COLUMNS[1:], row[1:]),
               ("missing", missing_columns([str(value) for value in row], reading))]


OUTCOMES = {0: "done", 2: "cut", 3: "other edition", 4: "total under 16", 5: "no end mark",
            6: "length under 5", 7: "unknown number", 8: "payload under least",
            9: "longer than the rest", 10: "input over", 11: "misplaced", 12: "no grid"}


def end_object(name, file, reading=None):
    """The object at a file's end, but for the meaning in words; `fields` alone has a reading."""
    done = reference.walk(file)
    return [("kind", "end"), ("file", name), *([("reading", reading)] if reading else []),
            ("outcome", done.outcome), ("name", OUTCOMES[done.outcome]),
            ("place", done.place), ("offset", done.offset), ("detail", done.detail),
            ("octets", len(file)), ("sections", len(done.rows)),
            ("submessages", len(done.lines)), ("messages", done.messages),
            ("outside", outside_of(file))]


def index_objects(name, file):
    """What index --json prints: every section, every submessage with its places, the end."""
    done = reference.walk(file)
    for place, row in enumerate(done.rows):
        yield [("kind", "section"), ("file", name), ("place", place), ("number", row.number),
               ("offset", row.offset), ("length", row.length)]
    for line in done.lines:
        zero = done.rows[line.places[0]].offset
        words = reference.line_words(line).split()
        yield [("kind", "submessage"), ("file", name),
               ("message", line.message), ("submessage", line.submessage), ("offset", zero),
               ("length", int.from_bytes(file[zero + 8:zero + 16], "big")),
               ("closed", words[9] != "open"),
               ("places", [None if word in ("-", "open") else int(word) for word in words[1:10]])]
    yield end_object(name, file)


def objects_of(output):
    """The objects as pairs, without the meaning of an outcome, which has to be there."""
    found = [json.loads(line, object_pairs_hook=list) for line in output.splitlines()]
    ends = [pairs for pairs in found if dict(pairs)["kind"] == "end"]
    assert all(len(dict(pairs)["means"]) > 5
               for pairs in ends if dict(pairs)["outcome"] is not None)
    return [[(key, value) for key, value in pairs if key != "means"] for pairs in found]


def product_files():
    """A message for each kind of product template, with a whole section 4 and with ones that end in
    the middle of it: at 25 octets of a template, 44 has a time by the Manual and none as the crate,
    and at 15 octets 47 a generating process as the crate and none by the Manual."""
    ends = {end for runs in (replay_lists.SUPPORTED, replay_lists.PROCESS,
                             replay_lists.TIME, replay_lists.SURFACES)
            for first, last, *_ in runs for end in (first - 1, first, last, last + 1)}
    for template in sorted(ends & set(range(65536))) + [65535]:
        for size in (60, 25, 15, 1):
            four = bytes(2) + template.to_bytes(2, "big") + copy_files.loaded(size, template % 7)
            five, six = section(5, copy_files.loaded(11, 3)), section(6, copy_files.loaded(4, 9))
            yield message(copy_files.full(1) + copy_files.full(3) + section(4, four)
                          + five + six + section(7) + END, discipline=200)


def extreme_files():
    """Fields at both ends of what they can hold: the time is not checked,
    and no number is special."""
    for octet in (b"\0", b"\xff", b"\x80", b"\x7f"):
        four = bytes(4) + octet * 30
        yield message(section(1, octet * 16) + section(3, octet * 9) + section(4, four)
                      + section(5, octet * 6) + section(6, octet) + section(7, octet * 3) + END,
                      discipline=octet[0])


def as_the_reference(what, files, at):
    """All files in one run each of index, fields and fields --json, by both readings."""
    paths = [write(at / f"{what}-{i}", file) for i, file in enumerate(files)]
    index_as_the_reference(what, files, paths)
    for reading in READINGS:
        fields_as_the_reference(what, files, paths, reading)


def index_as_the_reference(what, files, paths):
    head = "file {}\n" if len(paths) > 1 else ""
    status = max(1 if reference.walk(file).outcome else 0 for file in files)
    done = run("index", *paths)
    expected = "".join(head.format(path) + index_of(file) for path, file in zip(paths, files))
    check(f"index of {len(files)} files as reference.py says: {what}",
          (done.returncode, done.stdout) == (status, expected.encode()),
          first_difference(done.stdout.decode(), expected))
    check(f"and standard error, with where a re-request starts behind each refusal 2: {what}",
          told_of(done.stderr, paths, files), done.stderr[:1500])
    check_objects(f"index --json of {len(files)} files: {what}",
                  run("index", "--json", *paths), status,
                  [one for path, file in zip(paths, files)
                   for one in index_objects(str(path), file)])


def fields_as_the_reference(what, files, paths, reading):
    options, _ = READINGS[reading]
    status = max(1 if reference.walk(file).outcome else 0 for file in files)
    tables = {path: fields_of(file, reading) for path, file in zip(paths, files)}
    done = run("fields", *options, *paths)
    expected = f"file\t{HEAD}\n" if len(paths) > 1 else ""
    expected += "".join(as_table(rows, path if len(paths) > 1 else None, reading)
                        for path, rows in tables.items())
    check(f"fields of {len(files)} files as the documents' reader says, {reading}: {what}",
          (done.returncode, done.stdout) == (status, expected.encode()),
          first_difference(done.stdout.decode(), expected))
    check(f"and standard error, as of index: {what}",
          told_of(done.stderr, paths, files), done.stderr[:1500])
    check_objects(f"fields --json of {len(files)} files, {reading}: {what}",
                  run("fields", "--json", *options, *paths), status,
                  [one for path, file in zip(paths, files)
                   for one in [*as_objects(str(path), tables[path], reading),
                               end_object(str(path), file, reading)]])


def check_objects(what, done, status, expected):
    objects = objects_of(done.stdout)
    check(what, (done.returncode, objects) == (status, expected),
          first_difference("\n".join(map(str, objects)), "\n".join(map(str, expected))))


def told_of(errors, paths, files):
    """Whether these are all of the lines: of each file the refusal, behind one by 2 where the file
    ends, and octets outside messages."""
    lines = iter(errors.splitlines(keepends=True))
    for path, file in zip(paths, files):
        answer = reference.walk(file)
        if answer.outcome and not tells(next(lines, b""), answer):
            return False
        if answer.outcome == 2 and next(lines, b"") != re_request(path, len(file)):
            return False
        outside = outside_words(path, file)
        if outside and next(lines, b"") != outside:
            return False
    return next(lines, None) is None


def first_difference(found, expected):
    pairs = list(zip(found.splitlines() + ["(end)"], expected.splitlines() + ["(end)"]))
    for number, (one, other) in enumerate(pairs, 1):
        if one != other:
            return f"line {number}\nfound    {one}\nexpected {other}"
    return "the status alone differs"


def lines_say_their_message(at):
    """The ninth position, offset and total length, by hand; then as the reference has them."""
    for what, (file, rows, lines, messages, end) in walk_files.CARRIED.items():
        head = f"sections {rows} submessages {len(lines)} messages {messages}"
        index = "\n".join([head, *lines, f"end {end}", ""]).encode()
        done = run("index", write(at / "carried", file))
        check_equal(f"a slip that index does not make: {what}", (done.returncode, done.stdout),
                    (0 if end == walk_files.CLEAN else 1, index))
    files = [file for file, *_ in walk_files.CARRIED.values()]
    as_the_reference("what a line says of its message", files, at)


def refusals_are_told(at):
    """Of each kind of refusal in the answers written by hand, one: standard error has its numbers
    and its words."""
    words = {2: "cut", 3: "other edition", 4: "total under 16", 5: "no end mark",
             6: "length under 5", 7: "unknown number", 8: "payload under least",
             9: "longer than the rest", 10: "input over", 11: "misplaced", 12: "no grid"}
    cases = {int(end.split()[0]): (file, end) for file, *_, end in walk_files.by_hand()}
    for outcome, word in words.items():
        file, end = cases[outcome]
        _, place, offset, detail = end.split()
        done = run("index", write(at / "refused", file))
        said = f"refused: refused by {outcome} ({word}): "
        numbers = f"; place {place}, offset {offset}, detail {detail}"
        first, _, more = done.stderr.partition(b"\n")
        check(f"refusal {outcome} is told in words and numbers, in one line",
              done.returncode == 1 and said.encode() in first and numbers.encode() in first
              and more.count(b"\n") == (outcome == 2) + bool(outside_words("", file)), done)


# --- The two readings of product templates -------------------------------------------------------

def readings_by_hand(at):
    path = write(at / "readings", b"".join(with_product(payload) for _, payload, *_ in READ))
    for number, (reading, (options, _)) in enumerate(READINGS.items()):
        table_of = run("fields", *options, path).stdout.decode().splitlines()
        rows = [dict(zip(COLUMNS, line.split("\t"))) for line in table_of[1:]]
        objects = list(map(dict, objects_of(run("fields", "--json", *options, path).stdout)))
        check_equal(f"{reading}: a line and an object for each, and the end", len(objects),
                    len(rows) + 1)
        for (what, _, *answers), row, said in zip(READ, rows, objects):
            values, all_ones = answers[2 * number:2 * number + 2]
            words = ["missing" if column in all_ones else "none" if value is None else str(value)
                     for column, value in zip(READ_COLUMNS, values)]
            check_equal(f"fields of template {what}, {reading}",
                        [row[column] for column in READ_COLUMNS], words)
            check_equal("and in JSON, with the reading and what is all ones",
                        ([said[column] for column in READ_COLUMNS], said.get("reading"),
                         [column for column in said["missing"] if column in READ_COLUMNS]),
                        (values, reading, all_ones))


# --- Cut files -----------------------------------------------------------------------------------

# By hand from document 02: what is cut, the file, place, offset and detail. The sections of A start
# at 0, 16, 37, 51, 60, 71, 77 and 82, and it ends at 86.
BARE_6 = bytes([0, 0, 0, 5, 6])
CUTS = [("a header of which 1 octet is there", A[:38], 2, 37, 4),
        ("a header of which 3 are", A[:40], 2, 37, 2),
        ("a header of which 4 are", A[:81], 6, 77, 1),
        ("a payload right behind its header", A[:42], 2, 37, 9),
        ("a payload in the middle", A[:45], 2, 37, 6),
        ("a payload before its last octet", A[:50], 2, 37, 1),
        ("a section 8 of which 1 octet is there", A[:83], 7, 82, 3),
        ("a section 8 of which 2 are", A[:84], 7, 82, 2),
        ("a section 8 of which 3 are", A[:85], 7, 82, 1),
        ("a section 6 of length 5", A[:71] + BARE_6, 5, 71, 1),
        ("a section 8 of a second message", A + A[:84], 15, 168, 2),
        ("a header behind other octets", b"xyz" + A[:40], 2, 40, 2),
        ("a section 1 of length 2^32 less 1", A[:16] + b"\xff\xff\xff\xff\1", 1, 16, 4294967290)]

# No octets are told to be missing: 10 where the file ends between two sections or in a section 7's
# payload, other refusals, clean files.
NOT_CUT = [("before section 8", A[:82], b"refused by 10 (input over): "),
           ("before section 7", A[:77], b"refused by 10 (input over): "),
           ("in a section 7's payload", walk_files.LONG_7[:84], b"refused by 10 (input over): "),
           ("in a section 6 of length 5 with an octet behind", A[:71] + BARE_6 + b"\0",
            b"refused by 8 (payload under least): "),
           ("no end mark", A[:82] + b"7778", b"refused by 5 (no end mark): "),
           ("a second message's section 0, which is none", A + A[:15], b""),
           ("clean", A, b""),
           ("empty", b"", b"")]

def cut_files_are_told(at):
    for what, file, place, offset, detail in CUTS:
        path = write(at / "cut", file)
        refusal = cut_refusal(path, place, offset, detail)
        walked = refusal + re_request(path, len(file)) + outside_words(path, file)
        for words in (("index", path), ("fields", path), ("fields", "--json", path)):
            check_equal(f"cut: {what}: {words[0]}{' --json' * ('--json' in words)} says how many "
                        "octets are missing, and where the rest starts",
                        (run(*words).stderr), walked)
        for words in (("inventory", path), ("copy", path, at / "dest")):
            done = run(*words)
            check_equal(f"and {words[0]} how many", (done.returncode, done.stderr), (1, refusal))


def cut_files_at_once(at):
    """Each line has its own file's name and length."""
    paths = [write(at / f"cut {number}", file) for number, (_, file, *_) in enumerate(CUTS)]
    lines = [cut_refusal(path, *numbers) + re_request(path, len(file)) + outside_words(path, file)
             for path, (_, file, *numbers) in zip(paths, CUTS)]
    clean = write(at / "clean", A)
    check_equal("cut files at once, with clean ones between: each with its own lines",
                run("index", *(name for path in paths for name in (path, clean))).stderr,
                b"".join(lines))


def other_files_have_no_rest(at):
    for what, file, refusal in NOT_CUT:
        done = run("index", write(at / "not cut", file))
        lines = (1 if refusal else 0) + (1 if outside_words("", file) else 0)
        check(f"not cut: {what}: no octets are missing, and no re-request",
              refusal in done.stderr and b"re-request" not in done.stderr
              and b"missing" not in done.stderr and done.stderr.count(b"\n") == lines, done)


# --- eccodes -------------------------------------------------------------------------------------

def eccodes_files():
    """The samples that are messages of edition 2."""
    return [path for path in sorted(ECCODES_SAMPLES.glob("*.tmpl"))
            if path.read_bytes()[:8:7] == b"G\2"]


def said_by_eccodes(paths):
    """For each file, of one message, the values of all keys by name, as document 01 reads the same
    octets. One call: each costs time."""
    keys = [key for number in (0, 1, 3, 4, 5, 6) for key in replay_lists.KEYS[number]]
    done = subprocess.run(["grib_get", "-f", "-p", ",".join(key + ":i" for key in keys),
                           *map(str, paths)], check=True, capture_output=True, text=True)
    for line in done.stdout.splitlines():
        yield {key: replay_lists.value_by_01(key, word) for key, word in zip(keys, line.split())}


def row_by_eccodes(said):
    time = "%04d-%02d-%02dT%02d:%02d:%02dZ" % tuple(
        said[key] for key in ("year", "month", "day", "hour", "minute", "second"))
    product = [said[key] for key in replay_lists.KEYS[4][1:]]
    return ["0.0", 0, said["totalLength"], said["discipline"], said["centre"], said["subCentre"],
            time, *product, said["gridDefinitionTemplateNumber"], said["numberOfDataPoints"],
            said["dataRepresentationTemplateNumber"], said["bitMapIndicator"]]


def eccodes():
    if not ECCODES_SAMPLES.is_dir() or shutil.which("grib_get") is None:
        skip("eccodes' samples",
             "eccodes is not installed (packages libeccodes-tools and libeccodes-data)")
        return
    paths = eccodes_files()
    done = run("fields", *paths)
    expected = f"file\t{HEAD}\n" + "".join(
        as_table([row_by_eccodes(said)], path) for path, said in zip(paths, said_by_eccodes(paths)))
    check(f"fields of {len(paths)} samples of eccodes as grib_get says",
          len(paths) > 20 and done.stdout == expected.encode() and done.returncode == 0,
          first_difference(done.stdout.decode(), expected))
    done = run("index", *paths)
    expected = "".join(f"file {path}\n{index_of(path.read_bytes())}" for path in paths)
    check(f"index of {len(paths)} samples of eccodes as reference.py says",
          (done.returncode, done.stdout) == (0, expected.encode()),
          first_difference(done.stdout.decode(), expected))


def eccodes_aerosols(at):
    """Of template 44 eccodes writes a time of two octets; of 47 the generating process is where the
    Manual has it."""
    if not ECCODES_SAMPLES.is_dir() or shutil.which("grib_set") is None:
        skip("aerosols that eccodes wrote",
             "eccodes is not installed (packages libeccodes-tools and libeccodes-data)")
        return
    paths = [at / f"aerosol {template} {time}" for template in (44, 45, 46, 47)
             for time in (6, 32767)]
    for path in paths:
        _, template, time = path.name.split()
        keys = (f"productDefinitionTemplateNumber={template},forecastTime={time},"
                "typeOfGeneratingProcess=4,aerosolType=62000")
        subprocess.run(["grib_set", "-s", keys, ECCODES_SAMPLES / "GRIB2.tmpl", path], check=True)
    expected = f"file\t{HEAD}\n" + "".join(
        as_table([row_by_eccodes(said)], path) for path, said in zip(paths, said_by_eccodes(paths)))
    done = run("fields", *paths)
    check(f"fields of {len(paths)} aerosols that eccodes wrote as grib_get says",
          (done.returncode, done.stdout) == (0, expected.encode()),
          first_difference(done.stdout.decode(), expected))
    times = [line.split("\t")[COLUMNS.index("time") + 1] for line in expected.splitlines()[1:]]
    check_equal("which has the times that were set", times, ["6", "32767"] * 4)


def values_of_the_sample():
    """That sea.grib2 is what its script means it to be: eccodes decodes its values."""
    if shutil.which("grib_get_data") is None:
        skip("the values of the sample sea", "eccodes is not installed (package libeccodes-tools)")
        return
    import make
    done = subprocess.run(["grib_get_data", SAMPLES / "sea.grib2"], capture_output=True, text=True)
    found = [round(float(line.split()[2]), 6) for line in done.stdout.splitlines()
             if not line.startswith("Lat")]
    check_equal("the values of the sample sea, decoded by eccodes, are those that are meant", found,
                [value for values in make.VALUES_MEANT for value in values if value is not None])


def other_edition():
    old = ECCODES_SAMPLES / "GRIB1.tmpl"
    if not old.exists():
        skip("a sample of edition 1", "eccodes is not installed (package libeccodes-data)")
        return
    check_ended("a message of edition 1 is refused by 3", run("index", old), 1,
                b"refused by 3 (other edition): the edition is not 2; "
                b"place 0, offset 0, detail 1 (the edition)",
                b"sections 0 submessages 0 messages 0\nend 3 0 0 1\n")


# --- Octets outside messages ---------------------------------------------------------------------

# By hand: what it is, the file, and what is said of it.
OUTSIDE = [
    ("an HTML page", b"<html>404</html>\n",
     "there is no message: 17 octets stand outside messages"),
    ("a compressed file", b"\x1f\x8b\x08\0\0\0\0\0\0\3",
     "there is no message: 10 octets stand outside messages"),
    ("an empty file", b"",
     "there is no message: the file is empty"),
    ("a message cut in its first 15 octets", A[:15],
     "there is no message: 15 octets stand outside messages"),
    ("one octet behind a message", A + b"\n",
     "1 octet stands outside messages"),
    ("octets before, between and behind", b"ab" + A + b"c" + A + b"def",
     "6 octets stand outside messages"),
    ("a second message cut in its first 15 octets", A + A[:15],
     "15 octets stand outside messages"),
]
# Of these something else is wrong too, or nothing is.
INSIDE = [("a clean file", A, 0, b""),
          ("two messages end to end", A + A, 0, b""),
          ("a cut file behind other octets", b"ab" + A[:84], 1,
           b": 2 octets stand outside messages, before the refusal\n"),
          ("another edition behind other octets", b"ab" + A[:7] + b"\1" + A[8:], 1,
           b": 2 octets stand outside messages, before the refusal\n"),
          ("a file without message that is refused", A[:40], 1, b"where the file ends\n")]


def octets_outside_are_told(at):
    for what, file, words in OUTSIDE:
        path = write(at / "outside", file)
        line = f"buttresk: {path}: {words}\n".encode()
        for verb in ("index", "fields", "list"):
            for options, status in ((), 0), (["--strict"], 1):
                done = run(verb, *options, path)
                check_equal(f"{what}: {verb} {' '.join(options)} tells it, and ends in {status}",
                            (done.returncode, done.stderr), (status, line))
    for what, file, status, words in INSIDE:
        for verb in ("index", "fields", "list"):
            done = run(verb, "--strict", write(at / "inside", file))
            check(f"{what}: {verb} --strict ends in {status}",
                  done.returncode == status and done.stderr.endswith(words)
                  and (words or not done.stderr), done)
    done = run("index", "--strict", write(at / "page", b"<html>"), at / "no such file")
    check("with --strict an error of the system is still 2", done.returncode == 2, done)


# --- Standard input, lists of names, several at once ---------------------------------------------

def standard_input(at):
    sea = (SAMPLES / "sea.grib2").read_bytes()
    for how, options in (("a pipe", {"input": sea}),
                         ("a file", {"stdin": open(SAMPLES / "sea.grib2", "rb")})):
        check_ended(f"index of standard input that is {how}", run("index", "-", **options),
                    0, b"", SEA_INDEX.encode())
    behind = open(write(at / "behind", b"GRIB" + sea), "rb", buffering=0)
    behind.read(4)
    check_ended("of a file that was read from, the rest of it", run("index", "-", stdin=behind),
                0, b"", SEA_INDEX.encode())
    done = run("fields", "--json", "-", input=sea)
    check_equal("in JSON its name is -",
                {dict(pairs)["file"] for pairs in objects_of(done.stdout)}, {"-"})
    check_ended("a refused one is told by -", run("index", "-", input=sea[:407]), 1,
                b"buttresk: -: refused by 2 (cut): ", CUT_INDEX.encode())
    check_ended("a file that is called -", run("index", "./-", cwd=write(at / "-", sea).parent),
                0, b"", SEA_INDEX.encode())
    check_ended("standard input twice is wrong usage", run("index", "-", "-", input=sea), 2,
                b"buttresk: standard input is asked for twice by index\n", b"")
    check_ended("a list of names from it, and a file from it, too",
                run("index", "--files0-from", "-", input=b"-\0"), 2,
                b"buttresk: standard input is asked for twice by index\n", b"")


def lists_of_names(at):
    names = [write(at / name, A) for name in ("a b", "c\nd", "-e")]
    listed = b"".join(bytes(name) + b"\0" for name in names)
    expected = run("index", *names).stdout
    path = write(at / "names", listed)
    for what, words, options in (
            ("a file", ("--files0-from", path), {}),
            ("= a file", (f"--files0-from={path}",), {}),
            ("standard input", ("--files0-from", "-"), {"input": listed}),
            ("without its last 0", ("--files0-from", write(at / "cut names", listed[:-1])), {})):
        check_ended(f"names from {what}", run("index", *words, **options), 0, b"", expected)
    check_ended("a list without a name: nothing to do",
                run("index", "--files0-from", write(at / "none", b"")), 0, b"", b"")
    check_ended("an empty name in a list",
                run("index", "--files0-from", write(at / "bad", b"x\0\0y\0")), 2,
                b": has an empty name in it\n", b"")
    check_ended("a list that is not there", run("index", "--files0-from", at / "nowhere"), 2,
                b": No such file or directory\n", b"")
    check_ended("a list and names", run("index", "--files0-from", path, names[0]), 2,
                b"buttresk: --files0-from has all the names, for index\n", b"")


def several_at_once(at):
    files = [file for file, *_ in walk_files.by_hand()][:20]
    paths = [write(at / f"many-{number:02d}", file) for number, file in enumerate(files)]
    paths.insert(7, at / "not there")
    for words in (("index",), ("fields",), ("fields", "--json"), ("fields", "--json", "--as-crate"),
                  ("index", "--json", "--strict"), ("inventory",), ("list",)):
        one = run(*words, *paths)
        for jobs in (["-j", "2"], ["-j5"], ["--jobs", "64"], ["--jobs=3"]):
            found = run(*words, *jobs, *paths)
            check(f"{' '.join(words)} {' '.join(jobs)}: as one after another",
                  (found.returncode, found.stdout, found.stderr)
                  == (one.returncode, one.stdout, one.stderr), found)
    for jobs in ("0", "1025", "x", "-1", "", "99999999999999999999"):
        done = run("index", "-j", jobs, paths[0])
        check(f"-j {jobs!r} is wrong usage",
              done.returncode == 2 and done.stderr.startswith(b"buttresk: -j wants a number"), done)


def few_descriptors(at):
    """Where there are few descriptors fewer work at once, and no file is lost."""
    paths = [write(at / f"file {number}", A) for number in range(20)]
    few = {"preexec_fn": lambda: resource.setrlimit(resource.RLIMIT_NOFILE, (28, 28))}
    one, found = run("index", *paths), run("index", "-j", "16", *paths, **few)
    check("-j 16 with 28 descriptors: as one after another",
          (found.returncode, found.stdout, found.stderr) == (0, one.stdout, b""), found)


def words_that_are_lost(at):
    """What can't be kept of a file is not printed: in JSON its end alone, with the reason."""
    paths = [write(at / f"kept {number}", A * 40) for number in range(3)]
    small = {"preexec_fn": lambda: resource.setrlimit(resource.RLIMIT_FSIZE, (2048, 2048))}
    reason = "what was found could not be kept: the disk of the file for it is full or fails"
    done = run("index", "--json", "-j", "2", *paths, **small)
    check_equal("files for what is printed that can't be written: each end says so",
                (done.returncode, [json.loads(line) for line in done.stdout.splitlines()]),
                (2, [{"kind": "end", "file": str(path), "outcome": None, "error": reason}
                     for path in paths]))
    check_equal("and standard error", done.stderr,
                b"".join(f"buttresk: {path}: {reason}\n".encode() for path in paths))


def children_of(process):
    done = subprocess.run(["pgrep", "-P", str(process.pid)], capture_output=True, text=True)
    return [int(word) for word in done.stdout.split()]


def killed_child(at):
    """Of a file whose process was killed nothing is printed but its end; the others are whole."""
    if shutil.which("pgrep") is None:
        skip("a process of -j that is killed", "pgrep is missing (package procps)")
        return
    # So long that its process works for a second at least; a part of that is waited for.
    long, short = write(at / "long", A * 300_000), write(at / "short", A)
    process = start("fields", "--json", "-j", "2", long, short)
    while process.poll() is None and not children_of(process):
        time.sleep(0.005)
    time.sleep(0.3)
    os.kill(children_of(process)[0], signal.SIGKILL)
    done = finish(process)
    ends = [json.loads(line) for line in done.stdout.splitlines()]
    check("a process of -j that is killed: its file has its end alone, with the reason",
          done.returncode == 2 and [end["kind"] for end in ends] == ["end", "submessage", "end"]
          and ends[0]["error"] == "the process that worked on it was ended by a signal"
          and ends[1]["file"] == str(short)
          and all(end.get("reading") == "by-manual" for end in ends), done)


def everything():
    samples_are_as_made()
    samples_by_hand()
    several_samples()
    with folder() as name:
        at = Path(name)
        as_the_reference("one file", [walk_files.EVERY_START], at)
        as_the_reference("answers by hand", [file for file, *_ in walk_files.by_hand()], at)
        lines_say_their_message(at)
        as_the_reference("swept", walk_files.swept()[::2], at)
        as_the_reference("products", list(product_files()), at)
        as_the_reference("extremes", list(extreme_files()), at)
        readings_by_hand(at)
        refusals_are_told(at)
        cut_files_are_told(at)
        cut_files_at_once(at)
        other_files_have_no_rest(at)
        octets_outside_are_told(at)
        standard_input(at)
        lists_of_names(at)
        several_at_once(at)
        few_descriptors(at)
        words_that_are_lost(at)
        killed_child(at)
        eccodes_aerosols(at)
    values_of_the_sample()
    eccodes()
    other_edition()
