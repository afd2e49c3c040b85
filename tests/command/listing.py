"""`inventory` and `read-list`: what they print, against answers written by hand, by
`inventory_by_02.py`, and by eccodes."""

import json
import shutil
import subprocess
from pathlib import Path

import inventory_by_02
import inventory_files
import walk_files
from aerosols import READ, READ_COLUMNS, with_product
from shared import (ECCODES_SAMPLES, SAMPLES, check, check_ended, check_equal, folder, run, skip,
                    tells, write)

# --- Written by hand -----------------------------------------------------------------------------

SEA = b"0:0:0:0:2:2:1:6:103\n0:1:0:0:2:3:1:6:103\n1:0:269:10:0:3:1:12:1\n2:0:473:0:3:1:1:0:101\n"
LEAST = b"0:0:0:0:none:none:none:none:none\n"
CUT = (b": refused by 2 (cut): 1 to 4 octets are left for a header, 1 to 3 for a section 8, "
       b"or the payload of a section 1 to 6 is cut; "
       b"place 16, offset 390, detail 17 (17 octets are missing)\n")
COLUMNS = "submessage offset discipline category number time_unit time first_type".split()
HEAD = "\t".join(COLUMNS).encode() + b"\n"
ENTRIES = (b"0.0\t0\t0\t2\t2\t1\t6\t103\n0.1\t0\t0\t2\t3\t1\t6\t103\n"
           b"1.0\t269\t10\t0\t3\t1\t12\t1\n2.0\t473\t0\t3\t1\t1\t0\t101\n")
NONES = b"0.0\t0\t0\tnone\tnone\tnone\tnone\tnone\n"


def sample(name):
    return SAMPLES / f"{name}.grib2"


def samples_by_hand():
    check_ended("inventory of the sample sea", run("inventory", sample("sea")), 0, b"", SEA)
    check_ended("inventory of the sample least", run("inventory", sample("least")), 0, b"", LEAST)
    check_ended("a refused file has no line", run("inventory", sample("cut")), 1, CUT, b"")
    expected = (f"file {sample('sea')}\n".encode() + SEA
                + f"file {sample('least')}\n".encode() + LEAST)
    check_ended("several files: each clean one behind its name",
                run("inventory", sample("sea"), sample("cut"), sample("least")), 1, CUT, expected)


def reads_by_the_manual(at):
    """Time unit, time and first surface's type, the last three fields, by the hand's answers."""
    file = b"".join(with_product(payload) for _, payload, *_ in READ)
    done = run("inventory", write(at / "readings", file))
    found = [line.split(":")[6:] for line in done.stdout.decode().splitlines()]
    expected = [["none" if value is None else str(value)
                 for column, value in zip(READ_COLUMNS, by_manual) if column != "process"]
                for _, _, by_manual, *_ in READ]
    check_equal("inventory reads product templates by the Manual", found, expected)


def end_of(path, octets, entries, outcome=0, name="done", detail=0):
    """The object at a list's end, but for the meaning in words."""
    return [("kind", "end"), ("file", str(path)), ("outcome", outcome), ("name", name),
            ("place", 0), ("offset", 0), ("detail", detail),
            ("octets", octets), ("entries", entries)]


def objects_of(done):
    found = [json.loads(line, object_pairs_hook=list) for line in done.stdout.splitlines()]
    return [[(key, value) for key, value in pairs if key != "means"] for pairs in found]


def lists_by_hand(at):
    sea, least = write(at / "sea.list", SEA), write(at / "least.list", LEAST)
    check_ended("the list of sea", run("read-list", sea), 0, b"", HEAD + ENTRIES)
    check_ended("the list of least", run("read-list", least), 0, b"", HEAD + NONES)
    check_ended("an empty list: the header alone", run("read-list", write(at / "empty", b"")),
                0, b"", HEAD)
    check_equal("and its end alone in JSON",
                objects_of(run("read-list", "--json", at / "empty")), [end_of(at / "empty", 0, 0)])
    both = b"file\t" + HEAD + b"".join(
        b"".join(f"{name}\t".encode() + line for line in lines.splitlines(keepends=True))
        for name, lines in ((sea, ENTRIES), (least, NONES)))
    check_ended("several lists: one table, each line with its list's name",
                run("read-list", sea, least), 0, b"", both)
    objects = objects_of(run("read-list", "--json", sea, least))
    check_equal("in JSON each entry has its list's name",
                [dict(o)["file"] for o in objects], [str(sea)] * 5 + [str(least)] * 2)
    check_equal("and its numbers, null for none", objects[5],
                [("kind", "entry"), ("file", str(least)), ("message", 0), ("submessage", 0),
                 ("offset", 0), ("discipline", 0)] + [(key, None) for key in COLUMNS[3:]])
    check_equal("and each list has its end", [objects[4], objects[6]],
                [end_of(sea, len(SEA), 4), end_of(least, len(LEAST), 1)])
    told = b"refused by 21 (line not in form): "
    bad = write(at / "bad", SEA.replace(b"1:12:1", b"01:12:1"))
    done = run("read-list", bad)
    check_ended("a line not in form: status 1, the entries before it", done,
                1, told, HEAD + ENTRIES.split(b"1.0\t269")[0])
    check_equal("in JSON the end says which", objects_of(run("read-list", "--json", bad))[2:],
                [end_of(bad, len(SEA) + 1, 2, 21, "line not in form", 3)])
    check("and the line's number", b"detail 3 (the line's number, from 1)\n" in done.stderr,
          done.stderr)
    check_ended("an unclosed last line is refused", run("read-list", write(at / "open", SEA[:-1])),
                1, b"detail 4 (the line's")
    check_ended("a GRIB file is no list", run("read-list", sample("sea")),
                1, b"detail 1 (the line's", HEAD)


# --- By document 02's reader ---------------------------------------------------------------------

def inventories_by_02(at):
    files = ([file for file, *_ in walk_files.by_hand()]
             + [file for file, _ in inventory_files.swept_inventories()][::7])
    wrong = []
    for file in files:
        path = write(at / "file", file)
        said, done = inventory_by_02.inventory(file, 1 << 40), run("inventory", path)
        if ((done.stdout, done.returncode) != (said.octets, 1 if said.outcome else 0)
                or not tells(done.stderr, said)):
            wrong.append((file[:100], done, said))
    check(f"inventories of {len(files)} files are as document 02 has them", not wrong, wrong[:2])


def row_of(entry):
    return "\t".join([f"{entry[0]}.{entry[1]}"]
                     + ["none" if field is None else str(field) for field in entry[2:]])


def lists_by_02(at):
    texts = list(dict.fromkeys([text for text, *_ in inventory_files.lists_by_hand()]
                               + [text for text, _ in inventory_files.swept_lists()][::9]))
    wrong = []
    for text in texts:
        outcome, detail, entries = inventory_by_02.read_list(text, 1 << 40)
        done = run("read-list", write(at / "list", text))
        rows = HEAD + "".join(row_of(entry) + "\n" for entry in entries).encode()
        if ((done.stdout, done.returncode) != (rows, 1 if outcome else 0)
                or (outcome and b"detail %d " % detail not in done.stderr)):
            wrong.append((text[:100], done.stdout[-300:], done.stderr, outcome, detail))
    check(f"{len(texts)} lists are read as document 02 has them", not wrong, wrong[:2])


def there_and_back(at):
    """Text and table grow until they hold 40,000 submessages."""
    body = walk_files.least(1, 3) + b"".join(
        inventory_files.product(k % 200, k % 100, 1, k, 103) + walk_files.least(5, 6, 7)
        for k in range(40000))
    file = write(at / "many.grib2", b"xy" + walk_files.message(body + walk_files.END))
    lines = b"".join(b"0:%d:2:0:%d:%d:1:%d:103\n" % (k, k % 200, k % 100, k) for k in range(40000))
    check_ended("an inventory of 40,000 lines", run("inventory", file), 0, b"", lines)
    done = run("read-list", "--json", write(at / "many.list", lines))
    objects = [json.loads(line) for line in done.stdout.splitlines()]
    back = [(o["message"], o["submessage"], o["offset"], o["discipline"], o["category"],
             o["number"], o["time_unit"], o["time"], o["first_type"]) for o in objects[:-1]]
    check("and they read back",
          done.returncode == 0
          and back == [(0, k, 2, 0, k % 200, k % 100, 1, k, 103) for k in range(40000)])


# --- By eccodes ----------------------------------------------------------------------------------

KEYS = ["discipline", "parameterCategory", "parameterNumber", "indicatorOfUnitOfTimeRange",
        "forecastTime", "typeOfFirstFixedSurface"]


def by_eccodes():
    if shutil.which("grib_get") is None or not ECCODES_SAMPLES.is_dir():
        skip("inventories by eccodes", "it is not installed")
        return
    wrong, count = [], 0
    for path in sorted(ECCODES_SAMPLES.glob("*.tmpl")):
        if path.read_bytes()[:8] != b"GRIB" + path.read_bytes()[4:7] + b"\2":
            continue
        count += 1
        said = subprocess.run(["grib_get", "-p", ",".join(key + ":i" for key in KEYS), path],
                              capture_output=True, text=True)
        line = ":".join(["0", "0", "0", *said.stdout.split()]) + "\n"
        done = run("inventory", path)
        if done.stdout.decode() != line or done.returncode != 0:
            wrong.append((path.name, done.stdout, line))
    check(f"inventories of {count} samples of eccodes are as grib_get has them",
          count > 0 and not wrong, wrong[:3])


def everything():
    samples_by_hand()
    with folder() as name:
        at = Path(name)
        reads_by_the_manual(at)
        lists_by_hand(at)
        inventories_by_02(at)
        lists_by_02(at)
        there_and_back(at)
    by_eccodes()
