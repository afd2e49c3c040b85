"""`list`: the human view, against lines written by hand, Python's calendar and eccodes."""

import calendar
import datetime
import os
import pty
import random
import re
import shutil
import subprocess
from pathlib import Path

from shared import (ECCODES_SAMPLES, ROOT, SAMPLES, Command, check, check_ended, check_equal,
                    folder, run, skip, write)
from walk_files import END, message, section

WIDEST = 100

# --- Making messages -----------------------------------------------------------------------------


def big(value, octets):
    return value.to_bytes(octets, "big")


def signed(value, octets):
    """By sign and size."""
    return big(abs(value) + (1 << 8 * octets - 1 if value < 0 else 0), octets)


REFERENCE = (2026, 3, 14, 6, 0, 0)
NO_SURFACE = b"\xff" * 6
GROUND = bytes([1, 0, 0, 0, 0, 0])


def surface(kind, factor, value):
    return bytes([kind]) + signed(factor, 1) + signed(value, 4)


def section_1(reference=REFERENCE, significance=1):
    year, *rest = reference
    return section(1, b"\xff\xff\0\0\x1e\0" + bytes([significance]) + big(year, 2) + bytes(rest)
                   + b"\0\1")


def section_3(template=0, points=25, along=5, down=5):
    return section(3, b"\0" + big(points, 4) + b"\0\0" + big(template, 2) + b"\6" + bytes(15)
                   + big(along, 4) + big(down, 4) + bytes(34))


def section_4(template=0, category=0, number=0, unit=1, time=0, surfaces=GROUND + NO_SURFACE,
              rest=b""):
    """Of template 0, and of those that begin as it does."""
    start = bytes([category, number, 2, 255, 255, 0, 0, 0, unit])
    return section(4, bytes(2) + big(template, 2) + start + big(time, 4) + surfaces + rest)


def section_4_of_44(time, unit=1, surfaces=GROUND + NO_SURFACE):
    """An aerosol at a point in time: two octets of time, 32 and 33, and then the surfaces."""
    return section(4, bytes(2) + big(44, 2) + bytes(21) + big(unit, 1) + big(time, 2) + surfaces)


VALUES = section(5) + section(6) + section(7) + END


def one(first=None, grid=None, product=None, discipline=0):
    """A message of one field: the temperature of the ground on a grid of 5 by 5, at the reference
    time."""
    body = (first or section_1()) + (grid or section_3()) + (product or section_4()) + VALUES
    return message(body, discipline=discipline)


def cells(line):
    """Columns stand two blanks apart at least, and no cell has two in it."""
    return re.split(" {2,}", line)


def listed(at, messages):
    """The lines of a file of these messages, without the header line, as cells."""
    done = run("list", write(at / "listed", b"".join(messages)))
    lines = done.stdout.decode("ascii").splitlines()
    wide = [line for line in lines if len(line) > WIDEST or line != line.rstrip()]
    check(f"list of {len(messages)} messages: status 0, a line for each below the header line, "
          f"none over {WIDEST} columns or with blanks behind",
          (done.returncode, done.stderr, len(lines), wide) == (0, b"", len(messages) + 1, []),
          (done.returncode, done.stderr, len(lines), wide[:9]))
    return [cells(line) for line in lines[1:]]


def check_cells(what, at, cases, column):
    """Each case is a message and what one cell of its line has to be."""
    found = [line[column] for line in listed(at, [file for file, _ in cases])]
    wrong = [(one, wanted) for one, (_, wanted) in zip(found, cases) if one != wanted]
    check(f"{what}: {len(cases)}", not wrong and len(found) == len(cases),
          "\n".join(f"found {a!r}, expected {b!r}" for a, b in wrong[:20]))


# --- The samples, by hand ------------------------------------------------------------------------

SEA = """\
field         valid time  parameter                                         level              grid
0.0    2026-03-14 12:00Z  u-component of wind [m s-1]                       10 m above ground  4 x 3
0.1    2026-03-14 12:00Z  v-component of wind [m s-1]                       10 m above ground  4 x 3
1.0    2026-03-14 18:00Z  Significant height of combined wind waves .. [m]  surface            4 x 3
2.0    2026-03-15 00:00Z  Pressure reduced to MSL [Pa]                      mean sea level     4 x 3
"""
CUT = """\
field         valid time  parameter                    level              grid
0.0    2026-03-14 12:00Z  u-component of wind [m s-1]  10 m above ground  4 x 3
0.1    2026-03-14 12:00Z  v-component of wind [m s-1]  10 m above ground  4 x 3
"""
LEAST = """\
field             valid time  parameter               level  grid
0.0    ref 2026-03-14 06:00Z  product template 65535  -      0 points
"""
EMPTY = "field  valid time  parameter  level  grid\n"
CUT_SAYS = b"refused by 2 (cut): "


def samples(at):
    for name, lines in {"sea": SEA, "least": LEAST}.items():
        path = SAMPLES / f"{name}.grib2"
        check_ended(f"list of the sample {name}", run("list", path), 0, b"", lines.encode())
    cut, sea, empty = SAMPLES / "cut.grib2", SAMPLES / "sea.grib2", write(at / "empty", b"")
    check_ended("list of the sample cut: lines before the refusal", run("list", cut), 1, CUT_SAYS,
                CUT.encode())
    check_ended("list of an empty file: the header line alone", run("list", empty), 0,
                b": there is no message: the file is empty\n", EMPTY.encode())
    expected = f"file {cut}\n{CUT}file {empty}\n{EMPTY}file {sea}\n{SEA}"
    check_ended("list of several files: each behind its name, with columns of its own",
                run("list", cut, empty, sea), 1, CUT_SAYS, expected.encode())


def same_of_a_copy(at):
    """No values octet has a part in it."""
    run("copy", SAMPLES / "sea.grib2", at / "copy")
    check_ended("list of a public copy is that of its file", run("list", at / "copy"), 0, b"",
                SEA.encode())


def no_output():
    if not os.path.exists("/dev/full"):
        skip("list to a full device", "there is no /dev/full")
        return
    with open("/dev/full", "wb") as full:
        check_ended("list to a full device", run("list", SAMPLES / "sea.grib2", stdout=full), 2,
                    b"buttresk: standard output: ")


# --- Times ---------------------------------------------------------------------------------------

MINUTE, HOUR, DAY, MONTH, YEAR, DECADE, NORMAL, CENTURY = range(8)
HOURS_3, HOURS_6, HOURS_12, SECOND = range(10, 14)
LAST, MOST = 2 ** 31 - 1, 2 ** 32 - 1

# By hand: reference time, unit, time, the cell.
TIMES = [
    (REFERENCE, HOUR, 0, "2026-03-14 06:00Z"),
    (REFERENCE, MINUTE, 90, "2026-03-14 07:30Z"),
    (REFERENCE, SECOND, 61, "2026-03-14 06:01:01Z"),
    (REFERENCE, HOURS_3, 2, "2026-03-14 12:00Z"),
    (REFERENCE, HOURS_6, 3, "2026-03-15 00:00Z"),
    (REFERENCE, HOURS_12, 3, "2026-03-15 18:00Z"),
    (REFERENCE, DAY, 18, "2026-04-01 06:00Z"),
    (REFERENCE, MONTH, 10, "2027-01-14 06:00Z"),
    (REFERENCE, YEAR, 1, "2027-03-14 06:00Z"),
    (REFERENCE, DECADE, 1, "2036-03-14 06:00Z"),
    (REFERENCE, NORMAL, 1, "2056-03-14 06:00Z"),
    (REFERENCE, CENTURY, 2, "2226-03-14 06:00Z"),
    ((2024, 2, 28, 23, 0, 0), HOUR, 1, "2024-02-29 00:00Z"),
    ((2023, 2, 28, 23, 0, 0), HOUR, 1, "2023-03-01 00:00Z"),
    ((2000, 2, 28, 0, 0, 0), DAY, 1, "2000-02-29 00:00Z"),
    ((1900, 2, 28, 0, 0, 0), DAY, 1, "1900-03-01 00:00Z"),
    ((2100, 2, 28, 0, 0, 0), DAY, 1, "2100-03-01 00:00Z"),
    ((1999, 12, 31, 23, 59, 59), SECOND, 1, "2000-01-01 00:00Z"),
    ((0, 1, 1, 0, 0, 0), DAY, 366, "0001-01-01 00:00Z"),
    ((1970, 1, 1, 0, 0, 0), SECOND, LAST, "2038-01-19 03:14:07Z"),
    ((9999, 12, 31, 18, 0, 0), HOUR, 6, "10000-01-01 00:00Z"),
    ((65534, 12, 31, 12, 0, 0), DAY, 1, "65535-01-01 12:00Z"),
    ((0, 1, 1, 0, 0, 0), YEAR, LAST, "2147483647-01-01 00:00Z"),
    ((65534, 12, 31, 23, 59, 59), CENTURY, LAST, "214748430234-12-31 23:59:59Z"),
    # with the top bit set: minus 6 hours by the Manual
    (REFERENCE, HOUR, LAST + 1 + 6, "ref 2026-03-14 06:00Z +2147483654 unit 1"),
    (REFERENCE, SECOND, LAST + 1, "ref 2026-03-14 06:00Z +2147483648 unit 13"),
    (REFERENCE, SECOND, MOST, "ref 2026-03-14 06:00Z +4294967295 unit 13"),
    # a month that has no such day: no day is made up
    ((2026, 1, 31, 6, 0, 0), MONTH, 1, "ref 2026-01-31 06:00Z +1 unit 3"),
    ((2024, 2, 29, 0, 0, 0), YEAR, 1, "ref 2024-02-29 00:00Z +1 unit 4"),
    ((2024, 2, 29, 0, 0, 0), YEAR, 4, "2028-02-29 00:00Z"),
    ((2000, 2, 29, 0, 0, 0), CENTURY, 1, "ref 2000-02-29 00:00Z +1 unit 7"),
    ((2026, 5, 31, 0, 0, 0), MONTH, 2, "2026-07-31 00:00Z"),
    # units that are none
    (REFERENCE, 200, 7, "ref 2026-03-14 06:00Z +7 unit 200"),
    (REFERENCE, 255, MOST, "ref 2026-03-14 06:00Z +4294967295 unit 255"),
    (REFERENCE, 8, 1, "ref 2026-03-14 06:00Z +1 unit 8"),
    (REFERENCE, 9, 0, "ref 2026-03-14 06:00Z +0 unit 9"),
    (REFERENCE, 14, 1, "ref 2026-03-14 06:00Z +1 unit 14"),
    # references that are none
    ((2026, 13, 1, 0, 0, 0), HOUR, 6, "ref 2026-13-01 00:00:00 +6 unit 1"),
    ((2026, 0, 1, 0, 0, 0), HOUR, 6, "ref 2026-00-01 00:00:00 +6 unit 1"),
    ((2026, 4, 31, 0, 0, 0), HOUR, 0, "ref 2026-04-31 00:00:00 +0 unit 1"),
    ((2026, 4, 0, 0, 0, 0), HOUR, 0, "ref 2026-04-00 00:00:00 +0 unit 1"),
    ((2026, 2, 29, 0, 0, 0), DAY, 1, "ref 2026-02-29 00:00:00 +1 unit 2"),
    ((2026, 3, 14, 24, 0, 0), HOUR, 1, "ref 2026-03-14 24:00:00 +1 unit 1"),
    ((2026, 3, 14, 25, 0, 0), HOUR, 1, "ref 2026-03-14 25:00:00 +1 unit 1"),
    ((2026, 3, 14, 6, 60, 0), HOUR, 1, "ref 2026-03-14 06:60:00 +1 unit 1"),
    ((2026, 3, 14, 6, 0, 60), HOUR, 1, "ref 2026-03-14 06:00:60 +1 unit 1"),
    ((65535, 3, 14, 6, 0, 0), HOUR, 1, "ref 65535-03-14 06:00:00 +1 unit 1"),
    ((65535, 255, 255, 255, 255, 255), 255, MOST,
     "ref 65535-255-255 255:255:255 +4294967295 unit 255"),
]

# By hand from Code table 4.0: templates whose time is the start of an interval, and what stands
# before a parameter's name.
POINTS = {0: "", 1: "", 2: "derived: ", 3: "cluster: ", 4: "cluster: ", 5: "probability: ",
          6: "percentile: ", 7: "error: ", 15: "", 51: "category: ", 60: "", 86: "quantile: ",
          1000: "", 1002: "", 1100: ""}
STARTS = {8: "", 9: "probability: ", 10: "percentile: ", 11: "", 12: "derived: ", 13: "cluster: ",
          14: "cluster: ", 61: "", 87: "quantile: ", 91: "category: ", 1001: "", 1101: ""}
NO_TIMES = (20, 30, 31, 35, 88, 92, 98, 254, 65535)
# By hand: unit and time of template 44, whose two octets have their top bit from 32,768 on.
TIMES_OF_44 = [
    (HOUR, 0, "2026-03-14 06:00Z"),
    (HOUR, 6, "2026-03-14 12:00Z"),
    (DAY, 18, "2026-04-01 06:00Z"),
    (SECOND, 32767, "2026-03-14 15:06:07Z"),
    (MINUTE, 32767, "2026-04-06 00:07Z"),
    (HOUR, 32767, "2029-12-08 13:00Z"),
    (HOUR, 32768, "ref 2026-03-14 06:00Z +32768 unit 1"),
    (SECOND, 65534, "ref 2026-03-14 06:00Z +65534 unit 13"),
    (HOUR, 65535, "ref 2026-03-14 06:00Z +65535 unit 1"),
    (200, 7, "ref 2026-03-14 06:00Z +7 unit 200"),
]


def times(at):
    check_cells("valid times by hand", at,
                [(one(section_1(reference), product=section_4(unit=unit, time=time)), cell)
                 for reference, unit, time, cell in TIMES], 1)


def template_says(at):
    """Six hours after the reference time, by all templates that begin as template 0 does."""
    def by(template):
        return one(product=section_4(template, time=6, rest=bytes(40)))
    check_cells("a point in time", at, [(by(t), "2026-03-14 12:00Z") for t in POINTS], 1)
    check_cells("the start of an interval is marked", at,
                [(by(t), "from 2026-03-14 12:00Z") for t in STARTS], 1)
    check_cells("numbers that are not the parameter's own are marked", at,
                [(by(t), kind + "Temperature [K]") for t, kind in {**POINTS, **STARTS}.items()], 2)
    check_cells("no valid time by a template without a time from the reference time on", at,
                [(by(t), "ref 2026-03-14 06:00Z") for t in NO_TIMES], 1)


def two_octets_of_time(at):
    """Template 44, by the Manual; 32,768 and more are valid times where there are four octets."""
    check_cells("valid times of template 44", at,
                [(one(product=section_4_of_44(time, unit)), cell)
                 for unit, time, cell in TIMES_OF_44], 1)
    check_cells("its level stands behind them", at,
                [(one(product=section_4_of_44(6, surfaces=surface(103, 0, 10) + NO_SURFACE)),
                  "10 m above ground")], 3)
    check_cells("and it has a valid time where the section ends behind them", at,
                [(one(product=section_4_of_44(6, surfaces=b"")), "2026-03-14 12:00Z"),
                 (one(product=section(4, section_4_of_44(6, surfaces=b"")[5:-1])),
                  "ref 2026-03-14 06:00Z")], 1)
    check_cells("four octets of any other template have a valid time of 32,768 and more", at,
                [(one(product=section_4(time=32768)), "2029-12-08 14:00Z"),
                 (one(product=section_4(time=65535)), "2033-09-03 21:00Z")], 1)


def no_time(at):
    reference = "ref 2026-03-14 06:00Z"
    check_cells("no valid time where the section ends before it", at,
                [(one(product=section(4, section_4()[5:end])), reference) for end in (9, 21)], 1)
    told = dict.fromkeys((0, 1, 3), "2026-03-14 12:00Z")
    check_cells("no sum where the reference time is one of verification, or a local one", at,
                [(one(section_1(significance=code), product=section_4(time=6)),
                  told.get(code, reference + " +6 unit 1")) for code in (*range(6), 100, 255)], 1)


SECONDS = {MINUTE: 60, HOUR: 3600, DAY: 86400, HOURS_3: 10800, HOURS_6: 21600, HOURS_12: 43200,
           SECOND: 1}
MONTHS = {MONTH: 1, YEAR: 12, DECADE: 120, NORMAL: 360, CENTURY: 1200}
CYCLE = 146097         # days of 400 years: Python's years end at 9999


def shown_by_python(when, years_on):
    words = f"{when.year + years_on:04d}-{when:%m-%d %H:%M}"
    return words + (f":{when.second:02d}Z" if when.second else "Z")


def later_by_python(reference, unit, time):
    start = datetime.datetime(*reference)
    if unit in SECONDS:
        days, seconds = divmod(time * SECONDS[unit], 86400)
        cycles, days = divmod(days, CYCLE)
        return shown_by_python(start + datetime.timedelta(days, seconds), 400 * cycles)
    years, month = divmod(start.year * 12 + start.month - 1 + time * MONTHS[unit], 12)
    alike = years % 400 + 400           # a year of the same calendar
    if start.day > calendar.monthrange(alike, month + 1)[1]:
        return f"ref {shown_by_python(start, 0)} +{time} unit {unit}"
    return shown_by_python(start.replace(year=alike, month=month + 1), years - alike)


def random_times():
    choose = random.Random(4)
    for _ in range(1500):
        day = datetime.datetime(1, 1, 1) + datetime.timedelta(choose.randrange(3000 * 365),
                                                              choose.randrange(86400))
        unit = choose.choice([*SECONDS, *MONTHS])
        time = choose.randrange(choose.choice([10, 1000, 10 ** 6, LAST + 1]))
        yield tuple(day.timetuple())[:6], unit, time


def times_by_python(at):
    check_cells("valid times as Python's calendar has them", at,
                [(one(section_1(reference), product=section_4(unit=unit, time=time)),
                  later_by_python(reference, unit, time))
                 for reference, unit, time in random_times()], 1)


# --- Levels --------------------------------------------------------------------------------------

LEVELS = [
    (GROUND + NO_SURFACE, "surface"),
    (surface(1, -127, -(2 ** 31 - 1)) + NO_SURFACE, "surface"),
    (surface(1, 0, 3) + NO_SURFACE, "surface, value 3"),
    (surface(103, 0, 10) + NO_SURFACE, "10 m above ground"),
    (surface(103, 0, 2) + NO_SURFACE, "2 m above ground"),
    (surface(103, 1, 15) + NO_SURFACE, "1.5 m above ground"),
    (surface(103, -2, 3) + NO_SURFACE, "300 m above ground"),
    (surface(103, 0, 0) + NO_SURFACE, "0 m above ground"),
    (surface(103, 0, -3) + NO_SURFACE, "-3 m above ground"),
    (surface(103, 3, -5) + NO_SURFACE, "-0.005 m above ground"),
    (surface(103, 2, 1000) + NO_SURFACE, "10 m above ground"),
    (b"\x67" + b"\xff" * 5 + NO_SURFACE, "height above ground"),
    (b"\x67\0" + b"\xff" * 4 + NO_SURFACE, "height above ground"),
    (b"\x67\xff" + bytes(4) + NO_SURFACE, "height above ground"),
    (surface(100, 0, 85000) + NO_SURFACE, "850 hPa"),
    (surface(100, -2, 850) + NO_SURFACE, "850 hPa"),
    (surface(100, 0, 50) + NO_SURFACE, "0.5 hPa"),
    (surface(100, 0, 1) + NO_SURFACE, "0.01 hPa"),
    (surface(100, 1, 1) + NO_SURFACE, "0.001 hPa"),
    (surface(100, -5, 1) + NO_SURFACE, "1000 hPa"),
    (surface(101, 0, 0) + NO_SURFACE, "mean sea level"),
    (surface(102, 0, 305) + NO_SURFACE, "305 m above mean sea level"),
    (surface(104, 4, 9950) + NO_SURFACE, "sigma level 0.995"),
    (surface(105, 0, 137) + NO_SURFACE, "hybrid level 137"),
    (surface(106, 2, 0) + surface(106, 2, 10), "0-0.1 m below ground"),
    (surface(106, 2, 10) + surface(106, 1, 4), "0.1-0.4 m below ground"),
    (surface(107, 0, 315) + NO_SURFACE, "315 K isentropic"),
    (surface(108, 0, 3000) + surface(108, 0, 0), "30-0 hPa above ground"),
    (surface(109, 9, 2000) + NO_SURFACE, "2 PVU"),
    (surface(109, 7, -15) + NO_SURFACE, "-1.5 PVU"),
    (surface(103, 0, -5) + surface(103, 0, 10), "-5 to 10 m above ground"),
    (surface(1, 0, 0) + surface(8, 0, 0), "surface to top of atmosphere"),
    (surface(1, 0, 0) + surface(100, 0, 50000), "surface to 500 hPa"),
    (surface(10, 0, 0) + NO_SURFACE, "entire atmosphere"),
    (surface(7, 0, 0) + NO_SURFACE, "tropopause"),
    (surface(160, 0, 5) + NO_SURFACE, "5 m below sea level"),
    (surface(151, 0, 1) + surface(151, 0, 2), "soil level 1-2"),
    (surface(200, 0, 0) + NO_SURFACE, "surface type 200, value 0"),
    (b"\xc8" + b"\xff" * 5 + NO_SURFACE, "surface type 200"),
    (surface(0, 0, 7) + NO_SURFACE, "surface type 0, value 7"),
    (surface(200, 0, 1) + surface(200, 0, 2), "surface type 200, values 1-2"),
    (NO_SURFACE + NO_SURFACE, "-"),
    (NO_SURFACE + GROUND, "- to surface"),
    # exact, in whatever way
    (surface(103, 9, 1) + NO_SURFACE, "0.000000001 m above ground"),
    (surface(103, 10, 1) + NO_SURFACE, "1e-10 m above ground"),
    (surface(103, -9, 1) + NO_SURFACE, "1000000000 m above ground"),
    (surface(103, -10, 12) + NO_SURFACE, "12e10 m above ground"),
    (surface(103, 127, 2 ** 31 - 2) + NO_SURFACE, "2147483646e-127 m above ground"),
    (surface(103, 100, 0) + NO_SURFACE, "0 m above ground"),
    (surface(103, -126, -(2 ** 31 - 2)) + NO_SURFACE, "-2147483646e126 m above ground"),
    (surface(103, 9, 2 ** 31 - 1) + NO_SURFACE, "2.147483647 m above ground"),
]


def levels(at):
    check_cells("levels by hand", at, [(one(product=section_4(surfaces=surfaces)), words)
                                       for surfaces, words in LEVELS], 3)
    cut = [section(4, section_4()[5:end]) for end in (9, 26, 33)]
    check_cells("no level where the template has none, or the section ends before it", at,
                [(one(product=product), "-") for product in (*cut, section_4(1000))], 3)


# --- Parameters ----------------------------------------------------------------------------------

PARAMETERS = [
    (0, 0, 0, "Temperature [K]"),
    (0, 1, 8, "Total precipitation [kg m-2]"),
    (0, 2, 0, "Wind direction (from which blowing) [degree true]"),
    (0, 3, 5, "Geopotential height [gpm]"),
    (0, 19, 0, "Visibility [m]"),
    (0, 6, 1, "Total cloud cover [%]"),
    (2, 0, 0, "Land cover (0 = sea, 1 = land)"),
    (10, 0, 3, "Significant height of combined wind waves and swell [m]"),
    (10, 1, 2, "u-component of current [m s-1]"),
    (10, 2, 0, "Ice cover"),
    (0, 0, 192, "discipline 0 category 0 number 192"),
    (209, 1, 2, "discipline 209 category 1 number 2"),
    (255, 255, 255, "discipline 255 category 255 number 255"),
    (0, 255, 0, "discipline 0 category 255 number 0"),
]


def parameters(at):
    check_cells("parameters by hand", at,
                [(one(product=section_4(0, category, number), discipline=discipline), words)
                 for discipline, category, number, words in PARAMETERS], 2)


def is_named(cell, name, unit):
    """The name may be cut, the unit may not."""
    unit = "" if unit == "-" else f" [{unit}]"
    start = cell[:len(cell) - len(unit)]
    is_cut = start.endswith("..") and name.startswith(start[:-2]) and len(start) > 20
    return cell.endswith(unit) and (start == name or is_cut)


def table_of_parameters(at):
    """That the table is right tests/checks/tables.py says."""
    text = (ROOT / "tables/parameters.tsv").read_text()
    rows = [line.split("\t") for line in text.splitlines() if not line.startswith("#")]
    keys = [map(int, row[:3]) for row in rows]
    found = listed(at, [one(product=section_4(0, category, number), discipline=discipline)
                        for discipline, category, number in keys])
    wrong = [(row, line) for row, line in zip(rows, found) if not is_named(line[2], *row[3:])]
    check(f"every parameter of the table has its name and unit: {len(rows)}",
          not wrong and len(rows) > 1000, wrong[:9])


def numbers_without_room(at):
    """A parameter without a name keeps its numbers in a line that is full."""
    soil = surface(106, 2, 10) + surface(106, 2, 40)
    member = section_4(11, 1, 192, HOUR, 6, soil, bytes([3, 7, 30]))
    check_cells("the numbers of a parameter that has no name are not cut", at,
                [(one(grid=section_3(0, 259920, 720, 361), product=member), "0.1.192"),
                 (one(product=section_4(10, 1, 192, HOUR, 6, soil)), "percentile: 0.1.192"),
                 (one(product=section_4()), "Temperature [K]")], 2)


# --- Members and grids ---------------------------------------------------------------------------

def members(at):
    """Templates 1 and 11 have the perturbation number in octet 36 of section 4, and the number of
    forecasts in octet 37."""
    def member(template, *octets):
        return one(product=section_4(template, rest=bytes(octets)))
    check_cells("members by hand", at, [
        (member(1, 3, 3, 50), "3 of 50"), (member(11, 1, 0, 51), "0 of 51"),
        (member(1, 3, 254, 254), "254 of 254"), (member(1, 3, 7, 255), "7"),
        (member(1, 3, 12), "12"), (member(1, 3, 0), "0")], 4)
    none = {"missing": member(1, 3, 255, 50), "behind the section's end": member(1, 3),
            "in a template that has none": member(0, 3, 3, 50),
            "in one of an interval that has none": member(8, 3, 3, 50)}
    for what, file in none.items():
        check_equal(f"no member: {what}", [len(line) for line in listed(at, [file])], [5])
    found = [line[4:] for line in listed(at, [member(1, 3, 3, 50), none["missing"]])]
    check_equal("a blank where one field has a member and another has none", found,
                [["3 of 50", "5 x 5"], ["5 x 5"]])


GRIDS = [
    (section_3(), "5 x 5"),
    (section_3(points=1038240, along=1440, down=721), "1440 x 721"),
    (section_3(points=24), "24 points"),
    (section_3(points=25, along=2 ** 32 - 1), "25 points"),
    (section_3(points=2 ** 32 - 1, along=2 ** 32 - 1, down=1), "4294967295 points"),
    (section_3(points=1, along=1, down=2), "1 point"),
    (section_3(101), "25 points"),
    (section_3(65535), "25 points"),
    (section_3(40), "5 x 5"),
    (section_3(30), "5 x 5"),
    (section_3(points=2 ** 32 - 1, along=65535, down=65537), "65535 x 65537"),
    (section(3, section_3()[5:37]), "25 points"),
    (section(3, section_3()[5:38]), "5 x 5"),
    (section(3, section_3()[5:14]), "25 points"),
    # an octet is missing, and the one behind the section would make it fit
    (section(3, section_3(points=1280, down=256)[5:37]), "1280 points"),
    # 65536 x 65537 would be 65536 in 32 bits
    (section_3(points=65536, along=65536, down=65537), "65536 points"),
]


def grids(at):
    check_cells("grids by hand", at, [(one(grid=grid), words) for grid, words in GRIDS], 4)


# --- Width ---------------------------------------------------------------------------------------

LONG = surface(171, 127, -(2 ** 31 - 2)) + surface(169, -126, -(2 ** 31 - 2))


def extremes():
    """Every product template, with all octets alike; then the longest of each column, together."""
    for template in [*range(100), 254, 1000, 1001, 1002, 1100, 1101, 32768, 65535]:
        for octet in (0, 1, 127, 128, 254, 255):
            like = bytes([octet])
            product = section(4, bytes(2) + big(template, 2) + like * 120)
            yield one(section(1, like * 16), section(3, like * 60), product, octet)
    for last in ((255, 255, 255, 255, 255, 255), (12, 31, 23, 59, 59, CENTURY)):
        first = section_1((65534, *last[:5]))
        member = section_4(1, 254, 254, last[5], MOST, LONG, bytes([0, 254, 254]))
        yield one(first, section_3(101, MOST), member, 254)
        yield one(first, section_3(101, MOST), section_4(9, 20, 70, last[5], MOST, LONG))


def width(at):
    files = list(extremes())
    few = [line for line in listed(at, files) if len(line) < 5]
    check("extremes: a line of five cells at least for each", not few, few[:5])
    alone = listed(at, files[-4:-3])[0]
    check_equal("the longest of each column: what has no room is seen to be cut, the rest is whole",
                [cell.endswith("..") for cell in alone], [False, True, False, True, False, False])
    odd = one(section_1((65535, 255, 255, 255, 255, 255)), product=section_4(unit=255, time=MOST))
    found = listed(at, [odd] + [one(product=section_4(0, 2, 2))] * 3)
    check_equal("a line with long numbers takes no room from the others", found[1],
                ["1.0", "2026-03-14 06:00Z", "u-component of wind [m s-1]", "surface", "5 x 5"])


# --- Colour --------------------------------------------------------------------------------------

ESCAPE = re.compile(rb"\x1b\[[0-9;]*m")


def on_a_terminal(*arguments, **environment):
    """What a terminal is sent, with line ends as they were printed."""
    ours, theirs = pty.openpty()
    variables = {key: value for key, value in os.environ.items() if key not in ("NO_COLOR", "TERM")}
    process = subprocess.Popen(Command.words(*arguments), stdin=subprocess.DEVNULL, stdout=theirs,
                               stderr=subprocess.PIPE, env={**variables, **environment})
    os.close(theirs)
    sent = b""
    try:
        while octets := os.read(ours, 65536):
            sent += octets
    except OSError:         # the other end is closed
        pass
    os.close(ours)
    process.communicate(timeout=60)
    return sent.replace(b"\r\n", b"\n")


PLAIN = {"NO_COLOR is set": {"TERM": "xterm", "NO_COLOR": "1"}, "TERM is dumb": {"TERM": "dumb"},
         "there is no TERM": {}}


def colour():
    sea = SAMPLES / "sea.grib2"
    shown = on_a_terminal("list", sea, TERM="xterm")
    check("colour on a terminal", len(ESCAPE.findall(shown)) > 10, shown)
    check_equal("and the same characters beside it", ESCAPE.sub(b"", shown), SEA.encode())
    check("and each line ends without it", all(line.count(b"\x1b[m") * 2 == line.count(b"\x1b[")
                                               for line in shown.splitlines()), shown)
    for what, variables in PLAIN.items():
        check_equal(f"no colour on a terminal where {what}",
                    on_a_terminal("list", sea, **variables), SEA.encode())
    check_equal("an empty NO_COLOR says nothing",
                on_a_terminal("list", sea, TERM="xterm", NO_COLOR=""), shown)
    done = run("list", sea, env={**os.environ, "TERM": "xterm"})
    check_ended("no colour in a pipe", done, 0, b"", SEA.encode())


# --- eccodes -------------------------------------------------------------------------------------

NOT_INSTALLED = "eccodes is not installed (packages libeccodes-tools and libeccodes-data)"


def has_eccodes():
    return ECCODES_SAMPLES.is_dir() and all(map(shutil.which, ("grib_get", "grib_set")))


def said_by_eccodes(paths, *keys):
    """For each file, of one message, these keys by name."""
    done = subprocess.run(["grib_get", "-f", "-p", ",".join(keys), *map(str, paths)], check=True,
                          capture_output=True, text=True)
    return [dict(zip(keys, line.split())) for line in done.stdout.splitlines()]


def lines_of(paths):
    """For each of several files, of one message, its line as cells: a line of its name and the
    header line stand before it."""
    done = run("list", *paths)
    return [cells(line) for line in done.stdout.decode("ascii").splitlines()[2::3]]


def set_by_eccodes(path, **keys):
    words = ",".join(f"{key}={value}" for key, value in keys.items())
    subprocess.run(["grib_set", "-s", words, str(ECCODES_SAMPLES / "GRIB2.tmpl"), str(path)],
                   check=True, capture_output=True)
    return path


def check_pairs(what, pairs):
    wrong = [pair for pair in pairs if pair[0] != pair[1]]
    check(f"{what}: {len(pairs)}", len(pairs) > 10 and not wrong, wrong)


def valid_time_of(said):
    date, time = said["validityDate"], said["validityTime"].zfill(4)
    return f"{date[:-4]}-{date[-4:-2]}-{date[-2:]} {time[:2]}:{time[2:]}Z"


def grid_of(said):
    """Grids of a projection have Nx and Ny; one whose rows differ in length has no Ni."""
    along = said["Nx"] if said["Nx"].isdigit() else said["Ni"]
    down = said["Ny"] if said["Ny"].isdigit() else said["Nj"]
    both = along.isdigit() and down.isdigit()
    return f"{along} x {down}" if both else f"{said['numberOfDataPoints']} points"


def eccodes_samples():
    paths = [path for path in sorted(ECCODES_SAMPLES.glob("*.tmpl"))
             if path.read_bytes()[:8:7] == b"G\2"]
    said = said_by_eccodes(paths, "validityDate", "validityTime", "stepType", "Ni", "Nj", "Nx",
                           "Ny", "numberOfDataPoints")
    lines = lines_of(paths)
    check_pairs("valid times of samples as eccodes has them",
                [(line[1], valid_time_of(by)) for line, by in zip(lines, said)
                 if by["stepType"] == "instant"])
    pairs = [(line[-1], grid_of(by)) for line, by in zip(lines, said)]
    check_pairs("grids of samples as eccodes has them", pairs)
    check_equal("some of them by rows and columns, some by points",
                {" x " in words for _, words in pairs}, {True, False})


# All that eccodes can write and that have a perturbation number.
MEMBERS = (1, 11, 33, 34, 41, 43, 45, 47, 49, 54, 56, 58, 59, 60, 61, 68, 71, 73, 77, 79, 81, 83,
           84, 85, 92, 94, 96, 98)


def eccodes_members(at):
    paths = [set_by_eccodes(at / f"member {template}", productDefinitionTemplateNumber=template,
                            perturbationNumber=template % 50, numberOfForecastsInEnsemble=51)
             for template in MEMBERS]
    said = said_by_eccodes(paths, "perturbationNumber", "numberOfForecastsInEnsemble")
    check_pairs("members as eccodes has them", [(line[4], " of ".join(by.values()))
                                                for line, by in zip(lines_of(paths), said)])
    check_equal("which has those that were set", [by["perturbationNumber"] for by in said],
                [str(template % 50) for template in MEMBERS])


# Template, unit and time.
STEPS = [(1, 0, 5), (1, 1, 240), (1, 2, 40), (1, 11, 9), (1, 13, 7200), (40, 1, 30), (48, 1, 30),
         (70, 10, 3), (76, 1, 36), (55, 1, 12), (60, 12, 5), (86, 1, 48), (1000, 1, 18), (32, 1, 6),
         (44, 1, 30), (44, 2, 400), (45, 1, 30)]


def eccodes_times(at):
    paths = [set_by_eccodes(at / f"step {template} {unit}",
                            productDefinitionTemplateNumber=template,
                            indicatorOfUnitOfTimeRange=unit, forecastTime=time, dataDate=20240228,
                            dataTime=1800) for template, unit, time in STEPS]
    said = said_by_eccodes(paths, "validityDate", "validityTime")
    check_pairs("valid times of messages that eccodes wrote",
                [(line[1], valid_time_of(by)) for line, by in zip(lines_of(paths), said)])


def eccodes(at):
    if not has_eccodes():
        skip("list of eccodes' messages", NOT_INSTALLED)
        return
    eccodes_samples()
    eccodes_members(at)
    eccodes_times(at)


def tables_check():
    """The tables' form anywhere, and their facts where eccodes is installed."""
    done = subprocess.run([str(ROOT / "tests/checks/tables.py")], capture_output=True, text=True)
    check("tests/checks/tables.py finds no difference", done.returncode == 0,
          done.stdout + done.stderr)
    if "skipped" in done.stdout:
        skip("the facts of the tables", NOT_INSTALLED)


def everything():
    with folder() as name:
        at = Path(name)
        samples(at)
        same_of_a_copy(at)
        no_output()
        times(at)
        template_says(at)
        two_octets_of_time(at)
        no_time(at)
        times_by_python(at)
        levels(at)
        parameters(at)
        table_of_parameters(at)
        numbers_without_room(at)
        members(at)
        grids(at)
        width(at)
        eccodes(at)
    colour()
    tables_check()
