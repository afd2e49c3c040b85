#!/usr/bin/env -S python3 -B
"""Writes docs/TEMPLATES.md: where each supported template has its fields, in the Manual's octets.

    tests/checks/templates.py --check
    tests/checks/templates.py --write
    tests/checks/templates.py

The octets are those of the code's table, `ROWS` in crates/products/src/templates.rt, with what
`by_manual` there has otherwise, and the templates those that `supported` names there. A mark `*`
stands where docs/DIFFERENCES.md has an entry on templates under "From the Manual". A mark `+`
stands where the readings differ: there its next heading has to have an entry, and nowhere else.
--check fails, and says what differs, if the page is not what would be written; each of the three
fails if the table, a correction or such an entry is not in form.

Without an option the page is then laid beside eccodes, which writes a message of each template that
it knows: `grib_dump -O` tells the octets of its fields. Where the page has a mark `*`, and of what
it has as the crate, they have to be others, everywhere else the same. Where eccodes is not
installed a line says so, and the status is 0.
"""

import argparse
import re
import subprocess
import sys
import tempfile
from collections import namedtuple
from pathlib import Path

from contracts import differing, laid_out
from edits import ROOT
from tables import definitions, keys_of_template, written

PAGE = ROOT / "docs/TEMPLATES.md"
CODE = ROOT / "crates/products/src/templates.rt"
DIFFERENCES = ROOT / "docs/DIFFERENCES.md"
SECTION = "From the Manual"
AS_CRATE_ALONE = "From the Manual, as the crate alone"

# Document 02, Ticket 4.
ROWS = 1_102
# The Manual's number of a template's first octet, which has index 0.
FIRST_OCTET = 10
# Code table 4.0 is read in this version of the master tables.
VERSION = 30

# Of a template: three indices, None for none, and how many octets its time has.
Row = namedtuple("Row", "process time surfaces width")

# A column of the page: its name, the index that it hangs on, how many octets it stands behind that,
# and how many it has, None for as many as the row says; and the names of its fields in eccodes.
Column = namedtuple("Column", "name of behind octets keys")
COLUMNS = (
    Column("generating process", "process", 0, 1, "typeOfGeneratingProcess"),
    Column("unit of time", "time", 0, 1, "indicatorOfUnit(OfTimeRange|ForForecastTime)"),
    Column("time", "time", 1, None, "forecastTime"),
    Column("first surface", "surfaces", 0, 6, "(type|scaleFactor|scaledValue)OfFirstFixedSurface"),
    Column("second surface", "surfaces", 6, 6,
           "(type|scaleFactor|scaledValue)OfSecondFixedSurface"),
)
NAMES = [column.name for column in COLUMNS]

OPENING = f"""\
# Templates

Where the library finds the generating process, the time and the surfaces of a product when it reads
by the Manual: a row for each supported template of section 4, to be checked against the WMO Manual
on Codes. Row 44 is the Manual's template 4.44. The other reading, as the crate, has other octets
where a `+` stands. `tests/checks/templates.py` writes this page from the table in
`crates/products/src/templates.rt` and from what `by_manual` there has otherwise; the quick checks
fail if the page is another.

- A number is an **octet** of section 4, counted as the Manual counts them; `19-22` are the octets
  19 to 22. The code's table has indices, which count from a template's first octet, and that is
  octet {FIRST_OCTET}: index + {FIRST_OCTET} is the octet.
- The type of **generating process** (Code table 4.3) and the **unit of time** (Code table 4.4) are
  an octet each. The **time** is the four octets behind its unit, and of template 44 two.
- A **surface** is six octets: its type (Code table 4.5), its scale factor, and four of scaled
  value. The second stands behind the first.
- `-` is no index: the library answers "none", whatever the octets hold.
- `*` is a mark: there the Manual says otherwise. `+` is another: as the crate it is other octets.
  Both are listed below the table.

Template 4.88 has a time for each forecast that its octet 28 counts. The octets of row 88 are those
of the first one, and are read even where none is counted. Rows 62 and 63 are document 01's alone:
eccodes 2.28.0, by which all others were compared with the Manual, does not know these templates.
"""

MARKS = f"""\
Here both readings answer as document 01 and the crate do; what the Manual has stands behind the
colon. Each is an entry of docs/DIFFERENCES.md, "{SECTION}", with the smallest input that
shows it.
"""

CRATE = laid_out(
    "Here the two readings differ: by the Manual the library answers as the Manual has it, and as "
    "the crate by the octets behind the colon. Each is an entry of docs/DIFFERENCES.md, "
    f'"{AS_CRATE_ALONE}".') + "\n"


def link(word, section):
    anchor = section.lower().replace(",", "").replace(" ", "-")
    return f"[{word}]: DIFFERENCES.md#{anchor}\n"


# --- The code's table and the marks --------------------------------------------------------------

TABLE = re.compile(r"^pub const ROWS: \[u32; \d+\] = \[\n(.*?)^\];", re.M | re.S)
INDEX = r"(\d\d|NO)"
ROW = re.compile(
    rf"    (?:NONE|{INDEX} \* PROCESS \+ {INDEX} \* TIME \+ {INDEX} \* SURFACES), // (\d+)")
SUPPORTED = re.compile(r"fn supported\(.*?match template \{\n(.*?)^        _ => false,$",
                       re.M | re.S)
ARM = re.compile(r"        (\d+)(?:\.\.=(\d+))? => true,")
CORRECTED = re.compile(r"fn by_manual\(.*?match template \{\n(.*?)^        _ => as_crate,$",
                       re.M | re.S)
CORRECTION = re.compile(r"        (\d+) => Offsets \{\n"
                        r"            (?:width: TimeOctets::(Two)|process: Some\((\d+)\)),\n"
                        r"            \.\.as_crate\n        \},\n")
ENTRY = re.compile(r"^- \*\*(templates? [^*]*)\*\*.*\n((?:  .*\n)*)", re.M)
NUMBERS = r"4\.\d+(?: to 4\.\d+)?"
HEADING = re.compile(rf"templates? ({NUMBERS}(?:, {NUMBERS})*)(?:, (.*))?")
MANUAL = re.compile(r"^  - the Manual: (.*\n(?:    .*\n)*)", re.M)

# What docs/DIFFERENCES.md says of templates: its heading, what the Manual has, and the cells of the
# page, each a template and the name of a column.
Entry = namedtuple("Entry", "heading manual cells")


def lines_of(pattern, code):
    """The lines that the pattern finds in the code."""
    found = pattern.search(code)
    if not found:
        raise ValueError(f"{CODE.name}: nothing is found by {pattern.pattern}")
    return found[1].splitlines()


def row_in_form(number, line):
    """A row of the table: as the crate a time has four octets."""
    found = ROW.fullmatch(line)
    if not found:
        raise ValueError(f"{CODE.name}: row {number} is not in form: {line.strip()}")
    if found[4] != str(number):
        raise ValueError(f"{CODE.name}: row {number} has the number {found[4]} behind it")
    return Row(*(None if word in (None, "NO") else int(word) for word in found.groups()[:3]), 4)


def table(code):
    lines = lines_of(TABLE, code)
    if len(lines) != ROWS:
        raise ValueError(f"{CODE.name}: the table has {len(lines)} rows, not {ROWS}")
    return [row_in_form(number, line) for number, line in enumerate(lines)]


def by_manual(code, rows):
    """The rows, with what the Manual has otherwise."""
    arms = "".join(line + "\n" for line in lines_of(CORRECTED, code))
    if CORRECTION.sub("", arms):
        raise ValueError(f"{CODE.name}: not in form: {CORRECTION.sub('', arms).strip()}")
    rows = list(rows)
    for template, two, index in CORRECTION.findall(arms):
        said = {"width": 2} if two else {"process": int(index)}
        rows[int(template)] = rows[int(template)]._replace(**said)
    return rows


def supported(code):
    """The numbers that `supported` answers yes for, in rising order."""
    numbers = set()
    for line in lines_of(SUPPORTED, code):
        found = ARM.fullmatch(line)
        if not found:
            raise ValueError(f"{CODE.name}: not in form: {line.strip()}")
        numbers |= set(range(int(found[1]), int(found[2] or found[1]) + 1))
    return sorted(numbers)


def templates_named(words):
    """Of "4.53, 4.92 to 4.98" the numbers behind the dots."""
    for run in words.split(", "):
        ends = [int(number) for number in re.findall(r"4\.(\d+)", run)]
        yield from range(ends[0], ends[-1] + 1)


def entries_on_templates(section):
    text = DIFFERENCES.read_text().partition(f"\n## {section}\n")[2].partition("\n## ")[0]
    for heading, below in ENTRY.findall(text):
        found, said = HEADING.fullmatch(heading), MANUAL.search(below)
        columns = found[2].split(" and ") if found and found[2] else NAMES
        if not found or not said or not set(columns) <= set(NAMES):
            raise ValueError(f"{DIFFERENCES.name}: not in form: {heading}")
        manual = " ".join(said[1].split()).partition("; here")[0]
        cells = {(number, name) for number in templates_named(found[1]) for name in columns}
        yield Entry(heading, manual, cells)


def marked_cells(section, entries, numbers):
    """The cells of all entries; each has to be on the page, and in one entry alone."""
    cells = set()
    for entry in entries:
        if entry.cells & cells or not {number for number, _ in entry.cells} <= set(numbers):
            raise ValueError(f"{DIFFERENCES.name}: said twice, or not supported: {entry.heading}")
        cells |= entry.cells
    if not cells:
        raise ValueError(f"{DIFFERENCES.name}: no entry on templates under \"{section}\"")
    return cells


# --- The page ------------------------------------------------------------------------------------

def cell(row, column):
    """A column's octets as the Manual has them."""
    index, octets = getattr(row, column.of), column.octets or row.width
    if index is None:
        return "-"
    first = index + column.behind + FIRST_OCTET
    return str(first) if octets == 1 else f"{first}-{first + octets - 1}"


def mark(marks, number, column):
    """A blank where there is no mark, so that octets are below each other."""
    return "".join(sign for sign, cells in marks.items() if (number, column.name) in cells) or " "


def table_of_octets(rows, numbers, marks):
    lines = [["template", *NAMES]]
    lines += [[str(number)] + [cell(rows[number], column) + mark(marks, number, column)
                               for column in COLUMNS] for number in numbers]
    widths = [max(map(len, words)) for words in zip(*lines)]
    head, *body = ["| " + " | ".join(map(str.rjust, line, widths)) + " |" for line in lines]
    rule = "|" + "".join("-" * (width + 1) + ":|" for width in widths)
    return "\n".join([head, rule, *body]) + "\n"


def runs(numbers):
    """Of rising numbers "16 to 19, 89, 90"."""
    found = []
    for number in numbers:
        if found and found[-1][-1] == number - 1:
            found[-1].append(number)
        else:
            found.append([number])
    return ", ".join(f"{run[0]} to {run[-1]}" if len(run) > 2 else ", ".join(map(str, run))
                     for run in found)


def other_rows(rows, numbers):
    unused = [number for number, row in enumerate(rows)
              if number not in numbers and row[:3] != (None,) * 3]
    return laid_out(f"Of the {ROWS:,} rows of the code's table {len(unused)} more have an index, "
                    "though their number is not supported, and the reader never uses them: "
                    f"{runs(unused)}.") + "\n"


def marks_of_entries(entries):
    return "".join(laid_out(f"[{entry.heading}][entry]: {entry.manual}", "- ", "  ") + "\n"
                   for entry in sorted(entries, key=lambda entry: min(entry.cells)))


def otherwise_as_crate(crate, manual):
    """The cells in which the readings differ, and the crate's octets of each."""
    return {(number, column.name): cell(row, column) for number, row in enumerate(crate)
            for column in COLUMNS if cell(row, column) != cell(manual[number], column)}


def marks_of_crate(octets):
    return "".join(f"- [template 4.{number}, {name}][other]: {words}\n"
                   for (number, name), words in sorted(octets.items()))


def page_by_code():
    """The page, and how many templates it has."""
    code = CODE.read_text()
    crate, numbers = table(code), supported(code)
    manual = by_manual(code, crate)
    in_both, alone = (list(entries_on_templates(part)) for part in (SECTION, AS_CRATE_ALONE))
    marks = {"*": marked_cells(SECTION, in_both, numbers),
             "+": marked_cells(AS_CRATE_ALONE, alone, numbers)}
    octets = otherwise_as_crate(crate, manual)
    if set(octets) != marks["+"] or marks["*"] & marks["+"]:
        raise ValueError(f"{DIFFERENCES.name}: \"{AS_CRATE_ALONE}\" has to have what differs "
                         f"between the readings, and nothing else: {sorted(octets)}")
    parts = [OPENING, f"## The {len(numbers)} supported templates\n",
             table_of_octets(manual, numbers, marks), other_rows(crate, numbers),
             "## The marks\n", MARKS, marks_of_entries(in_both), CRATE, marks_of_crate(octets),
             link("entry", SECTION) + link("other", AS_CRATE_ALONE)]
    return "\n".join(parts), len(numbers)


# --- eccodes -------------------------------------------------------------------------------------

def octets_in(words):
    """Of "12", "19-22" or "-" the list of octets."""
    ends = [int(number) for number in re.findall(r"\d+", words)]
    return list(range(ends[0], ends[-1] + 1)) if ends else []


def rows_of_page():
    """Of each template the words of its cells, as the page has them."""
    for line in PAGE.read_text().splitlines():
        words = [word.strip() for word in line.strip("|").split("|")]
        if len(words) == 1 + len(COLUMNS) and words[0].isdigit():
            yield int(words[0]), words[1:]


def fields_by_eccodes(folder, at, template):
    """Octets and name of each field of section 4 of a message that eccodes writes: where a template
    has a time for each forecast that it uses, of one forecast."""
    settings = {"tablesVersion": VERSION, "productDefinitionTemplateNumber": template}
    if "numberOfForecastsUsedInLocalTime" in keys_of_template(folder, f"template.4.{template}.def"):
        settings["numberOfForecastsUsedInLocalTime"] = 1
    if written(at, **settings)[7:9] != template.to_bytes(2, "big"):
        raise ValueError(f"eccodes wrote no message of template {template}")
    dump = subprocess.run(["grib_dump", "-O", str(at)], check=True, capture_output=True, text=True)
    section = dump.stdout.partition("SECTION_4")[2].partition("SECTION_5")[0]
    return re.findall(r"^(\d+(?:-\d+)?) +(\w+) =", section, re.M)


def crate_cells_of_page():
    """Of each mark `+` the template, the name of its column and the crate's octets."""
    found = re.findall(r"^- \[template 4\.(\d+), (.*)\]\[other\]: (.*)$", PAGE.read_text(), re.M)
    return {(int(template), name): words for template, name, words in found}


def octets_by_eccodes(fields, column):
    return [octet for words, key in fields if re.fullmatch(column.keys, key)
            for octet in octets_in(words)]


def judged(folder, at, template, cells):
    """How many cells agree, how many are marked and differ, and what is wrong. What the page has as
    the crate is marked, too."""
    fields, as_crate = fields_by_eccodes(folder, at, template), crate_cells_of_page()
    agree, marked, wrong = 0, 0, []
    for column, words in zip(COLUMNS, cells):
        said = octets_by_eccodes(fields, column)
        in_crate = as_crate.get((template, column.name))
        judgements = [(words, words.endswith("*"))] + [(in_crate, True)] * words.endswith("+")
        for octets, has_mark in judgements:
            same = said == octets_in(octets)
            agree += same and not has_mark
            marked += has_mark and not same
            if same == has_mark:
                wrong.append(f"differs: template {template}, {column.name}: the page has {octets}, "
                             f"eccodes the octets {said}")
    return agree, marked, wrong


def beside_eccodes():
    """What is wrong, and what was found in a line."""
    folder = definitions()
    if folder is None:
        return [], ("skipped: the octets against eccodes, which is not installed "
                    "(packages libeccodes-tools and libeccodes-data)")
    agree, marked, wrong, unknown = 0, 0, [], []
    with tempfile.TemporaryDirectory(prefix="buttresk-templates-") as name:
        for template, cells in rows_of_page():
            if not (folder / f"template.4.{template}.def").exists():
                unknown.append(template)
                continue
            same, different, faults = judged(folder, Path(name) / "message", template, cells)
            agree, marked, wrong = agree + same, marked + different, wrong + faults
    return wrong, (f"{agree} cells agree with eccodes, {marked} are marked and differ, "
                   f"{len(wrong)} are wrong; templates not judged: {runs(unknown) or 'none'}")


def main():
    asked = argparse.ArgumentParser(description=__doc__.splitlines()[0])
    what = asked.add_mutually_exclusive_group()
    what.add_argument("--check", action="store_true", help="fail if the page is another")
    what.add_argument("--write", action="store_true", help="write the page")
    asked = asked.parse_args()
    page, count = page_by_code()
    if asked.write:
        PAGE.write_text(page)
    now = PAGE.read_text() if PAGE.exists() else ""
    if now != page:
        print(*differing(now, page),
              "docs/TEMPLATES.md is not as the table has it: run tests/checks/templates.py --write",
              sep="\n")
        return 1
    print(f"{count} templates in docs/TEMPLATES.md, as the table has them")
    if asked.check or asked.write:
        return 0
    wrong, found = beside_eccodes()
    print(*wrong, found, sep="\n")
    return 1 if wrong else 0


if __name__ == "__main__":
    try:
        sys.exit(main())
    except ValueError as fault:
        sys.exit(str(fault))
