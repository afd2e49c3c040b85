#!/usr/bin/env -S python3 -B
"""The tables of names in tables/: their form, and each row against eccodes' definitions.

    tests/checks/tables.py

A line for each table says how many rows agree and how many could not be judged. Status 1 if a row
is not in form, differs from eccodes, or is missing that eccodes has. Where eccodes is not installed
(its tools and its definitions) the form alone is judged, a line says so, and the status is 0.

Of a name only words may be left out, none put in. Words for levels are the table's own: there the
unit is compared. Octets of members are found in messages that eccodes writes.
"""

import re
import shutil
import subprocess
import sys
import tempfile
from pathlib import Path

ROOT = Path(__file__).resolve().parent.parent.parent
TABLES = ROOT / "tables"
SAMPLE = Path("/usr/share/eccodes/samples/GRIB2.tmpl")

# Of each table: its columns of numbers at the start, those of them that name a row, and the widths
# of its columns of text.
FORMS = {"parameters": (3, 3, (74, 24)), "levels": (2, 1, (14, 32, 42)), "members": (5, 1, ()),
         "products": (1, 1, (5, 11))}

faults = []


def fault(*words):
    faults.append(" ".join(map(str, words)))
    print("differs:", *words)


# --- Form ----------------------------------------------------------------------------------------

def number(word):
    """A number of a table; None for -."""
    return None if word == "-" else int(word)


def rows_of(name):
    """The rows as lists; columns of numbers as numbers."""
    numbers = FORMS[name][0]
    for line in (TABLES / f"{name}.tsv").read_text().splitlines():
        if not line.startswith("#"):
            words = line.split("\t")
            yield [*map(number, words[:numbers]), *words[numbers:]]


def version_of(name):
    return int(re.search(r"master tables version (\d+)", (TABLES / f"{name}.tsv").read_text())[1])


def line_in_form(line, numbers, widths):
    """Printable ASCII that needs no escape in C; numbers without leading zeros; texts of their
    width, with no blank too many."""
    words = line.split("\t")
    return (len(words) == numbers + len(widths)
            and re.fullmatch(r"[\t !#-\[\]-~]+", line) is not None
            and all(re.fullmatch(r"-|0|-?[1-9]\d*", word) for word in words[:numbers])
            and all(1 <= len(word) <= width and word == " ".join(word.split())
                    for word, width in zip(words[numbers:], widths)))


def check_form(name):
    """Comments first, then rows in ascending order, none twice."""
    numbers, key, widths = FORMS[name]
    text = (TABLES / f"{name}.tsv").read_text(encoding="ascii")
    head, body = re.fullmatch(r"((?:#.*\n)+)((?:[^#\n].*\n)+)", text).groups()
    lines = body.splitlines()
    bad = [line for line in lines if not line_in_form(line, numbers, widths)]
    bad += [line for line in head.splitlines() if len(line) > 100]
    for line in bad:
        fault(f"{name}: not in form:", line)
    keys = [tuple(map(int, line.split("\t")[:key])) for line in lines if line not in bad]
    for one, other in zip(keys, keys[1:]):
        if one >= other:
            fault(f"{name}: not in ascending order:", *other)


def check_levels_form():
    """A form has one place for a value."""
    for kind, _, _, _, form in rows_of("levels"):
        if form != "-" and form.count("#") != 1:
            fault("levels: no one place for the value:", kind, form)


# --- eccodes -------------------------------------------------------------------------------------

def definitions():
    """The folder of eccodes' definitions of edition 2; None where there is none."""
    if any(shutil.which(tool) is None for tool in ("codes_info", "grib_set")):
        return None
    done = subprocess.run(["codes_info", "-d"], capture_output=True, text=True, check=True)
    folder = Path(done.stdout.split(":")[0].strip()) / "grib2"
    return folder if (folder / "tables").is_dir() and SAMPLE.exists() else None


def master_tables(folder, version):
    """Those of this version, or the newest before it."""
    known = [int(path.name) for path in (folder / "tables").iterdir() if path.name.isdigit()]
    return folder / "tables" / str(max(one for one in known if one <= version))


def entries(path):
    """Number and title of each entry of a code table of eccodes that is neither reserved nor of
    local use."""
    found = re.findall(r"^(\d+) \S+ (.*\S)", path.read_text(), re.M) if path.exists() else []
    return {int(code): title for code, title in found
            if int(code) < 192 and not title.startswith("Reserved")}


def title_and_unit(title):
    """The unit is the last thing in brackets, which may hold brackets itself; None for none."""
    found = re.fullmatch(r"(.*?) ?\((\(.*\)-1|[^()]*)\)", title)
    return (found[1], found[2]) if found else (title, None)


NO_UNITS = ("-", "numeric", "proportion", "fraction", "ccitt ia5", "sigma value")


def unit_by_manual(unit):
    """m s-1 for eccodes' m/s; - for what is no unit."""
    if unit.lower() in NO_UNITS or unit.startswith("Code table"):
        return "-"
    quotient = re.fullmatch(r"(\S*)/([A-Za-z]+)(\d?)", unit.replace("Joule", "J"))
    if quotient:
        return f"{quotient[1]} {quotient[2]}-{quotient[3] or 1}".strip()
    return unit.replace(" )", ")")


def has_words_of(short, title):
    """Whether the words of the short name stand in the title, in this order."""
    rest = iter(title.split())
    return all(word in rest for word in short.split())


def tell(name, rows, agree, unjudged, more=""):
    print(f"{name}: {rows} rows, {agree} agree with eccodes, {unjudged} could not be judged{more}")


def check_parameters(folder):
    master = master_tables(folder, version_of("parameters"))
    agree = unjudged = short = 0
    rows = list(rows_of("parameters"))
    for discipline, category, code, name, unit in rows:
        title = entries(master / f"4.2.{discipline}.{category}.table").get(code, "")
        said, said_unit = title_and_unit(title)
        if title == "" or (name, None) == (said, said_unit):
            unjudged += 1
        elif has_words_of(name, said) and unit == unit_by_manual(said_unit or ""):
            agree, short = agree + 1, short + (name != said)
        else:
            fault("parameters:", discipline, category, code, repr(name), repr(unit),
                  "where eccodes has", repr(title))
    check_all_parameters(master, {tuple(row[:3]) for row in rows})
    tell("parameters", len(rows), agree, unjudged, f"; {short} have fewer words")


def check_all_parameters(master, keys):
    for path in master.glob("4.2.*.*.table"):
        discipline, category = map(int, path.name.split(".")[2:4])
        wanted = {(discipline, category, code) for code in entries(path)}
        for key in sorted(wanted - keys) if discipline < 192 and category < 192 else ():
            fault("parameters: no row for", *key)


def check_levels(folder):
    said = entries(master_tables(folder, version_of("levels")) / "4.5.table")
    agree = unjudged = 0
    rows = list(rows_of("levels"))
    for kind, _, unit, words, _ in rows:
        said_unit = title_and_unit(said[kind])[1] if kind in said else None
        if said_unit is None or re.fullmatch("[A-Z]{3,}|underside|of .*", said_unit):
            unjudged += 1
        elif unit == unit_by_manual(said_unit):
            agree += 1
        else:
            fault("levels:", kind, repr(words), repr(unit), "where eccodes has", repr(said[kind]))
    for kind in sorted(set(said) - {row[0] for row in rows}):
        fault("levels: no row for", kind)
    tell("levels", len(rows), agree, unjudged, " (their unit; words are the table's own)")


def keys_of_template(folder, name):
    """All keys that a template of eccodes holds, and the files that it includes; none if it is
    not there."""
    path = folder / name
    text = re.sub("#.*", "", path.read_text()) if path.exists() else ""
    found = set(re.findall(r"\]\s+(\w+)", text))
    for other in re.findall(r'(?:include|template \w+) "grib2/([^"]*)"', text):
        found |= {other} | keys_of_template(folder, other)
    return found


# What a title of Code table 4.0 has for each kind. One that is none of these is -.
KINDS = {"probability": "Probability forecasts", "percentile": "Percentile forecasts",
         "quantile": "Quantile forecasts", "derived": "based on all ensemble members",
         "cluster": "based on a cluster", "error": "forecast error", "category": "Categorical"}


# A template that includes one of these has a forecast time; the second is that of 44, which has two
# octets.
FORECAST_TIMES = {"template.4.forecast_time.def", "template.4.forecast_time_44.def"}


def titles_of_templates(folder, version):
    text = (master_tables(folder, version) / "4.0.table").read_text()
    return {int(code): title for code, title in re.findall(r"^(\d+) \S+ (.*\S)", text, re.M)}


def check_products(folder):
    titles = titles_of_templates(folder, version_of("products"))
    agree = unjudged = 0
    rows = list(rows_of("products"))
    for template, time, kind in rows:
        title = titles.get(template, "")
        keys = keys_of_template(folder, f"template.4.{template}.def")
        said_kind = next((word for word, has in KINDS.items() if has in title), "-")
        said_time = "start" if "yearOfEndOfOverallTimeInterval" in keys else "point"
        if "forecastTime" not in keys or title == "":
            unjudged += 1
        elif (time, kind) == (said_time, said_kind):
            agree += 1
        else:
            fault("products:", template, time, kind, "where eccodes has", said_time, said_kind)
    for template in sorted(set(titles) - {row[0] for row in rows}):
        if FORECAST_TIMES & keys_of_template(folder, f"template.4.{template}.def"):
            fault("products: no row for", template)
    tell("products", len(rows), agree, unjudged)


def written(at, **keys):
    """Section 4 of a message that eccodes writes with these keys; empty if it can't."""
    words = ",".join(f"{key}={value}" for key, value in keys.items())
    done = subprocess.run(["grib_set", "-s", words, str(SAMPLE), str(at)], capture_output=True)
    place = subprocess.run(["grib_get", "-p", "offsetSection4,section4Length", str(at)],
                           capture_output=True, text=True)
    if done.returncode or place.returncode:
        return b""
    offset, length = map(int, place.stdout.split())
    return at.read_bytes()[offset:offset + length]


def octets_that_differ(one, other):
    """Counted from 1."""
    return [place for place, (a, b) in enumerate(zip(one, other), 1) if a != b]


# What eccodes calls the count of the part that repeats, by the octet of it.
COUNTS = {23: "numberOfContributingSpectralBands", 13: "numberOfPartitions",
          20: "numberOfDistributionFunctionParameters"}


def octets_by_eccodes(at, template, **count):
    """The octets of perturbation number and of number of forecasts, found by setting each to two
    values."""
    def with_member(perturbation, forecasts):
        return written(at, productDefinitionTemplateNumber=template, **count,
                       perturbationNumber=perturbation, numberOfForecastsInEnsemble=forecasts)
    first = with_member(7, 51)
    return [place for other in (with_member(8, 51), with_member(7, 52))
            for place in octets_that_differ(first, other)]


def member_agrees(at, template, perturbation, forecasts, counted, each):
    """Whether eccodes has both octets, for each count of a part that repeats."""
    for times in (0, 1, 3) if counted else (0,):
        octets = octets_by_eccodes(at, template, **({COUNTS[counted]: times} if counted else {}))
        on = times * (each or 0)
        if octets != [perturbation + on, forecasts + on]:
            return False
    return True


def check_members(folder):
    titles = titles_of_templates(folder, version_of("members"))
    keys = {template: keys_of_template(folder, f"template.4.{template}.def") for template in titles}
    rows = list(rows_of("members"))
    judged = [row for row in rows if keys.get(row[0])]
    with tempfile.TemporaryDirectory(prefix="buttresk-tables-") as name:
        wrong = [row for row in judged if not member_agrees(Path(name) / "message", *row)]
    for row in wrong:
        fault("members: octets differ from those of eccodes:", *row)
    for template in sorted(set(titles) - {row[0] for row in rows}):
        if "perturbationNumber" in keys[template]:
            fault("members: no row for", template)
    tell("members", len(rows), len(judged) - len(wrong), len(rows) - len(judged))


def main():
    for name in FORMS:
        check_form(name)
    check_levels_form()
    folder = definitions()
    if folder is None:
        print("skipped: the rows against eccodes, which is not installed "
              "(packages libeccodes-tools and libeccodes-data)")
    elif not faults:
        for check in (check_parameters, check_levels, check_members, check_products):
            check(folder)
    print(f"{len(faults)} differences")
    return 1 if faults else 0


if __name__ == "__main__":
    sys.exit(main())
