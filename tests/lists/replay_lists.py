#!/usr/bin/env -S python3 -B
"""Write the stored lists of `replay` and the stored files of `gribwalk`: each program's input and
the answers expected of it. (The list `replay_crate` is written by `oracle/sample.py`.)

No answer comes from the library under test. Walks, pulls, public copies and written messages are
judged by `reference.py`, written from documents 01 and 02. Where a clean file's sections stand says
the end of each of its cuts, too. Where eccodes has a sample's sections says which octets its public
copy blanks, and a message written of a sample's payloads is the sample itself.
Fields of whole messages are judged by eccodes (`grib_get`); lengths and templates that no message
of eccodes has, and the offsets of templates, are judged by `fields_by_01.py`, written from document
01 and the ranges of its source document 002, and by `fields_by_02.py` where templates are read by
the Manual. Inventories and lists are judged by `inventory_by_02.py`, written from document 02, and
by eccodes. Where two judges speak, or an answer is written by hand, they have to agree.
"""

import argparse
import subprocess
import tempfile
from pathlib import Path

import copy_files
import inventory_by_02
import inventory_files
import reference
import write_plans
from aerosols import LAYER, READ, with_product
from copy_files import BEFORE, FULL, LARGEST_ROOM
from fields_by_01 import (LEAST, PROCESS, PRODUCT_START, SUPPORTED, SURFACES, TIME, fields_by_01,
                          offsets_by_01, signed, start_of)
from fields_by_02 import fields_by_manual, offsets_by_manual
from reference import FIRST_VALUES_OCTET, Part, Plan, Section, line_words, unsigned
from walk_files import (A, A97, A117, CARRIED, END, MISSING, WITH_2, by_hand, cut_anywhere, least,
                        message, section, swept, whole)

# --- Requests and answers, as REPLAY.md writes them ----------------------------------------------

def fields_request(number, payload):
    return b"F" + bytes([number]) + len(payload).to_bytes(4, "big") + payload


def signed_request(octets):
    return b"S" + bytes([len(octets)]) + octets


def word(value):
    return "none" if value is None else str(value)


def fields_answer(number, values):
    """A section without fields has the one word `none`."""
    words = ["none"] if values is None else [word(value) for value in values]
    return " ".join(["fields", str(number)] + words)


def fields_pair(number, payload):
    """A fields request, answered by document 01."""
    return fields_request(number, payload), fields_answer(number, fields_by_01(number, payload))


def walk_request(file, numbers, lines):
    rooms = numbers.to_bytes(2, "big") + lines.to_bytes(2, "big")
    return b"W" + rooms + len(file).to_bytes(4, "big") + file


def pull_request(file):
    return b"P" + len(file).to_bytes(4, "big") + file


def counts_words(done):
    return (f"sections {len(done.rows)} submessages {len(done.lines)} "
            f"messages {done.messages}")


def end_words(done):
    return f"{done.outcome} {done.place} {done.offset} {done.detail}"


def walk_answer(done):
    return "\n".join(["walk " + counts_words(done)]
                     + ["row " + " ".join(map(str, row)) for row in done.rows]
                     + ["line " + line_words(line) for line in done.lines]
                     + ["untouched yes", "end " + end_words(done)])


def gribwalk_answer(done):
    return "\n".join([counts_words(done)] + [line_words(line) for line in done.lines]
                     + ["end " + end_words(done)])


def walk_pair(file, numbers, lines):
    """A walk over tables of so many numbers and lines; a remainder under three is no room."""
    done = reference.walk(file, row_room=numbers // 3, line_room=lines)
    return walk_request(file, numbers, lines), walk_answer(done)


def pull_pair(file):
    said = []
    for answer in reference.pull(file):
        said.append(" ".join(map(str, answer)))
        if said.count("ended") == 2:
            return pull_request(file), "\n".join(said)


def octets_of(number, width):
    return number.to_bytes(width, "big")


def copy_request(file, room):
    return b"C" + octets_of(room, 4) + octets_of(len(file), 4) + file


def write_request(plan, room):
    parts = b"".join(octets_of(number, 8) for part in plan.parts for number in part)
    return (b"M" + bytes([plan.discipline]) + plan.reserved + octets_of(len(plan.parts), 2) + parts
            + octets_of(len(plan.store), 4) + plan.store + octets_of(room, 4))


def written_words(written):
    return (f"{written.outcome} {written.place} {written.offset} {written.detail} "
            f"{len(written.octets)}")


def written_answer(kind, words, octets, room):
    """The destination has the octets at its start and is else what it was."""
    destination = octets.ljust(room, BEFORE)
    return f"{kind} {words}\ndest {destination.hex() or '-'}"


def copy_pair(file, room):
    copy = reference.public_copy(file, room)
    answer = written_answer("copy", written_words(copy), copy.octets, room)
    return copy_request(file, room), answer


def write_pair(plan, room):
    done = reference.write_message(plan, room)
    answer = written_answer("write", written_words(done), done.octets, room)
    return write_request(plan, room), answer


def inventory_request(file, room):
    return b"I" + octets_of(room, 4) + octets_of(len(file), 4) + file


def inventory_pair(file, room):
    done = inventory_by_02.inventory(file, room)
    answer = written_answer("inventory", written_words(done), done.octets, room)
    return inventory_request(file, room), answer


def list_request(text, room):
    return b"R" + octets_of(room, 2) + octets_of(len(text), 4) + text


def list_answer(outcome, detail, entries):
    """Entries past the count are what they were."""
    lines = [f"list {outcome} 0 0 {detail} {len(entries)}"]
    lines += ["entry " + " ".join(map(word, entry)) for entry in entries]
    return "\n".join(lines + ["untouched yes"])


def list_pair(text, room):
    return list_request(text, room), list_answer(*inventory_by_02.read_list(text, room))


# Kinds `O` and `T`: the numbers of the readings, and who reads so.
AS_CRATE, BY_MANUAL = 0, 1
READINGS = AS_CRATE, BY_MANUAL
OFFSETS_BY = {AS_CRATE: offsets_by_01, BY_MANUAL: offsets_by_manual}
FIELDS_BY = {AS_CRATE: fields_by_01, BY_MANUAL: fields_by_manual}
WHEN, WHERE = slice(5, 7), slice(7, 13)     # among section 4's fields


def offsets_request(template, reading=AS_CRATE):
    return b"O" + bytes([reading]) + octets_of(template, 2)


def offsets_answer(indices):
    return " ".join(["offsets"] + [word(index) for index in indices])


def offsets_pair(template, reading=AS_CRATE):
    """An offsets request, answered by the ranges of document 01's source, and by 02 where it reads
    by the Manual."""
    return offsets_request(template, reading), offsets_answer(OFFSETS_BY[reading](template))


def when_where_request(payload, reading):
    return b"T" + bytes([reading]) + octets_of(len(payload), 4) + payload


def when_where_answer(when, where):
    return " ".join(["when", *map(word, when), "where", *map(word, where)])


def when_where_pair(payload, reading):
    """Time and surfaces of a payload, answered by document 01, and by 02 where it reads by the
    Manual. Under its least a payload has none of its fields."""
    found = FIELDS_BY[reading](4, payload) or [None] * 13
    return when_where_request(payload, reading), when_where_answer(found[WHEN], found[WHERE])


def agreed(pair, by_reference):
    """An answer that another judge said; the reference has to say the same."""
    assert pair == by_reference, (pair[1], by_reference[1])
    return pair


# --- eccodes -------------------------------------------------------------------------------------

def surface_keys(place):
    return [f"{name}Of{place}FixedSurface" for name in ("type", "scaleFactor", "scaledValue")]


# eccodes' names of the fields, in the order in which they are printed.
KEYS = {
    0: ["discipline", "totalLength"],
    1: ["centre", "subCentre", "tablesVersion", "localTablesVersion", "significanceOfReferenceTime",
        "year", "month", "day", "hour", "minute", "second",
        "productionStatusOfProcessedData", "typeOfProcessedData"],
    3: ["numberOfDataPoints", "gridDefinitionTemplateNumber"],
    4: ["NV", "productDefinitionTemplateNumber", "parameterCategory", "parameterNumber",
        "typeOfGeneratingProcess", "indicatorOfUnitOfTimeRange", "forecastTime"]
       + surface_keys("First") + surface_keys("Second"),
    5: ["numberOfValues", "dataRepresentationTemplateNumber"],
    6: ["bitMapIndicator"],
}

# Where eccodes, with the Manual, and document 01, with the Rust, find different fields: which of
# section 4's fields, in which templates. There 01 decides; everywhere else they have to agree.
VARIABLE = {53, 54, 57, 58, 67, 68}     # parts of variable length, which the Rust leaves out
LATEST = set(range(92, 99))             # newer than the Rust's ranges
OTHERWISE = [
    (slice(4, 5), VARIABLE | LATEST | {47, 83, 254}),   # the generating process
    (slice(5, 7), VARIABLE | {20, 44}),                 # the time; 44 has two octets in the Manual
    (slice(7, 13), VARIABLE | LATEST),                  # the surfaces
]

# Supported templates of which this eccodes has no layout.
NOT_IN_ECCODES = {62, 63}

# Of these a line of the inventory has another time or surface: it reads 44 as the Manual has it.
OTHERWISE_IN_LINES = (OTHERWISE[1][1] | OTHERWISE[2][1]) - {44}

# The samples differ in grid, in representation, in coordinates and in having a section 2; their
# product template is always 0, so messages of the others are written by eccodes.
SAMPLES = ["GRIB2", "ccsds_grib2", "lambert_bf_grib2", "polar_stereographic_pl_grib2",
           "polar_stereographic_sfc_grib2", "reduced_gg_ml_grib2", "reduced_gg_pl_32_grib2",
           "reduced_gg_sfc_jpeg_grib2", "reduced_ll_sfc_grib2", "reduced_rotated_gg_ml_grib2",
           "regular_gg_pl_grib2", "regular_ll_sfc_grib2", "rotated_gg_sfc_grib2",
           "rotated_ll_pl_grib2", "sh_ml_grib2", "sh_pl_grib2"]

# Values unlike each other and unlike zero, so that a mix-up shows. Types come before factors and
# values, since eccodes resets those when it is given a type.
PRODUCT_SETTINGS = (
    "parameterCategory=3,parameterNumber=5,typeOfGeneratingProcess=4,indicatorOfUnitOfTimeRange=11,"
    "forecastTime=258,typeOfFirstFixedSurface=103,typeOfSecondFixedSurface=104,"
    "scaleFactorOfFirstFixedSurface=-2,scaledValueOfFirstFixedSurface=66051,"
    "scaleFactorOfSecondFixedSurface=3,scaledValueOfSecondFixedSurface=67438087")
MESSAGE_SETTINGS = (
    "centre=34,subCentre=258,tablesVersion=30,localTablesVersion=1,significanceOfReferenceTime=2,"
    "year=2023,month=11,day=29,hour=17,minute=42,second=53,productionStatusOfProcessedData=3,"
    "typeOfProcessedData=5,forecastTime=-258,scaledValueOfFirstFixedSurface=2147483653,"
    "bitmapPresent=1")


def split_message(message):
    """(number, payload) of sections 0 to 6."""
    sections, at = [(0, message[:16])], 16
    while message[at + 4] != 7:
        length = unsigned(message[at:at + 4])
        sections.append((message[at + 4], message[at + 5:at + length]))
        at += length
    return sections


def ask_eccodes(path, number):
    """The words of grib_get; -f because not every template has every key."""
    keys = ",".join(key + ":i" for key in KEYS[number])
    done = subprocess.run(["grib_get", "-f", "-p", keys, str(path)],
                          check=True, capture_output=True, text=True)
    return done.stdout.split()


def value_by_01(key, said):
    """eccodes' word as document 01 reads the same octets: it knows no missing number, the time is
    without a sign, and the scaled value has one."""
    if said == "not_found":
        return None
    if key.startswith("scaleFactor"):
        return signed(b"\xff") if said == "MISSING" else int(said)
    if key.startswith("scaledValue"):
        return signed(b"\xff" * 4 if said == "MISSING" else int(said).to_bytes(4, "big"))
    if key == "forecastTime" and int(said) < 0:
        return 2**31 - int(said)
    return int(said)


def fields_by_both(path, number, payload):
    """eccodes' values, with document 01's where the two are known to differ; checks all others."""
    ours = fields_by_01(number, payload)
    values = [value_by_01(key, said) for key, said in zip(KEYS[number], ask_eccodes(path, number))]
    if number == 4:
        for fields, templates in OTHERWISE:
            if values[1] in templates:
                assert values[fields] != ours[fields], (path, "no difference", fields)
                values[fields] = ours[fields]
    assert values == ours, (path, number, values, ours)
    return values


def message_pairs(path, numbers=range(7)):
    """A fields request for each section of the message whose number is wanted."""
    pairs = []
    for number, payload in split_message(path.read_bytes()):
        if number in numbers:
            values = fields_by_both(path, number, payload) if number in KEYS else None
            pairs.append((fields_request(number, payload), fields_answer(number, values)))
    return pairs


def write_by_eccodes(sample, settings, path):
    """A message with the settings; -f lets those pass that its template has no place for."""
    subprocess.run(["grib_set", "-f", "-s", settings, str(sample), str(path)],
                   check=True, capture_output=True)


def sections_by_eccodes(path):
    """Number, offset and length of the sections 1 to 7 of a message."""
    keys = ",".join(f"offsetSection{number}:i,section{number}Length:i" for number in range(1, 8))
    done = subprocess.run(["grib_get", "-f", "-p", keys, str(path)],
                          check=True, capture_output=True, text=True)
    said = done.stdout.split()
    return [Section(number, int(said[2 * number - 2]), int(said[2 * number - 1]))
            for number in range(1, 8) if said[2 * number - 2] != "not_found"]


def copy_by_eccodes(path):
    """The public copy of a file that is one message, its sections being where eccodes has them."""
    copy = bytearray(path.read_bytes())
    for number, offset, length in sections_by_eccodes(path):
        if number in FIRST_VALUES_OCTET:
            first, end = offset + FIRST_VALUES_OCTET[number] - 1, offset + length
            copy[first:end] = bytes(end - first)
    return bytes(copy)


def plans_by_eccodes(path):
    """Plans whose message is the file: of parts of the file itself, and of its payloads joined from
    the last to the first."""
    file = path.read_bytes()
    parts = tuple(Part(number, offset + 5, length - 5)
                  for number, offset, length in sections_by_eccodes(path))
    yield Plan(file[6], file[4:6], parts, file)
    store, moved = b"", []
    for number, offset, length in reversed(parts):
        moved.insert(0, Part(number, len(store), length))
        store += file[offset:offset + length]
    yield Plan(file[6], file[4:6], tuple(moved), store)


# --- The lists -----------------------------------------------------------------------------------

# The octets and what 01 says of them: its samples, other lengths, zeros, both ends of each length.
SIGNED = [
    ("800001", -1), ("800000", 0), ("ffffff", -8388607), ("7fffff", 8388607),
    ("", None), ("05", 5), ("85", -5), ("0102", 258), ("8102", -258), ("010203", 66051),
    ("01020304", 16909060), ("81020304", -16909060), ("0102030405", None), ("8000000000", None),
    ("010203040506", None), ("01" * 255, None),
    ("00", 0), ("80", 0), ("0000", 0), ("8000", 0), ("000000", 0), ("00000000", 0), ("80000000", 0),
    ("7f", 127), ("ff", -127), ("7fff", 32767), ("ffff", -32767),
    ("7fffffff", 2147483647), ("ffffffff", -2147483647),
]

# Sections of 01's sample A with zeros in its least payloads, and its answers, written by hand.
SAMPLE_A = [
    (0, b"GRIB\0\0\0\2" + (86).to_bytes(8, "big"), "fields 0 0 86"),
    (1, bytes(16), "fields 1" + " 0" * 13),
    (3, bytes(9), "fields 3 0 0"),
    (4, bytes(4), "fields 4 0 0" + " none" * 11),
    (5, bytes(6), "fields 5 0 0"),
    (6, bytes(1), "fields 6 0"),
    (7, b"", "fields 7 none"),
    (8, b"7777", "fields 8 none"),
]


def basic_list():
    pairs = []
    for octets, value in SIGNED:
        assert signed(bytes.fromhex(octets)) == value, octets
        pairs.append((signed_request(bytes.fromhex(octets)), "signed " + word(value)))
    for number, payload, answer in SAMPLE_A:
        assert fields_pair(number, payload)[1] == answer, number
        pairs.append((fields_request(number, payload), answer))
    for number in (2, 7, 8, 9, 255):
        pairs += [fields_pair(number, b""), fields_pair(number, spread(20))]
    return pairs


def eccodes_list(samples):
    paths = [samples / (name + ".tmpl") for name in SAMPLES]
    pairs = [pair for path in paths for pair in message_pairs(path)]
    with tempfile.TemporaryDirectory() as folder:
        written = Path(folder) / "message"
        write_by_eccodes(paths[0], MESSAGE_SETTINGS, written)
        pairs += message_pairs(written)
        for template in numbers_in(SUPPORTED):
            if template not in NOT_IN_ECCODES:
                settings = f"tablesVersion=30,productDefinitionTemplateNumber={template},"
                write_by_eccodes(paths[0], settings + PRODUCT_SETTINGS, written)
                pairs += message_pairs(written, [4])
    return pairs


def numbers_in(ranges):
    return [number for first, last in ranges for number in range(first, last + 1)]


def spread(length, flip=0):
    """Octets that all differ, about half with the top bit set, so that a wrong offset shows."""
    return bytes((37 * place + 91) % 256 ^ flip for place in range(length))


def product_payload(template, length, flip=0):
    """A payload of section 4 with this template; `flip` turns the octets after the template."""
    return (b"\x01\x02" + template.to_bytes(2, "big") + spread(60, flip)[4:])[:length]


def boundary_templates():
    """Both ends of every range and the number beside each end, and some far from all of them."""
    numbers = {16, 50, 64, 256, 512, 32768, 65279, 65534, 65535}
    for first, last, *_ in SUPPORTED + PROCESS + TIME + SURFACES:
        numbers |= {first - 1, first, last, last + 1}
    return sorted(numbers - {-1})


def layout(template):
    return [start_of(ranges, template) for ranges in (PROCESS, TIME, SURFACES)]


def cut_lengths(template):
    """Payload lengths at which a field of the template is one octet short, and just whole."""
    process, time, surfaces = layout(template)
    ends = [PRODUCT_START, PRODUCT_START + 1, PRODUCT_START + 2]
    if process is not None:
        ends += [process + 1]
    if time is not None:
        ends += [time + 1, time + 5]
    if surfaces is not None:
        ends += [surfaces + 6, surfaces + 12]
    return sorted({length for end in ends for length in (end - 1, end)})


def one_template_of_each_layout():
    templates = {}
    for template in numbers_in(SUPPORTED):
        templates.setdefault(str(layout(template)), template)
    return templates.values()


def edges_list():
    pairs = []
    for number, least in LEAST.items():
        for length in sorted({0, least - 1, least, least + 1}):
            pairs += [fields_pair(number, spread(length)), fields_pair(number, b"\xff" * length)]
    for template in boundary_templates():
        # With the top bits flipped, each sign is seen both ways.
        pairs += [fields_pair(4, product_payload(template, 60, flip)) for flip in (0, 0x80)]
    for template in one_template_of_each_layout():
        pairs += [fields_pair(4, product_payload(template, n)) for n in cut_lengths(template)]
    # Ones all through a supported product: no number is read as missing.
    pairs.append(fields_pair(4, bytes(4) + b"\xff" * 56))
    return pairs


def aerosols_list():
    """Kind `F` reads as the crate, also where the Manual has it otherwise."""
    for what, payload, by_manual, _, as_crate, _ in READ:
        for read, answer in ((fields_by_manual, by_manual), (fields_by_01, as_crate)):
            assert read(4, payload)[4:8] == answer, what
    return [fields_pair(4, payload) for _, payload, *_ in READ]


def bad_list():
    """Good requests, then one whose payload lacks its last octet."""
    return [(signed_request(b"\x80\0\1"), "signed -1"), fields_pair(6, b"\xff"),
            fields_pair(2, b""), (fields_request(1, spread(16))[:-1], "bad")]


def long_list():
    """One octet too many. Every request in it is whole: the length alone is at fault."""
    request = signed_request(b"\x80\0\1")
    return [(request * (262145 // len(request)), "long")]


LARGEST_TABLES = 6144, 512      # numbers, lines: the most that a request may ask for
AMPLE_TABLES = 150, 10          # more than any swept file needs


def check_answers_by_hand():
    for file, rows, lines, messages, end in [*by_hand(), *CARRIED.values(), *MISSING]:
        done = reference.walk(file)
        said = len(done.rows), [line_words(line) for line in done.lines], done.messages
        assert said == (rows, lines, messages) and end_words(done) == end, (said, end_words(done))
    for cuts in cut_anywhere():
        for file, end in cuts:
            assert end_words(reference.walk(file)) == end, (len(file), end)


def walk_list():
    """No walk here fills a table."""
    check_answers_by_hand()
    pairs = [walk_pair(file, *LARGEST_TABLES) for file, *_ in by_hand()]
    for file in swept():
        pairs.append(walk_pair(file, *AMPLE_TABLES))
        assert pairs[-1][1] == walk_answer(reference.walk(file)), "tables too small"
    return pairs


def every_room(file):
    """From no room to more than enough, each number with each count of lines."""
    done = reference.walk(file)
    return [(file, numbers, lines) for numbers in range(3 * len(done.rows) + 4)
            for lines in range(len(done.lines) + 2)]


def just_enough_room(file, rows, lines):
    """The file's own rows and lines: exactly, with a remainder, and one less of either."""
    return [(file, numbers, count)
            for numbers in (max(3 * rows - 1, 0), 3 * rows, 3 * rows + 1, 3 * rows + 2)
            for count in sorted({max(lines - 1, 0), lines})]


def tables_list():
    wanted = [room for file in (A, A97, A117) for room in every_room(file)]
    wanted += [(A + WITH_2, 3 * rows, lines) for rows in range(19) for lines in range(4)]
    for file, rows, lines, *_ in by_hand():
        wanted += just_enough_room(file, rows, len(lines))
    wanted += [(A * 40, 960, 40), (A * 40, 959, 40), (A * 40, 960, 39)]
    return [walk_pair(*room) for room in dict.fromkeys(wanted)]


def pulled():
    """Every file with an answer by hand, every second of the others."""
    return [file for file, *_ in by_hand()] + swept()[::2]


def pull_list():
    return [pull_pair(file) for file in pulled()]


def carried_list():
    """What a line says of its message: walks and pulls of the files by hand that are not walked or
    pulled yet."""
    files = [file for file, *_ in CARRIED.values()]
    walked, pulled_before = set(swept()), set(pulled())
    return ([walk_pair(file, *AMPLE_TABLES) for file in files if file not in walked]
            + [pull_pair(file) for file in files if file not in pulled_before])


def missing_list():
    """How many octets are missing: walks of the files by hand that are not walked yet, pulls of
    them and of every cut of A. (Every cut of three messages is in `replay_crate`.)"""
    files = [file for file, *_ in MISSING]
    cuts_of_a, _ = cut_anywhere()
    walked, pulled_before = set(swept()), set(pulled())
    to_pull = dict.fromkeys(files + [file for file, _ in cuts_of_a])
    return ([walk_pair(file, *AMPLE_TABLES) for file in files if file not in walked]
            + [pull_pair(file) for file in to_pull if file not in pulled_before])


def said_copies(cases):
    """Files whose answers are said by hand, or by where their sections stand."""
    return [agreed((copy_request(file, room), written_answer("copy", words, octets, room)),
                   copy_pair(file, room))
            for file, room, words, octets in cases]


def clean_copy_pair(file, copy, room):
    answer = written_answer("copy", f"0 0 0 0 {len(file)}", copy, room)
    return agreed((copy_request(file, room), answer), copy_pair(file, room))


def copies_by_eccodes(samples):
    """Each sample; a message that eccodes wrote with a bitmap; some samples with other octets
    before, between and behind them; an edition 1 message, and a file of another kind."""
    with tempfile.TemporaryDirectory() as folder:
        written = Path(folder) / "message"
        write_by_eccodes(samples / "GRIB2.tmpl", MESSAGE_SETTINGS, written)
        copies = [(path.read_bytes(), copy_by_eccodes(path)) for path in
                  [samples / (name + ".tmpl") for name in SAMPLES + ["sh_sfc_grib2"]] + [written]]
    other = (samples / "BUFR4.tmpl").read_bytes()
    file, copy = other, bytes(len(other))
    for message_octets, message_copy in copies[:5]:
        file += message_octets + b"\r\nGRI"
        copy += message_copy + bytes(5)
    pairs = [clean_copy_pair(*pair, len(pair[0])) for pair in copies + [(file, copy)]]
    pairs.append(clean_copy_pair(other, bytes(len(other)), len(other)))
    pairs.append(copy_pair((samples / "GRIB1.tmpl").read_bytes(), 200))
    assert pairs[-1][1].startswith("copy 3 0 0 1 0\n")
    return pairs


def check_copy(file):
    """A public copy walks as its file does, and is its own public copy."""
    copy = reference.public_copy(file, len(file))
    if copy.outcome == 0:
        copied, walked = reference.walk(copy.octets), reference.walk(file)
        assert (copied.rows, copied.lines) == (walked.rows, walked.lines)
        assert reference.public_copy(copy.octets, len(file)) == copy


def copy_list(samples):
    """The last request has a destination over the limit."""
    pairs = said_copies(copy_files.by_hand()) + copies_by_eccodes(samples)
    for file, room in copy_files.swept_copies():
        check_copy(file)
        pairs.append(copy_pair(file, room))
    pairs += [pair for pair in said_copies(copy_files.of_cut_files()) if pair not in pairs]
    return pairs + [(copy_request(FULL, LARGEST_ROOM + 1), "bad")]


def said_messages(cases):
    """Plans whose answers are said by hand or by a sample."""
    return [agreed((write_request(plan, room), written_answer("write", words, octets, room)),
                   write_pair(plan, room))
            for plan, room, words, octets in cases]


# Some with a section 2, with coordinates, with values; all are given back to the last octet.
WRITTEN_SAMPLES = ["GRIB2", "ccsds_grib2", "lambert_bf_grib2", "polar_stereographic_sfc_grib2",
                   "reduced_gg_ml_grib2", "reduced_gg_pl_32_grib2", "reduced_gg_sfc_jpeg_grib2",
                   "rotated_ll_pl_grib2"]


def messages_by_eccodes(samples):
    """A plan and what is to be written of it: the sample."""
    for extra, name in enumerate(WRITTEN_SAMPLES):
        path = samples / (name + ".tmpl")
        file = path.read_bytes()
        for plan in plans_by_eccodes(path):
            yield plan, len(file) + extra, f"0 0 0 0 {len(file)}", file


def check_message(plan, room):
    """What is written is as long as it says and reads back as one message of the plan's numbers."""
    octets = reference.write_message(plan, room).octets
    done = reference.walk(octets)
    if octets:
        numbers = [0] + [part.number for part in plan.parts] + [8]
        assert [row.number for row in done.rows] == numbers
        assert (done.outcome, done.messages, unsigned(octets[8:16])) == (0, 1, len(octets))


def write_pairs(cases):
    for plan, room in cases:
        check_message(plan, room)
    return [write_pair(plan, room) for plan, room in cases]


def message_list(samples):
    """The last request has a destination over the limit."""
    return (said_messages(write_plans.messages_by_hand())
            + said_messages(messages_by_eccodes(samples))
            + write_pairs(write_plans.swept_messages())
            + [(write_request(write_plans.GOOD, LARGEST_ROOM + 1), "bad")])


def message_edges_list():
    """The last request's destination is cut."""
    return (said_messages(write_plans.faults_by_hand())
            + write_pairs(write_plans.swept_faults())
            + [(write_request(write_plans.GOOD, 108)[:-1], "bad")])


def said_inventories(cases):
    """Files whose answers are said by hand, or by where their sections stand."""
    return [agreed((inventory_request(file, room), written_answer("inventory", words, text, room)),
                   inventory_pair(file, room))
            for file, room, words, text in cases]


# eccodes' names of the last six fields of a line.
INVENTORY_KEYS = ["discipline", "parameterCategory", "parameterNumber",
                  "indicatorOfUnitOfTimeRange", "forecastTime", "typeOfFirstFixedSurface"]


def line_by_eccodes(path):
    """The line of a file that is one message of one field."""
    keys = ",".join(key + ":i" for key in INVENTORY_KEYS)
    done = subprocess.run(["grib_get", "-f", "-p", keys, str(path)],
                          check=True, capture_output=True, text=True)
    values = [value_by_01(key, said) for key, said in zip(INVENTORY_KEYS, done.stdout.split())]
    return inventory_by_02.line_of((0, 0, 0, *values))


def inventories_by_eccodes(samples):
    """Each sample, and messages that eccodes wrote with unlike values, of templates where a line
    has what the Manual has."""
    pairs = []
    with tempfile.TemporaryDirectory() as folder:
        written = Path(folder) / "message"
        for path in [samples / (name + ".tmpl") for name in SAMPLES]:
            pairs.append((path.read_bytes(), line_by_eccodes(path)))
        for template in numbers_in(SUPPORTED):
            if template not in OTHERWISE_IN_LINES | NOT_IN_ECCODES:
                settings = f"tablesVersion=30,productDefinitionTemplateNumber={template},"
                write_by_eccodes(samples / "GRIB2.tmpl", settings + PRODUCT_SETTINGS, written)
                pairs.append((written.read_bytes(), line_by_eccodes(written)))
    return [agreed((inventory_request(file, len(text)),
                    written_answer("inventory", f"0 0 0 0 {len(text)}", text, len(text))),
                   inventory_pair(file, len(text)))
            for file, text in pairs]


def lists_by_hand():
    return [agreed((list_request(text, room), list_answer(outcome, detail, entries)),
                   list_pair(text, room))
            for text, room, outcome, detail, entries in inventory_files.lists_by_hand()]


def inventories_by_manual():
    """Of what tells the two readings apart the inventory has the Manual's: time unit, time and type
    of the first surface. All in one file, too."""
    lines = [(with_product(payload), [0, 0, *by_manual[1:]]) for _, payload, by_manual, *_ in READ]
    files = [[line] for line in lines] + [lines]
    for fields in files:
        text, at = b"", 0
        for number, (file, last) in enumerate(fields):
            text += inventory_by_02.line_of((number, 0, at, 0, *last))
            at += len(file)
        yield (b"".join(file for file, _ in fields), len(text), f"0 0 0 0 {len(text)}", text)


def inventory_list(samples):
    """The last request has a table over the limit."""
    pairs = said_inventories(inventory_files.inventories_by_hand())
    pairs += said_inventories(inventories_by_manual())
    pairs += inventories_by_eccodes(samples)
    for file, room in inventory_files.swept_inventories():
        pairs.append(inventory_pair(file, room))
    pairs += said_inventories(inventory_files.inventories_of_cut_files())
    pairs += lists_by_hand() + [list_pair(*case) for case in inventory_files.swept_lists()]
    return pairs + [(list_request(b"", 513), "bad")]


# Rows of document 02's table, written by hand: indices of generating process, time and surfaces,
# and the templates that have them.
OFFSETS = {
    (2, 8, 13): [0, 1100, 1101],
    (2, 8, None): [32, 1000, 1099],
    (2, None, None): [16, 89, 90, 254],
    (15, 21, 24): [44],
    (15, 21, 26): [45],
    (2, 21, 26): [47],          # by the Manual as 45
    (2, 22, 27): [83],
    (2, 26, 5): [88],
    (None, None, None): [50, 53, 54, 57, 58, 67, 68, *range(92, 99), 999, 1102, 65535],
}
LISTED_IN_ORDER = 1106      # templates: every row of the table, and some numbers behind the last


def far_templates():
    """About each power of two; 44, 88, the last row's number and the next with a bit more; every
    template of one octet with its octets exchanged."""
    beside = {2**bit + more for bit in range(17) for more in (-2, -1, 0, 1, 44, 88, 1101, 1102)}
    exchanged = {256 * template for template in range(256)}
    return sorted((beside | exchanged) & set(range(LISTED_IN_ORDER, 65536)))


def offsets_list():
    """By both readings. The last request names a reading that there is not."""
    for indices, templates in OFFSETS.items():
        for template in templates:
            as_45 = (15, 21, 26) if template == 47 else indices
            for reading, said in ((AS_CRATE, indices), (BY_MANUAL, as_45)):
                agreed((offsets_request(template, reading), offsets_answer(said)),
                       offsets_pair(template, reading))
    templates = [*range(LISTED_IN_ORDER), *far_templates()]
    pairs = [offsets_pair(template, reading)
             for reading in (AS_CRATE, BY_MANUAL) for template in templates]
    return pairs + [(offsets_request(44, reading=2), "bad")]


# Payloads that have a time, surfaces, both or neither, by both readings: unit, time and the
# surfaces, written by hand. 32 has no index for surfaces; 88 has them at 5 and its time at 26; 64
# is not supported.
SURFACES_SAID = [5, -2, 1, 7, 0, 2]
ZERO_TO_TIME = bytes(8) + b"\1\0\0\0\6"
LOCAL_TIME = bytes([0, 0, 0, 88]) + bytes(5) + LAYER + bytes(9) + b"\1\0\0\0\6"
NO_WHEN, NO_WHERE = [None] * 2, [None] * 6
EACH_BY_ITSELF = [
    (bytes([0, 0, 0, 0]) + ZERO_TO_TIME + LAYER, [1, 6], SURFACES_SAID),
    (bytes([0, 0, 0, 0]) + ZERO_TO_TIME + LAYER[:11], [1, 6], NO_WHERE),
    (bytes([0, 0, 0, 0]) + ZERO_TO_TIME[:12], NO_WHEN, NO_WHERE),
    (bytes([0, 0, 0, 32]) + ZERO_TO_TIME + LAYER, [1, 6], NO_WHERE),
    (bytes([0, 0, 0, 64]) + ZERO_TO_TIME + LAYER, NO_WHEN, NO_WHERE),
    (LOCAL_TIME, [1, 6], SURFACES_SAID),
    (LOCAL_TIME[:34], NO_WHEN, SURFACES_SAID),
    (LOCAL_TIME[:21], NO_WHEN, SURFACES_SAID),
    (LOCAL_TIME[:20], NO_WHEN, NO_WHERE),
    (b"", NO_WHEN, NO_WHERE),
    (bytes(3), NO_WHEN, NO_WHERE),
    (bytes(4), NO_WHEN, NO_WHERE),
]


def when_where_by_hand():
    """And what tells the two readings apart: unit, time and type of the first surface."""
    for payload, when, where in EACH_BY_ITSELF:
        for reading in READINGS:
            yield agreed((when_where_request(payload, reading), when_where_answer(when, where)),
                         when_where_pair(payload, reading))
    for what, payload, by_manual, _, as_crate, _ in READ:
        for reading, (_, *said) in ((AS_CRATE, as_crate), (BY_MANUAL, by_manual)):
            found = FIELDS_BY[reading](4, payload)
            assert [*found[WHEN], found[WHERE][0]] == said, what
            yield when_where_pair(payload, reading)


def when_where_by_eccodes(samples):
    """Of every supported template that eccodes has, and that has both where the Manual has them:
    eccodes' values, by the Manual; and as the crate by 01."""
    with tempfile.TemporaryDirectory() as folder:
        written = Path(folder) / "message"
        for template in numbers_in(SUPPORTED):
            if template in OTHERWISE_IN_LINES | NOT_IN_ECCODES:
                continue
            settings = f"tablesVersion=30,productDefinitionTemplateNumber={template},"
            write_by_eccodes(samples / "GRIB2.tmpl", settings + PRODUCT_SETTINGS, written)
            said = [value_by_01(key, value) for key, value in zip(KEYS[4], ask_eccodes(written, 4))]
            payload = dict(split_message(written.read_bytes()))[4]
            yield agreed((when_where_request(payload, BY_MANUAL),
                          when_where_answer(said[WHEN], said[WHERE])),
                         when_where_pair(payload, BY_MANUAL))
            yield when_where_pair(payload, AS_CRATE)


def when_where_list(samples):
    """The last request names a reading that there is not."""
    pairs = [*when_where_by_hand(), *when_where_by_eccodes(samples)]
    for reading in READINGS:
        for template in boundary_templates():
            pairs += [when_where_pair(product_payload(template, 60, flip), reading)
                      for flip in (0, 0x80)]
        for template in one_template_of_each_layout():
            pairs += [when_where_pair(product_payload(template, n), reading)
                      for n in cut_lengths(template)]
    return pairs + [(when_where_request(LOCAL_TIME, 2), "bad")]


# File and what gribwalk prints of it: as documents 01 and 02 have it; a second message that is
# broken after a submessage; one octet too many, though the walk would end well.
GRIBWALK = {
    "gribwalk": (A, """\
sections 8 submessages 1 messages 1
0.0 0 1 - 2 3 4 5 6 7 0 86
end 0 0 0 0"""),
    "gribwalk_refused": (
        A + b"x" + message(least(1, 2, 3, 4, 5, 6, 7, 4) + section(9, b"") + END), """\
sections 17 submessages 2 messages 1
0.0 0 1 - 2 3 4 5 6 7 0 86
1.0 8 9 10 11 12 13 14 15 open 87 105
end 7 17 183 9"""),
    "gribwalk_long": (A.ljust(65537, b"\0"), "long"),
    # 65,536 octets, just as many as are walked, and a section more than the table has rows: 1 to 3,
    # then 511 submessages of four sections, and of the 512th a section 4. The message states 15,927
    # octets.
    "gribwalk_full": (
        whole(1, 3, *(4, 5, 6, 7) * 512).ljust(65536, b"\0"),
        "\n".join(["sections 2048 submessages 511 messages 0"]
                  + [f"0.{k} 0 1 - 2 {4 * k + 3} {4 * k + 4} {4 * k + 5} {4 * k + 6} open 0 15927"
                     for k in range(511)]
                  + [f"end 13 2048 {16 + 21 + 14 + 511 * 31 + 9} 0"]),
    ),
}


def check_gribwalk():
    for file, printed in GRIBWALK.values():
        if len(file) <= 65536:
            assert gribwalk_answer(reference.walk(file, row_room=2048, line_room=512)) == printed
        else:
            assert printed == "long"


def write_list(folder, pairs):
    requests = b"".join(request for request, _ in pairs)
    folder.mkdir(parents=True, exist_ok=True)
    (folder / "stdin").write_bytes(requests)
    (folder / "stdout").write_text("".join(answer + "\n" for _, answer in pairs))
    print(f"{folder.name}: {len(pairs)} answers, {len(requests)} octets of requests")
    return len(requests)


def main():
    options = argparse.ArgumentParser(description=__doc__.splitlines()[0])
    options.add_argument("--samples", type=Path, required=True, help="folder of eccodes' samples")
    options.add_argument("--out", type=Path, required=True, help="the repository's crates folder")
    given = options.parse_args()
    # A bad request ends its list: what is joined stands before it.
    lists = {
        "replay": (basic_list() + edges_list() + aerosols_list() + eccodes_list(given.samples)
                   + copy_list(given.samples)),
        "replay_walk": (walk_list() + tables_list() + pull_list() + missing_list() + carried_list()
                        + bad_list()),
        "replay_write": message_list(given.samples),
        "replay_write_edges": message_edges_list(),
        "replay_inventory": inventory_list(given.samples),
        "replay_offsets": offsets_list(),
        "replay_when_where": when_where_list(given.samples),
    }
    for name, pairs in lists.items():
        assert write_list(given.out / name, pairs) <= 262144, name
    assert write_list(given.out / "replay_long", long_list()) == 262145
    check_gribwalk()
    for name, pair in GRIBWALK.items():
        write_list(given.out / name, [pair])


if __name__ == "__main__":
    main()
