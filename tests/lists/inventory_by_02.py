"""The text inventory and its reader by document 02, Ticket 1, read plainly: it says the answers
that the stored lists expect. Product templates are read by the Manual (Ticket 6).

Written from document 02, with the project's reading where 02 leaves two; it shares nothing with the
library. Words are 02's.
"""

import re

from fields_by_02 import fields_by_manual
from reference import Written, refused, walk

LARGEST_NUMBER, LARGEST_TIME, LARGEST_OCTET = 2**40, 2**32 - 1, 255

# The largest value of each of the nine fields, in their order.
LARGEST = [LARGEST_NUMBER] * 3 + [LARGEST_OCTET] * 4 + [LARGEST_TIME, LARGEST_OCTET]

NUMBER = rb"(?:0|[1-9][0-9]*)"
MAYBE = rb"(?:none|" + NUMBER + rb")"
LINE = re.compile(rb":".join([rb"(%s)" % NUMBER] * 4 + [rb"(%s)" % MAYBE] * 5))


# --- A file's inventory --------------------------------------------------------------------------

def entry_of(file, done, line):
    """The nine fields of a submessage, None for none."""
    product = done.rows[line.places[4]]
    payload = file[product.offset + 5:product.offset + product.length]
    fields = fields_by_manual(4, payload)
    category, number, _, unit, time, surface = fields[2:8]
    return (line.message, line.submessage, line.offset, file[line.offset + 6],
            category, number, unit, time, surface)


def line_of(entry):
    return b":".join(b"none" if field is None else b"%d" % field for field in entry) + b"\n"


def inventory(file, room):
    """The answer to a file, with a text buffer of so many octets."""
    done = walk(file)
    if done.outcome:
        return refused(done.outcome, done.place, done.offset, done.detail)
    text = b"".join(line_of(entry_of(file, done, line)) for line in done.lines)
    return refused(20) if len(text) > room else Written(0, 0, 0, 0, text)


# --- The reader of a list ------------------------------------------------------------------------

def entry_in(line):
    """The nine fields of a line without its line feed; None if it is not in this form."""
    said = LINE.fullmatch(line)
    if said is None:
        return None
    if (said[7] == b"none") != (said[8] == b"none"):
        return None
    # Digits without leading zeros: more of them are a larger number.
    if any(field != b"none" and len(field) > 13 for field in said.groups()):
        return None
    entry = tuple(None if field == b"none" else int(field) for field in said.groups())
    fits = all(field is None or field <= most for field, most in zip(entry, LARGEST))
    return entry if fits else None


def read_list(text, room):
    """Outcome, detail and the entries read, with a table of so many entries."""
    *lines, unclosed = text.split(b"\n")
    entries = []
    for number, line in enumerate(lines, start=1):
        entry = entry_in(line)
        if entry is None:
            return 21, number, entries
        if len(entries) == room:
            return 14, 0, entries
        entries.append(entry)
    return (21, len(lines) + 1, entries) if unclosed else (0, 0, entries)
