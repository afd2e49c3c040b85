"""The section walk, the public copy and the writer by documents 01 and 02, read plainly: it says
the answers that the stored lists expect.

Written from the documents, with the project's reading where they leave two; it shares nothing with
the library. Headings and words are 01's. 02 says how many octets are missing of a section that is
cut (its Ticket 2), and what a line has in place of 01's zero and behind its places (its Ticket 7).
"""

from math import inf
from typing import NamedTuple, Optional

# --- Framing -------------------------------------------------------------------------------------

LARGEST_FILE = 2**40
LEAST = {1: 16, 2: 0, 3: 9, 4: 4, 5: 6, 6: 1, 7: 0}


class Section(NamedTuple):
    number: int
    offset: int
    length: int


class InputOver(Exception):
    """The input is over. Whether that is a clean end or 10 is for the order to say."""


class Unread(Exception):
    """The section in hand can't be read: one of the refusals 2 to 9. The detail of 2 is the count
    of missing octets."""

    def __init__(self, outcome, offset, detail=0):
        super().__init__(outcome, offset, detail)
        self.outcome, self.offset, self.detail = outcome, offset, detail


def unsigned(octets):
    return int.from_bytes(octets, "big")


def stated_total(file, start):
    """The total length of a message, as its section 0 states it."""
    return unsigned(file[start + 8:start + 16])


def read_section_0(file, at):
    """The next message's section 0, and its total length."""
    start = file.find(b"GRIB", at)
    # The first "GRIB" has the most octets behind it: if it has too few, so have all others.
    if start < 0 or len(file) - start < 16:
        raise InputOver
    edition, total = file[start + 7], stated_total(file, start)
    if edition != 2:
        raise Unread(3, start, edition)
    if total < 16:
        raise Unread(4, start)
    return Section(0, start, 16), total


def read_section_8(file, at):
    octets = file[at:at + 4]
    if not octets:
        raise InputOver
    if len(octets) < 4:
        raise Unread(2, at, 4 - len(octets))
    if octets != b"7777":
        raise Unread(5, at)
    return Section(8, at, 4)


def payload_cut(number, payload, left):
    """Section 7 is skipped unread; section 6 wants its first octet even of an empty payload."""
    if number == 7:
        return False
    return left < (max(payload, 1) if number == 6 else payload)


def missing_of_payload(file, at, number, length):
    """Of a payload that is cut: its stated end less the file's length, and 1 for a section 6 of
    length 5, whose stated end is the file's."""
    if (number, length) == (6, 5):
        return 1
    stated_end = at + length
    return stated_end - len(file)


def read_section_1_to_7(file, at, rest):
    header = file[at:at + 5]
    if not header:
        raise InputOver
    if len(header) < 5:
        raise Unread(2, at, 5 - len(header))
    length, number = unsigned(header[:4]), header[4]
    if length < 5:
        raise Unread(6, at, length)
    if number not in LEAST:
        raise Unread(7, at, number)
    payload = length - 5
    if payload_cut(number, payload, left=len(file) - (at + 5)):
        raise Unread(2, at, missing_of_payload(file, at, number, length))
    if payload < LEAST[number]:
        raise Unread(8, at, payload)
    if length > rest:
        raise Unread(9, at, length)
    return Section(number, at, length)


def well_read_sections(file):
    """Each well-read section in turn. They end by InputOver or Unread, never by themselves."""
    at, rest = 0, 0
    while True:
        if rest == 0:
            section, rest = read_section_0(file, at)
        elif rest == 4:
            section = read_section_8(file, at)
        else:
            section = read_section_1_to_7(file, at, rest)
        yield section
        at = section.offset + section.length
        rest -= section.length


# --- Order ---------------------------------------------------------------------------------------

MESSAGE_START, SUBMESSAGE_START = "message start", "submessage start"

# The numbers that can come next, by the number before them or by what is about to start.
CAN_COME = {MESSAGE_START: {0}, 0: {1}, 1: {2, 3}, 2: {3}, 3: {4}, 4: {5}, 5: {6}, 6: {7}, 7: {8},
            SUBMESSAGE_START: {2, 3, 4}}


class Line(NamedTuple):
    message: int
    submessage: int
    places: tuple       # of sections 0 to 7; None for no section 2
    end: Optional[int]  # the place of section 8; None for "goes on"
    offset: int         # of its message
    total: int          # length of its message


def line_words(line):
    """What `gribwalk` prints of a submessage."""
    places = " ".join("-" if place is None else str(place) for place in line.places)
    end = "open" if line.end is None else line.end
    return f"{line.message}.{line.submessage} {places} {end} {line.offset} {line.total}"


class Walk:
    """What is stored after some sections, and where in the order the last of them stands."""

    def __init__(self, file, row_room, line_room):
        self.file, self.row_room, self.line_room = file, row_room, line_room
        self.rows, self.lines, self.messages = [], [], 0
        self.outcome, self.place, self.offset, self.detail = 0, 0, 0, 0
        self.start_message()

    def start_message(self):
        self.after = MESSAGE_START
        self.submessage = 0
        self.in_force = [None] * 9      # places of the message's sections, by number

    def take(self, section):
        """Lists a well-read section and answers 0; or answers the refusal, 11 to 14."""
        closing = self.after == 7 and section.number == 8
        if self.after == 7 and not closing:
            if len(self.lines) == self.line_room:
                return 14
            self.complete_submessage(None)
            self.after = SUBMESSAGE_START
        if section.number not in CAN_COME[self.after]:
            return 12 if (self.after, section.number) == (1, 4) else 11
        if len(self.rows) == self.row_room:
            return 13
        if closing and len(self.lines) == self.line_room:
            return 14
        self.list_section(section)
        return 0

    def list_section(self, section):
        place = len(self.rows)
        self.rows.append(section)
        self.in_force[section.number] = place
        self.after = section.number
        if section.number == 8:
            self.complete_submessage(place)
            self.messages += 1
            self.start_message()

    def complete_submessage(self, end):
        start = self.rows[self.in_force[0]].offset
        self.lines.append(Line(self.messages, self.submessage, tuple(self.in_force[:8]), end,
                               start, stated_total(self.file, start)))
        self.submessage += 1

    def refuse(self, outcome, place, offset, detail=0):
        self.outcome, self.place, self.offset, self.detail = outcome, place, offset, detail


def walk(file, row_room=inf, line_room=inf):
    """The answer to a file, with tables that have room for so many rows and lines."""
    done = Walk(file, row_room, line_room)
    if len(file) > LARGEST_FILE:
        done.refuse(1, 0, 0)
        return done
    try:
        for section in well_read_sections(file):
            refusal = done.take(section)
            if refusal:
                detail = section.number if refusal in (11, 12) else 0
                done.refuse(refusal, len(done.rows), section.offset, detail)
                break
    except Unread as unread:
        done.refuse(unread.outcome, len(done.rows), unread.offset, unread.detail)
    except InputOver:
        if done.after != MESSAGE_START:
            done.refuse(10, len(done.rows) - 1, done.rows[-1].offset)
    return done


# --- The pull reader -----------------------------------------------------------------------------

def pull(file):
    """What one call after another answers: a word and its numbers. It never runs dry."""
    done = walk(file)
    for section in done.rows:
        yield ("passed", *section)
    if done.outcome:
        yield "refused", done.outcome, done.place, done.offset, done.detail
    while True:
        yield ("ended",)


# --- Values octets and the public copy -----------------------------------------------------------

# The first values octet of each kind that has any, counted from 1 in the section.
FIRST_VALUES_OCTET = {2: 6, 5: 12, 6: 7, 7: 6}


class Written(NamedTuple):
    """What the copy and the writer answer, and the octets that they write from the destination's
    start on: none on a refusal."""
    outcome: int
    place: int
    offset: int
    detail: int
    octets: bytes


def refused(outcome, place=0, offset=0, detail=0):
    return Written(outcome, place, offset, detail, b"")


def values_octets(file, section):
    """Where a listed section's values octets stand, inside the file."""
    if section.number not in FIRST_VALUES_OCTET:
        return range(0)
    first = section.offset + FIRST_VALUES_OCTET[section.number] - 1
    return range(first, min(section.offset + section.length, len(file)))


def message_octets(file, section_0):
    """Where a closed message's octets stand: as many from its G on as its total length says."""
    start = section_0.offset
    return range(start, start + stated_total(file, start))


def blanked(file, sections):
    """The file with its values octets and every octet outside a message set to zero."""
    kept = set()
    for section in sections:
        if section.number == 0:
            kept.update(message_octets(file, section))
    for section in sections:
        kept.difference_update(values_octets(file, section))
    return bytes(octet if place in kept else 0 for place, octet in enumerate(file))


def public_copy(file, room):
    """The answer to a file, with a destination of so many octets."""
    if len(file) > LARGEST_FILE:
        return refused(1)
    if room < len(file):
        return refused(19)
    done = walk(file)
    if done.outcome:
        return refused(done.outcome, done.place, done.offset, done.detail)
    return Written(0, 0, 0, 0, blanked(file, done.rows))


# --- The writer ----------------------------------------------------------------------------------

MOST_SECTIONS = 4096
LARGEST_PAYLOAD = 4_294_967_290
LARGEST_MESSAGE = 2**40


class Part(NamedTuple):
    """A section of a plan: its number, and the part of the store that is its payload."""
    number: int
    offset: int
    length: int


class Plan(NamedTuple):
    discipline: int
    reserved: bytes
    parts: tuple
    store: bytes


def first_misfit(numbers):
    """The first place whose number isn't 1 to 7 or can't come next; how many there are if only the
    8 misfits; None if the numbers, with 0 before and 8 after, are one message."""
    after = 0
    for place, number in enumerate(numbers):
        next_numbers = CAN_COME[SUBMESSAGE_START if after == 7 else after]
        if not 1 <= number <= 7 or number not in next_numbers:
            return place
        after = number
    return None if 8 in CAN_COME[after] else len(numbers)


def outside_store(part, store):
    return part.offset + part.length > len(store)


def wrong_size(part, _):
    return not LEAST[part.number] <= part.length <= LARGEST_PAYLOAD


def total_length(plan):
    return 16 + sum(part.length + 5 for part in plan.parts) + 4


def fault_in_plan(plan):
    """The first of the refusals 15 to 18 that is due, and its detail; None if none is."""
    if len(plan.parts) > MOST_SECTIONS:
        return 15, 0
    misfit = first_misfit([part.number for part in plan.parts])
    if misfit is not None:
        return 16, misfit
    for outcome, at_fault in ((17, outside_store), (18, wrong_size)):
        for place, part in enumerate(plan.parts):
            if at_fault(part, plan.store):
                return outcome, place
    return None


def framed(plan):
    """The message that the plan says."""
    start = b"GRIB" + plan.reserved + bytes([plan.discipline, 2])
    octets = [start, total_length(plan).to_bytes(8, "big")]
    for part in plan.parts:
        octets += [(part.length + 5).to_bytes(4, "big"), bytes([part.number]),
                   plan.store[part.offset:part.offset + part.length]]
    return b"".join(octets) + b"7777"


def write_message(plan, room):
    """The answer to a plan, with a destination of so many octets."""
    fault = fault_in_plan(plan)
    if fault:
        outcome, detail = fault
        return refused(outcome, detail=detail)
    if room < total_length(plan) or total_length(plan) > LARGEST_MESSAGE:
        return refused(19)
    return Written(0, 0, 0, 0, framed(plan))
