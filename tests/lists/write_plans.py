"""The plans in the lists of written messages, each with how many octets its destination has, by
what they try. The words are document 01's."""

from copy_files import FILE, loaded
from reference import LEAST, Part, Plan, total_length
from walk_files import A, A117, END, FIRST, SEQUENCES

# --- Making plans --------------------------------------------------------------------------------

STORE = loaded(60)
STARTS = [(2, 3, 4, 5, 6, 7), (3, 4, 5, 6, 7), (4, 5, 6, 7)]    # of a submessage, to its end


def plan(parts, store=STORE, discipline=209, reserved=b"\x1f\x2f"):
    return Plan(discipline, reserved, tuple(Part(*part) for part in parts), store)


def apart(*numbers, more=0):
    """Each payload has a part of its own, one behind the other, so many octets above its least."""
    parts, end = [], 0
    for number in numbers:
        parts.append((number, end, LEAST[number] + more))
        end += LEAST[number] + more
    return plan(parts, loaded(end))


def together(*numbers):
    """Least payloads, all from the store's start; a number without a least has an empty one."""
    return plan([(number, 0, LEAST.get(number, 0)) for number in numbers], loaded(16))


def changed(old, place, **change):
    """The plan with another number, offset or length at a place."""
    parts = list(old.parts)
    parts[place] = parts[place]._replace(**change)
    return old._replace(parts=tuple(parts))


def exact(good):
    """The plan, and room for just its message."""
    return good, total_length(good)


# --- Plans as long as they may be ----------------------------------------------------------------

def long_numbers(count):
    """The first so many numbers of one message; the 4,096th ends a submessage."""
    numbers = (1, *STARTS[1]) + (STARTS[2] + STARTS[1] + STARTS[0]) * 272 + STARTS[1] * 2
    return numbers[:count]


def longest():
    """4,096 sections. Parts and sizes change from place to place, so that a mix-up shows."""
    return exact(plan([(number, place % 7, LEAST[number] + place % 17)
                       for place, number in enumerate(long_numbers(4096))]))


def only_the_8_misfits():
    """4,096 sections that end in a 6."""
    numbers = (1, 2) + long_numbers(4095)[1:]
    return together(*numbers), 40


def one_too_many():
    """4,097 sections, with faults for each later check: the order, offset, length and room."""
    return plan([(1, 61, 0)] * 4097), 0


# --- Plans with answers written by hand ----------------------------------------------------------

# The payloads of FILE one behind the other, and where each stands.
PAYLOADS = bytes.fromhex("1112131415161718191a1b1c1d1e1f202122 313233 414243444546474849 5152535455"
                         "616263646566676869 71727374 8182838485")
PARTS = [(1, 0, 18), (2, 18, 3), (3, 21, 9), (4, 30, 5), (5, 35, 9), (6, 44, 4), (7, 48, 5)]
GOOD = plan(PARTS, PAYLOADS, 0x0a, b"\xf1\xf2")

# FILE without the payload of its section 7.
EMPTY_7 = (FILE[:8] + bytes.fromhex("0000000000000067") + FILE[16:94]
           + bytes.fromhex("00000005 07 37373737"))

ZEROS = [(1, 0, 16), (3, 0, 9), (4, 0, 4), (5, 0, 6), (6, 0, 1), (7, 0, 0)]


def of_zeros(parts):
    """Every payload is of zeros, and so are discipline and reserved octets, as in 01's samples."""
    return plan(parts, bytes(16), 0, b"\0\0")


# Plan; room; the octets written.
MESSAGES = [
    (GOOD, 108, FILE),
    (GOOD, 109, FILE),
    (GOOD, 300, FILE),
    (of_zeros(ZEROS), 86, A),
    (of_zeros(ZEROS), 90, A),
    (of_zeros(ZEROS + ZEROS[2:]), 117, A117),
    # Nothing of the store is wanted, at its start, at its end.
    (changed(GOOD, 6, offset=0, length=0), 103, EMPTY_7),
    (changed(GOOD, 6, offset=53, length=0), 103, EMPTY_7),
]

# What the crate frames, having no grid or no product somewhere, and the place that misfits.
NO_GRID_OR_PRODUCT = [
    ((1,), 1), ((1, 2), 2), ((1, 2, 2), 2), ((1, 3), 2), ((1, 2, 3), 3), ((1, 3, 3), 2),
    ((1, 3, 3, 4, 5, 6, 7), 2), ((1, 2, 2, 3, 4, 5, 6, 7), 2), ((1, 2, 3, 2, 3, 4, 5, 6, 7), 3),
    ((*FIRST, 2), 7), ((*FIRST, 3), 7), ((*FIRST, 3, 3, 4, 5, 6, 7), 7),
    ((*FIRST, 2, 2, 3, 4, 5, 6, 7), 7),
]

# Plan; room; outcome and detail.
FAULTS = [
    (plan([], b""), 0, "16 0"),
    (plan([]), 20, "16 0"),
    (together(*FIRST, 8), 86, "16 6"),
    (together(0, *FIRST), 86, "16 0"),
    (together(*FIRST, 2, 4, 5, 6, 7), 200, "16 7"),
    (changed(GOOD, 0, number=257), 108, "16 0"),
    (changed(GOOD, 6, number=263), 108, "16 6"),
    (changed(GOOD, 0, offset=2**64 - 1, length=18), 108, "17 0"),
    (changed(GOOD, 3, offset=2**64 - 1, length=1), 108, "17 3"),
    (changed(GOOD, 6, offset=49), 108, "17 6"),
    (changed(GOOD, 6, offset=54, length=0), 108, "17 6"),
    (changed(GOOD, 6, length=4_294_967_291), 108, "17 6"),
    (changed(GOOD, 0, length=15), 108, "18 0"),
    (changed(GOOD, 5, length=0), 108, "18 5"),
    (GOOD, 107, "19 0"),
    (GOOD, 0, "19 0"),
    # Each check is over the whole plan before the next.
    (changed(changed(GOOD, 0, offset=54), 6, number=5), 108, "16 6"),
    (changed(changed(GOOD, 0, length=15), 6, offset=54), 108, "17 6"),
    (changed(changed(GOOD, 0, length=15), 2, length=8), 0, "18 0"),
]


def refusals(cases):
    """Plan; room; outcome, place, offset, detail, octets written; no octets."""
    for bad, room, fault in cases:
        outcome, detail = fault.split()
        yield bad, room, f"{outcome} 0 0 {detail} 0", b""


def messages_by_hand():
    """Plan; room; outcome, place, offset, detail, octets written; the octets written."""
    shapes = [(together(*numbers), 200, f"16 {misfit}") for numbers, misfit in NO_GRID_OR_PRODUCT]
    written = [(good, room, f"0 0 0 0 {len(octets)}", octets) for good, room, octets in MESSAGES]
    return written + list(refusals(shapes + [(*only_the_8_misfits(), "16 4096")]))


def faults_by_hand():
    return list(refusals(FAULTS + [(*one_too_many(), "15 0")]))


# --- Messages ------------------------------------------------------------------------------------

def shapes():
    """One, two and three submessages, every start of one after every other."""
    for first in STARTS[:2]:
        yield exact(apart(1, *first))
        for second in STARTS:
            yield exact(apart(1, *first, *second, more=1))
            for third in STARTS:
                yield exact(together(1, *first, *second, *third))


def parts_of_the_store():
    """In any order, overlapping, used twice, or only a few octets of a longer store."""
    good = apart(1, 2, 3, 4, 5, 6, 7, more=3)
    size = len(good.store)
    yield exact(plan([(number, size - offset - length, length)
                      for number, offset, length in good.parts], good.store))
    yield exact(plan([(number, 0, size) for number, *_ in good.parts], good.store))
    yield exact(plan([(number, 5 * number, LEAST[number] + 2) for number in LEAST]))
    yield exact(plan([(number, 60 - LEAST[number], LEAST[number]) for number in LEAST]))
    for offset in (0, 1, 59, 60):
        yield exact(plan([(number, 0, LEAST[number]) if LEAST[number] else (number, offset, 0)
                          for number in LEAST]))
    for octets in (b"GRIB" * 4, END * 4, A, b"\xff" * 20, bytes(20)):
        yield exact(plan([(number, 0, len(octets)) for number in LEAST], octets))


def sizes_of_payloads():
    """Each kind at its least, one above, and where its length takes another octet."""
    for place, number in enumerate(LEAST):
        for length in (LEAST[number], LEAST[number] + 1, 250, 251, 300):
            yield exact(changed(together(*LEAST)._replace(store=loaded(300)), place, length=length))
    yield exact(plan([(number, 0, LEAST[number]) for number in range(1, 7)] + [(7, 3, 65531)],
                     loaded(65534)))


def payloads_under_least():
    """Each kind one under its least and empty, in a first and a later submessage; two at once."""
    good = together(*LEAST, *STARTS[0])
    room = total_length(good)
    for place, part in enumerate(good.parts):
        for length in sorted({0, max(part.length - 1, 0)}):
            yield changed(good, place, length=length), room
    for first, second in ((0, 2), (2, 12), (4, 5), (5, 11)):
        yield changed(changed(good, second, length=0), first, length=0), room


def section_0():
    """Any discipline and any reserved octets."""
    for octets in (b"\0\xff\xff", b"\xff\0\0", b"\2\1\0", b"BRI", b"\1\0\2"):
        yield exact(together(*FIRST)._replace(discipline=octets[0], reserved=octets[1:]))


def destinations():
    """From no room to more than enough; a wrong plan is refused as such in any of them."""
    for good in (together(*FIRST), apart(1, *STARTS[0], *STARTS[1], *STARTS[2], more=2)):
        total = total_length(good)
        for room in (0, 1, 15, 16, total - 4, total - 1, total, total + 1, total + 100):
            yield good, room
            yield changed(good, 0, number=2), room
    for room in (0, 19, 20, 21, 100):
        yield plan([], b""), room


def orders():
    """Every number 0 to 9 after one sequence up to each place in the order."""
    for numbers in SEQUENCES:
        yield exact(together(*numbers))
        for number in range(10):
            yield exact(together(*numbers, number))


# --- Refused plans -------------------------------------------------------------------------------

# Numbers that aren't 1 to 7; and what a section's number is added to, so that it comes out again if
# the sum is cut to fewer bits.
NO_SECTION = [0, 8, 9, 255, 256, 2**32, 2**63, 2**64 - 1]
BEYOND = [256, 512, 2**16, 2**32, 2**63, 2**64 - 256]


def numbers_at_each_place():
    """A number that isn't 1 to 7, one that would be if it were cut, and one that can't come."""
    good = together(1, 2, 3, 4, 5, 6, 7, 4, 5, 6, 7)
    for place, part in enumerate(good.parts):
        room = total_length(good)
        for number in NO_SECTION[place % 2::2]:
            yield changed(good, place, number=number), room
        for beyond in BEYOND[place % 2::2]:
            yield changed(good, place, number=beyond + part.number), room
        yield changed(good, place, number=1 if part.number > 2 else 5), room
    for rest in ((8,), (8, 0, *FIRST), (8, 8), (0,), (0, *FIRST), (1, 9), (9, 1), (7, 0)):
        yield exact(together(*FIRST, *rest))


# Offset and length of parts that leave a store of 60 octets. In 64 bits some of the sums are small.
OUTSIDE = [(61, 0), (60, 1), (0, 61), (45, 16), (2**32, 16), (16, 2**32), (2**32 + 1, 16),
           (0, 2**32 + 16), (2**63, 16), (2**63, 2**63), (1, 2**64 - 1), (2**64 - 1, 0),
           (2**64 - 1, 1), (2**64 - 1, 17), (2**64 - 16, 16), (2**64 - 16, 32),
           (2**64 - 1, 2**64 - 1), (0, 4_294_967_290), (0, 4_294_967_291)]


def parts_outside():
    """At the first, at a middle and at the last place; at two of them; in an empty store."""
    good = plan([(number, 0, LEAST[number]) for number in LEAST])
    room = total_length(good)
    for offset, length in OUTSIDE:
        for place in (0, 3, 6):
            yield changed(good, place, offset=offset, length=length), room
    for place in (1, 2, 4, 5):
        yield changed(good, place, offset=61), room
    for first, second in ((0, 1), (2, 6), (5, 6)):
        yield changed(changed(good, second, offset=61), first, offset=62), room
    yield good._replace(store=b""), room
    yield good._replace(store=loaded(15)), room
    empty = plan([(number, 0, 0) for number in LEAST], b"")
    yield empty, room
    yield changed(empty, 6, offset=1), room


def faulty(good, outcome, place):
    """The plan with a fault for the outcome at the place."""
    if outcome == 16:
        return changed(good, place, number=9)
    if outcome == 17:
        return changed(good, place, offset=len(good.store) + 1)
    return changed(good, place, length=LEAST[good.parts[place].number] - 1)


def two_faults():
    """16 to 18, each with each: either one first, and both in one place; and all with 19."""
    good = together(*LEAST, *STARTS[2])
    room = total_length(good)
    for first in (16, 17, 18):
        for place in (0, 4, 9):
            yield faulty(good, first, place), 0
            yield faulty(good, first, place), room - 40
        for second in range(first + 1, 19):
            for one, other in ((9, 0), (0, 9), (4, 3), (3, 4), (5, 5)):
                yield faulty(faulty(good, second, other), first, one), room
    for places in ((9, 4, 0), (0, 4, 9), (4, 0, 9), (3, 3, 3)):
        three = good
        for outcome, place in zip((18, 17, 16), reversed(places)):
            three = faulty(three, outcome, place)
        yield three, 0


# --- The lists' plans ----------------------------------------------------------------------------

def each_once(cases):
    """The plans and rooms without an answer written by hand."""
    wanted = dict.fromkeys(cases)
    for known, room, *_ in messages_by_hand() + faults_by_hand():
        wanted.pop((known, room), None)
    return list(wanted)


def swept_messages():
    groups = [shapes, parts_of_the_store, sizes_of_payloads, payloads_under_least, section_0,
              destinations, orders]
    return each_once(case for group in groups for case in group())


def swept_faults():
    groups = [numbers_at_each_place, parts_outside, two_faults]
    return each_once([case for group in groups for case in group()] + [longest()])
