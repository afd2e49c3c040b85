"""The files in the list of public copies, each with how many octets its destination has, by what
they try. The words are 01's and 02's."""

from reference import LEAST
from walk_files import (A, CLEAN, END, MISSING, NEARLY_GRIB, before, cut_anywhere, least, message,
                        section, swept)
from walk_files import by_hand as walks_by_hand

# --- Making files --------------------------------------------------------------------------------

BEFORE = b"\xa5"                # each octet of the destination before the call
LARGEST_ROOM = 262144


def loaded(size, start=0):
    """Octets unlike zero and unlike the destination's: a blanked and an unwritten one show."""
    return bytes(1 + (37 * place + start) % 163 for place in range(size))


def full(number, size=None):
    """A section with a payload of so many loaded octets; 7 above its least if no size is given."""
    return section(number, loaded(LEAST[number] + 7 if size is None else size, 11 * number))


def full_message(*numbers):
    body = b"".join(full(number) for number in numbers)
    return message(body + END, reserved=b"\x1f\x2f", discipline=209)


FULL = full_message(1, 2, 3, 4, 5, 6, 7)
FULL_PRODUCTS = full_message(1, 3, 4, 5, 6, 7, 4, 5, 6, 7, 4, 5, 6, 7)
FULL_STARTS = full_message(1, 2, 3, 4, 5, 6, 7, 4, 5, 6, 7, 3, 4, 5, 6, 7, 2, 3, 4, 5, 6, 7)


# --- Files with answers written by hand ----------------------------------------------------------

# The octets of each section, and what they are in the public copy if that differs.
LAID_OUT = [
    ("47524942 f1f2 0a 02 000000000000006c", None),
    ("00000017 01 1112131415161718191a1b1c1d1e1f20 2122", None),
    ("00000008 02 313233", "00000008 02 000000"),
    ("0000000e 03 414243444546474849", None),
    ("0000000a 04 51525354 55", None),
    ("0000000e 05 616263646566 676869", "0000000e 05 616263646566 000000"),
    ("00000009 06 71 727374", "00000009 06 71 000000"),
    ("0000000a 07 8182838485", "0000000a 07 0000000000"),
    ("37373737", None),
]
FILE = bytes.fromhex("".join(octets for octets, _ in LAID_OUT))
COPY = bytes.fromhex("".join(copied or octets for octets, copied in LAID_OUT))

A_IN_7 = message(least(1, 3, 4, 5, 6) + section(7, A) + END)
A_IN_7_COPY = message(least(1, 3, 4, 5, 6) + section(7, bytes(86)) + END)

# File; room; outcome, place, offset, detail, octets written; the octets written.
COPIES = [
    (FILE, 108, "0 0 0 0 108", COPY),
    (FILE, 109, "0 0 0 0 108", COPY),
    (FILE, 200, "0 0 0 0 108", COPY),
    (A, 86, "0 0 0 0 86", A),
    (COPY, 108, "0 0 0 0 108", COPY),
    (FILE + A + FILE, 302, "0 0 0 0 302", COPY + A + COPY),
    (b"GRI" + FILE + b"xyz" + FILE + b"GRIB", 226, "0 0 0 0 226",
     bytes(3) + COPY + bytes(3) + COPY + bytes(4)),
    (A_IN_7, 172, "0 0 0 0 172", A_IN_7_COPY),
    (b"", 0, "0 0 0 0 0", b""),
    (b"", 2, "0 0 0 0 0", b""),
    (b"G", 1, "0 0 0 0 1", b"\0"),
    (A[:15], 15, "0 0 0 0 15", bytes(15)),
    (A[:15], 17, "0 0 0 0 15", bytes(15)),
]

NOT_COPIED = [
    (FILE, 107, "19 0 0 0 0"),
    (FILE, 0, "19 0 0 0 0"),
    (A[:15], 14, "19 0 0 0 0"),
    # The second message is refused: the first isn't copied either.
    (FILE + message(b"", edition=3), 124, "3 9 108 3 0"),
    (FILE + message(b"", total=15), 124, "4 9 108 0 0"),
    (FILE + FILE[:-1] + b"8", 216, "5 17 212 0 0"),
    # Cut before section 8, in section 7 (which is listed), before and in section 6.
    (FILE[:104], 104, "10 7 94 0 0"),
    (FILE[:100], 100, "10 7 94 0 0"),
    (FILE[:94], 94, "10 6 85 0 0"),
    (FILE[:93], 93, "2 6 85 1 0"),
    (FILE + b"--" + FILE[:100], 210, "10 16 204 0 0"),
]


def refused_walks():
    """The refused files with a walk written by hand: with room for a copy, and one octet short."""
    for file, *_, end in walks_by_hand():
        if end != "0 0 0 0":
            yield file, len(file), end + " 0"
            yield file, len(file) + 3, end + " 0"
            yield file, len(file) - 1, "19 0 0 0 0"


def by_hand():
    return COPIES + [(*case, b"") for case in NOT_COPIED + list(refused_walks())]


def of_cut_files():
    """How many octets are missing, with room for a copy: files written by hand, and every 12th cut
    of three messages, where they are refused."""
    _, cuts_of_three = cut_anywhere()
    for file, end in [(file, end) for file, *_, end in MISSING] + cuts_of_three[::12]:
        if end != CLEAN:
            yield file, len(file), end + " 0", b""


# --- Which octets are blanked --------------------------------------------------------------------

def sizes_of_a_section():
    """Each kind with its least payload and more, in a first and in a later submessage."""
    for number in LEAST:
        for more in (0, 1, 2, 20):
            special = full(number, LEAST[number] + more)
            behind = b"".join(full(other) for other in range(max(number, 2) + 1, 8))
            yield message(least(*before(number)) + special + behind + END)
            if number in (2, 3, 4):
                yield message(least(1, 3, 4, 5, 6, 7) + special + behind + END)
            elif number > 4:
                start = least(1, 3, 4, 5, 6, 7, *range(4, number))
                yield message(start + special + behind + END)


def words_in_payloads():
    """Nothing is searched in a message: as values octets these are blanked, else they stay."""
    for octets in (b"GRIB", END, A, FULL):
        for number in LEAST:
            behind = b"".join(full(other) for other in range(max(number, 2) + 1, 8))
            for payload in (octets.ljust(LEAST[number], b"~"), loaded(LEAST[number]) + octets):
                yield message(least(*before(number)) + section(number, payload) + behind + END)


def several():
    """Messages and submessages one behind the other."""
    yield from (FULL, FULL_PRODUCTS, FULL_STARTS)
    yield FULL * 3
    yield FULL_STARTS + FULL + FULL_PRODUCTS
    yield A + FULL + A
    yield message(least(1, 3, 4, 5, 6) + section(7, loaded(65600)) + END)


def outside_messages():
    """Before, between and after; a "GRIB" with 16 octets is a section 0, with fewer it is none."""
    for octets in NEARLY_GRIB + [loaded(1), loaded(40), END * 3, A[16:], FULL[1:]]:
        yield octets + FULL
        yield FULL + octets + FULL_PRODUCTS
        yield FULL + octets
        yield octets
    for left in range(1, 16):
        yield FULL + FULL[:left]
        yield loaded(3) + FULL + loaded(2) + FULL[:left]
    yield loaded(40)[:20] + FULL + loaded(9) + A + END + FULL_STARTS + b"\nGRI"


# --- Destinations --------------------------------------------------------------------------------

def rooms():
    """From no room to more than enough, for clean and for refused files."""
    broken = FULL + message(b"", edition=1)
    for file in (FULL, b"xyz" + FULL + b"GRIB", A, broken, FULL[:-1], FULL[:-4], loaded(40)):
        for room in (0, 1, len(file) - 1, len(file), len(file) + 1, len(file) + 150):
            yield file, room
    for room in (0, 1, 16, 100):
        yield b"", room
    yield FULL, LARGEST_ROOM


def short_files():
    """Under 16 octets there is no message, and nothing is refused but a short destination."""
    for length in range(1, 17):
        for file in (FULL[:length], loaded(length)):
            for room in (length - 1, length, length + 1):
                yield file, room


# --- Refused files -------------------------------------------------------------------------------

def refused_later():
    """After a clean message, and after one with octets before and behind it."""
    for file, *_, end in walks_by_hand():
        if end != "0 0 0 0":
            yield FULL + file
            yield b"GRI" + FULL + b"xyz" + file


def cut():
    """A message with values cut at every octet; section 7 is listed wherever it is cut."""
    for length in range(16, len(FULL)):
        yield FULL[:length]
    for left in range(1, 13):
        yield FULL + FULL[:-4][:-left]


# --- The list's files ----------------------------------------------------------------------------

def swept_copies():
    """Every file and room without an answer written by hand, once each."""
    groups = [sizes_of_a_section, words_in_payloads, several, outside_messages, refused_later, cut]
    files = [file for group in groups for file in group()] + swept()[::3]
    wanted = dict.fromkeys([(file, len(file)) for file in files] + [*rooms(), *short_files()])
    for file, room, *_ in by_hand():
        wanted.pop((file, room), None)
    return list(wanted)
