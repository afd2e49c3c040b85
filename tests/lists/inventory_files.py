"""The files and texts in the list of inventories, by what they try. The words are document 02's."""

from copy_files import FULL, FULL_PRODUCTS, FULL_STARTS
from inventory_by_02 import inventory
from walk_files import (A, A97, A117, CLEAN, END, MISSING, WITH_2, by_hand, cut_anywhere, least,
                        message, section, swept)

NONE = b"none:none:none:none:none\n"


def product(category, number, unit, time, surface, template=0):
    """A section 4 of template 0: category 4, number 5, unit 12, time 13 to 16, first surface 17."""
    octets = bytearray(29)
    octets[2:4] = template.to_bytes(2, "big")
    octets[4], octets[5], octets[12], octets[17] = category, number, unit, surface
    octets[13:17] = time.to_bytes(4, "big")
    return section(4, bytes(octets))


def field(*said, **more):
    """A message of one field that says this."""
    return message(least(1, 3) + product(*said) + least(5, 6, 7) + END, **more)


TWO_PRODUCTS = message(least(1, 3) + product(1, 8, 1, 6, 103) + least(5, 6, 7)
                       + product(2, 3, 1, 12, 100) + least(5, 6, 7) + END, discipline=10)
LARGEST = field(255, 255, 255, 2**32 - 1, 255, discipline=255)
ZEROS = field(0, 0, 0, 0, 0)
CUT_BEFORE_TIME = message(least(1, 3) + section(4, bytes(16)) + least(5, 6, 7) + END)
CUT_BEFORE_SURFACE = message(least(1, 3) + section(4, bytes(17)) + least(5, 6, 7) + END)
UNSUPPORTED = message(least(1, 3) + section(4, b"\0\0\xff\xff" + bytes(40)) + least(5, 6, 7) + END)


def text_of(*lines):
    return b"".join(line + b"\n" for line in lines)


# --- Inventories with answers written by hand ----------------------------------------------------

# File, octets of the buffer; outcome, place, offset, detail, written; the text.
def whole_text(file, text, *rooms):
    for room in rooms or (len(text), len(text) + 7):
        if room < len(text):
            yield file, room, "20 0 0 0 0", b""
        else:
            yield file, room, f"0 0 0 0 {len(text)}", text


def inventories_by_hand():
    two = b"0:0:1:0:" + NONE + b"0:1:1:0:" + NONE
    assert len(two) == 66
    # The offset of section 0 in each line, also where the message doesn't start the file.
    yield from whole_text(b"z" + A117, two, 66, 65, 0, 70, 262144)
    # No submessage: no octet, which fits anywhere.
    for file in (b"", b"GRIB", b"xyz", A[:15]):
        yield from whole_text(file, b"", 0, 3)
    # The line of the product in force, not of the next one.
    yield from whole_text(TWO_PRODUCTS, text_of(b"0:0:0:10:1:8:1:6:103", b"0:1:0:10:2:3:1:12:100"))
    # A 0 is no `none`; the largest numbers.
    yield from whole_text(ZEROS, text_of(b"0:0:0:0:0:0:0:0:0"))
    yield from whole_text(LARGEST, text_of(b"0:0:0:255:255:255:255:4294967295:255"))
    # Both surfaces or none, unit and time both or none, also where the payload has one of them.
    yield from whole_text(CUT_BEFORE_TIME, text_of(b"0:0:0:0:0:0:none:none:none"))
    yield from whole_text(CUT_BEFORE_SURFACE, text_of(b"0:0:0:0:0:0:0:0:none"))
    yield from whole_text(UNSUPPORTED, b"0:0:0:0:" + NONE)
    # A second message: its own number, submessages from 0 again, its own offset.
    last = b"0:0:0:0:" + NONE + b"1:0:88:10:1:8:1:6:103\n1:1:88:10:2:3:1:12:100\n"
    yield from whole_text(A + b"\r\n" + TWO_PRODUCTS, last, len(last), len(last) - 1)
    # Refused: nothing is written, also of the line that was completed; before 20.
    for room in (0, 66, 300):
        yield A97, room, "11 7 82 5 0", b""
        yield A + A97, room, "11 15 168 5 0", b""
    yield A[:84], 100, "2 7 82 2 0", b""
    yield message(b""), 100, "10 0 0 0 0", b""


def swept_inventories():
    """Every other file of the walks, each with room for its text; some with one octet less."""
    for file in (FULL, FULL_PRODUCTS, FULL_STARTS, WITH_2 + A117, TWO_PRODUCTS * 12):
        octets = len(inventory(file, 262144).octets)
        for room in {0, 1, octets - 1, octets, octets + 1}:
            yield file, room
    for place, file in enumerate([file for file, *_ in by_hand()] + swept()[::3]):
        octets = len(inventory(file, 262144).octets)
        yield file, octets
        if octets and place % 5 == 0:
            yield file, octets - 1


def inventories_of_cut_files():
    """How many octets are missing, before 20: files written by hand, every cut of A, and every
    fourth of three messages, where they are refused."""
    cuts_of_a, cuts_of_three = cut_anywhere()
    by_hand_too = [(file, end) for file, *_, end in MISSING]
    for file, end in dict.fromkeys(by_hand_too + cuts_of_a + cuts_of_three[::4]):
        if end != CLEAN:
            yield file, 2, end + " 0", b""


# --- Lists with answers written by hand ----------------------------------------------------------

LINE = b"0:0:0:0:1:8:1:0:103\n"
ENTRY = (0, 0, 0, 0, 1, 8, 1, 0, 103)
NONES = (0, 0, 0, 0, None, None, None, None, None)


def good(text, *entries):
    return text, len(entries), 0, 0, list(entries)


def not_in_form(*lines):
    """Each is the second line behind a good one."""
    for line in lines:
        yield LINE + line, 4, 21, 2, [ENTRY]


def lists_by_hand():
    yield b"", 0, 0, 0, []
    yield b"", 5, 0, 0, []
    yield good(LINE, ENTRY)
    yield good(b"0:0:0:0:" + NONE, NONES)
    yield LINE * 2, 5, 0, 0, [ENTRY] * 2
    # 21 before 14, and 14 where the form is good; its place, offset and detail are 0.
    yield LINE * 2 + b"\n", 2, 21, 3, [ENTRY] * 2
    yield LINE * 3, 2, 14, 0, [ENTRY] * 2
    yield LINE * 3 + b"x\n", 2, 14, 0, [ENTRY] * 2
    yield LINE, 0, 14, 0, []
    yield b"x\n", 0, 21, 1, []
    # An unclosed last line, and an empty line.
    yield LINE[:-1], 1, 21, 1, []
    yield LINE + LINE[:-1], 2, 21, 2, [ENTRY]
    yield LINE + LINE[:-1], 1, 21, 2, [ENTRY]
    yield b"\n", 1, 21, 1, []
    yield b"\n" * 40, 1, 21, 1, []
    yield LINE + b"\n" + LINE, 9, 21, 2, [ENTRY]
    # Only the form is asked: no file has these lines.
    yield good(b"7:3:0:1:none:8:1:0:none\n7:3:0:1:none:8:1:0:none\n2:0:0:0:1:none:none:none:5\n",
               (7, 3, 0, 1, None, 8, 1, 0, None), (7, 3, 0, 1, None, 8, 1, 0, None),
               (2, 0, 0, 0, 1, None, None, None, 5))
    # The largest numbers, and one more of each.
    yield good(b"1099511627776:1099511627776:1099511627776:255:255:255:255:4294967295:255\n",
               (2**40, 2**40, 2**40, 255, 255, 255, 255, 2**32 - 1, 255))
    yield from not_in_form(
        b"1099511627777:0:0:0:1:8:1:0:103\n", b"0:1099511627777:0:0:1:8:1:0:103\n",
        b"0:0:1099511627777:0:1:8:1:0:103\n", b"0:0:0:256:1:8:1:0:103\n",
        b"0:0:0:0:256:8:1:0:103\n", b"0:0:0:0:1:256:1:0:103\n", b"0:0:0:0:1:8:256:0:103\n",
        b"0:0:0:0:1:8:1:4294967296:103\n", b"0:0:0:0:1:8:1:0:256\n",
        b"18446744073709551616:0:0:0:1:8:1:0:103\n", b"18446744073709551617:0:0:0:1:8:1:0:103\n")
    # Leading zeros, signs, spaces, carriage returns, capitals, other octets.
    yield from not_in_form(
        b"00:0:0:0:1:8:1:0:103\n", b"0:0:0:0:01:8:1:0:103\n", b"0:0:0:0:1:8:1:0:0103\n",
        b" 0:0:0:0:1:8:1:0:103\n", b"0:0:0:0:1:8:1:0:103 \n", b"0:0:0:0:1:8:1:0: 103\n",
        b"+0:0:0:0:1:8:1:0:103\n", b"-0:0:0:0:1:8:1:0:103\n", b"0:0:0:0:1:8:1:0:103\r\n",
        b"0:0:0:0:None:8:1:0:103\n", b"0:0:0:0:NONE:8:1:0:103\n", b"0:0:0:0:nonE:8:1:0:103\n",
        b"0:0:0:0:non:8:1:0:103\n", b"0:0:0:0:nones:8:1:0:103\n", b"0:0:0:0:1none:8:1:0:103\n",
        b"0:0:0:0:1:8:1:0:none0\n", b"0:0:0:0:1:8:1:0:1x\n", b"0:0:0:0:1:8:1:0:/\n",
        b"0:0:0:0:1:8:1:0:\xb1\n", b"0:0:0:0:1:8:1:0:\xff\n", b"0:0:0:0:1:8:1:0:1\x00\n",
        "0:0:0:0:1:8:1:0:\u0661\n".encode(), b"\xef\xbb\xbf0:0:0:0:1:8:1:0:103\n")
    # Fields: empty, eight, ten, another separator.
    yield from not_in_form(
        b":0:0:0:1:8:1:0:103\n", b"0:0:0:0:1:8:1:0:\n", b"0:0:0:0:1::1:0:103\n",
        b"0:0:0:0:1:8:1:0\n", b"0:0:0:0:1:8:1:0:103:4\n", b"0:0:0:0:1:8:1:0:103:\n",
        b":::::::: \n", b"::::::::\n", b"0;0;0;0;1;8;1;0;103\n", b"0\n", b"0:0:0:0:1:8:1:0:103;\n")
    # `none` where it can't be, and unit and time not both.
    yield from not_in_form(
        b"none:0:0:0:1:8:1:0:103\n", b"0:none:0:0:1:8:1:0:103\n", b"0:0:none:0:1:8:1:0:103\n",
        b"0:0:0:none:1:8:1:0:103\n", b"0:0:0:0:1:8:none:0:103\n", b"0:0:0:0:1:8:1:none:103\n")
    # Any number of digits is one pass.
    yield b"9" * 100000 + b":0:0:0:1:8:1:0:103\n", 1, 21, 1, []
    yield LINE + b"0:0:0:0:1:8:1:0:" + b"1" * 5000 + b"\n", 3, 21, 2, [ENTRY]


def swept_lists():
    """Every octet in place of each octet of a line; every cut of two lines; every room."""
    for place in range(len(LINE)):
        for octet in (0, 9, 10, 13, 32, 43, 45, 47, 48, 49, 57, 58, 59, 78, 101, 110, 128, 178,
                      255):
            yield LINE[:place] + bytes([octet]) + LINE[place + 1:], 2
    two = b"12:34:56:78:none:none:none:none:none\n" + LINE
    for cut in range(len(two)):
        yield two[:cut], 2
    for room in range(6):
        yield LINE * 4, room
    yield b"".join(b"%d:%d:%d:%d:%d:%d:%d:%d:%d\n"
                   % (k, k * k, 7 * k, k % 256, k % 7, k % 11, k % 13, k * 9999, k % 254)
                   for k in range(512)), 512
    for text in (b"\0" * 9, bytes(range(256)), b"none\n", b":" * 500, b"0:" * 300 + b"\n"):
        yield text, 3
