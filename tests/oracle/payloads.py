"""Payloads and signed numbers by themselves: lengths and templates that a listed section seldom
has, and what tells the offsets of a template."""

import random

from fields_by_01 import PRODUCT_START
from reference import LEAST

LEAST_OCTETS = {0: 16} | {number: LEAST[number] for number in (1, 3, 4, 5, 6)}
LONGEST = 66            # beyond the last field of every template

# The crate's words where it makes no section of a payload.
NO_SECTION = "SectionSizeTooSmall", "UnexpectedEndOfData", "ReadError"


def all_fields(seed):
    """(section number, payload)."""
    rng = random.Random(f"{seed} fields")

    def octets(length):
        return bytes(rng.choices(range(256), k=length))

    def indicator(length):
        # Edition 2: the crate's decoder refuses another, ours leaves that to the framing.
        return (octets(7) + b"\2" + octets(length))[:length]

    # The supported list, read off by the category over all numbers; with it each index.
    for template in range(65_536):
        yield 4, octets(2) + template.to_bytes(2, "big") + octets(LONGEST - 4)
    for template in [*range(300), *range(990, 1110), 65_535]:
        for length in range(4, LONGEST):
            yield 4, octets(2) + template.to_bytes(2, "big") + octets(length - 4)
    for number, least in LEAST_OCTETS.items():
        for length in range(least + 3):
            for _ in range(20):
                yield number, indicator(length) if number == 0 else octets(length)


def fields_expected(number, told):
    """The crate makes no section of a payload under its least; there is then no field."""
    if len(told) == 1 and told[0].startswith("fields "):
        return told[0]
    assert told[0].split()[0] in NO_SECTION, told
    return f"fields {number} none"


def when_where_told(fields):
    """The crate's time and surfaces of a section 4, by its line of fields, in the words of `T`;
    both are none where it makes no section of the payload."""
    _, _, *words = fields.split()
    unit, time, *surfaces = words[5:] if len(words) > 1 else ["none"] * 8
    return " ".join(["when", unit, time, "where", *surfaces])


def telling_places(template):
    """A payload of section 4 in which each octet from the template's first one on is its place."""
    return bytes(2) + template.to_bytes(2, "big") + bytes(range(PRODUCT_START, 256))


def indices_told(told):
    """Where the crate read generating process, unit of time and first surface of such a payload.
    That it tells category and number shows that it counts the template as supported."""
    line, = told
    _, _, _, _, category, number, process, unit, _, surface, *_ = line.split()
    assert (category, number) == ("4", "5"), told
    return [None if place == "none" else int(place) - PRODUCT_START
            for place in (process, unit, surface)]


def all_signed(seed):
    """All of one and two octets; both ends, zeros and random ones of three and four; lengths that
    have no number."""
    rng = random.Random(f"{seed} signed")
    for width in (1, 2):
        yield from (value.to_bytes(width, "big") for value in range(256**width))
    for width in (3, 4):
        for first in (0, 0x7F, 0x80, 0xFF):
            for rest in (0, 1, 256**(width - 1) - 1):
                yield bytes([first]) + rest.to_bytes(width - 1, "big")
        yield from (bytes(rng.choices(range(256), k=width)) for _ in range(20_000))
    yield from (bytes(length) for length in (0, 5, 6, 255))


def signed_expected(octets, told):
    """The crate stops at another length than 1 to 4; there is then no number."""
    if not 1 <= len(octets) <= 4:
        assert told == ["Panic 0"], told
        return "signed none"
    return told[0]
