"""The fields of a section by document 01 and the ranges of its source document 002, read plainly.

It shares nothing with the library. Headings and words are 01's.
"""

import reference
from reference import unsigned

# Least payload of each section with fields; section 0 is handed over whole.
LEAST = {0: 16} | {number: reference.LEAST[number] for number in (1, 3, 4, 5, 6)}

# (start, width) of the fields that stand at one place, in the order in which they are printed.
PLACES = {
    0: [(6, 1), (8, 8)],
    1: [(0, 2), (2, 2), (4, 1), (5, 1), (6, 1), (7, 2)] + [(start, 1) for start in range(9, 16)],
    3: [(1, 4), (7, 2)],
    4: [(0, 2), (2, 2)],
    5: [(0, 4), (4, 2)],
    6: [(0, 1)],
}

# First and last template of each run of WMO code table 4.0, version 30, without its reserved rows.
SUPPORTED = [(0, 15), (20, 20), (30, 35), (40, 49), (51, 51), (53, 63), (67, 68), (70, 73),
             (76, 88), (91, 98), (254, 254), (1000, 1002), (1100, 1101)]

# First and last template, and the index of the field after the template's start.
PROCESS = [(0, 39, 2), (40, 43, 4), (44, 46, 15), (47, 47, 2), (48, 49, 26), (51, 51, 2),
           (55, 56, 8), (59, 59, 8), (60, 61, 2), (62, 63, 8), (70, 73, 7), (76, 79, 5),
           (80, 81, 27), (82, 82, 16), (83, 83, 2), (84, 84, 16), (85, 85, 15), (86, 91, 2),
           (254, 254, 2), (1000, 1101, 2)]
TIME = [(0, 15, 8), (32, 34, 8), (40, 43, 10), (44, 47, 21), (48, 49, 32), (51, 51, 8),
        (55, 56, 14), (59, 59, 14), (60, 61, 8), (62, 63, 14), (70, 73, 13), (76, 79, 11),
        (80, 81, 33), (82, 84, 22), (85, 85, 21), (86, 87, 8), (88, 88, 26), (91, 91, 8),
        (1000, 1101, 8)]
SURFACES = [(0, 15, 13), (40, 43, 15), (44, 44, 24), (45, 47, 26), (48, 49, 37), (51, 51, 13),
            (55, 56, 19), (59, 59, 19), (60, 61, 13), (62, 63, 19), (70, 73, 18), (76, 79, 16),
            (80, 81, 38), (82, 84, 27), (85, 85, 26), (86, 87, 13), (88, 88, 5), (91, 91, 13),
            (1100, 1101, 13)]

PRODUCT_START = 4


def signed(octets):
    """Sign and size; None for a length that has no number."""
    if not 1 <= len(octets) <= 4:
        return None
    sign_bit = 1 << (8 * len(octets) - 1)
    value = unsigned(octets)
    return -(value - sign_bit) if value & sign_bit else value


def index_of(ranges, template):
    """The index of the template's field; None if no range has the template."""
    for first, last, index in ranges:
        if first <= template <= last:
            return index
    return None


def start_of(ranges, template):
    """Where in the payload the template's field starts; None if it has no index."""
    index = index_of(ranges, template)
    return None if index is None else PRODUCT_START + index


def offsets_by_01(template):
    """The indices of generating process, time and surfaces, whether the template is supported or
    not; None for each that has none."""
    return [index_of(ranges, template) for ranges in (PROCESS, TIME, SURFACES)]


def part(payload, start, width):
    """The octets of one field; None if it has no start or the payload ends too soon."""
    if start is None or start + width > len(payload):
        return None
    return payload[start:start + width]


def split_part(octets, readings):
    """The values of a part made of (width, reading) fields: all of them, or None for each."""
    if octets is None:
        return [None] * len(readings)
    values, start = [], 0
    for width, reading in readings:
        values.append(reading(octets[start:start + width]))
        start += width
    return values


def is_supported(template):
    return any(first <= template <= last for first, last in SUPPORTED)


def product_fields(payload):
    """Section 4's fields after the template number."""
    template = unsigned(payload[2:4])
    if not is_supported(template):
        return [None] * 11
    surface = [(1, unsigned), (1, signed), (4, signed)]
    return (split_part(part(payload, PRODUCT_START, 1), [(1, unsigned)])
            + split_part(part(payload, PRODUCT_START + 1, 1), [(1, unsigned)])
            + split_part(part(payload, start_of(PROCESS, template), 1), [(1, unsigned)])
            + split_part(part(payload, start_of(TIME, template), 5), [(1, unsigned), (4, unsigned)])
            + split_part(part(payload, start_of(SURFACES, template), 12), surface + surface))


def fields_by_01(number, payload):
    """The values in printing order, None for each that is none; None if there are no fields."""
    if number not in LEAST or len(payload) < LEAST[number]:
        return None
    values = [unsigned(payload[start:start + width]) for start, width in PLACES[number]]
    return values + product_fields(payload) if number == 4 else values
