"""The fields of a section by the Manual, where document 02's Ticket 6 has them otherwise than 01.

It shares nothing with the library. Octets are counted from 1 in section 4, as in 02 and the Manual.
"""

from fields_by_01 import fields_by_01, offsets_by_01


def octet_of(payload, number):
    """An octet of a section by its number there; None if the payload ends before it. The header has
    five."""
    return payload[number - 6] if number - 6 < len(payload) else None


def fields_by_manual(number, payload):
    """As document 01 has it, but for two templates: 44 has a time of two octets, 32 and 33, behind
    its unit in octet 31, and 47 its generating process in octet 25, as 44 to 46."""
    found = fields_by_01(number, payload)
    if number != 4 or found is None or found[1] not in (44, 47):
        return found
    *before, process, unit, time = found[:7]
    if found[1] == 44:
        unit, *two = (octet_of(payload, octet) for octet in (31, 32, 33))
        unit, time = (None, None) if None in two else (unit, 256 * two[0] + two[1])
    else:
        process = octet_of(payload, 25)
    return [*before, process, unit, time, *found[7:]]


def offsets_by_manual(template):
    """As `offsets_by_01` has it, but for the generating process of 47: octet 25 has index 15. The
    time of 44 starts where it does in 01."""
    process, time, surfaces = offsets_by_01(template)
    return [15 if template == 47 else process, time, surfaces]
