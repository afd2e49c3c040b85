"""Payloads of section 4 that tell the two readings of document 02's Ticket 6 apart, and neighbours
of theirs that do not, with answers written by hand."""

from walk_files import END, least, message, section

LAYER = bytes.fromhex("058200000001" "070000000002")    # two surfaces: 5, -2, 1 and 7, 0, 2
NO_LAYER = b"\xff" * 12


def aerosol(template, time, surfaces=LAYER):
    """Section 4's payload of templates 44 to 47, up to the surfaces: unit 1, and this time."""
    return bytes([0, 0, 0, template]) + bytes(21) + b"\1" + time + surfaces


def with_product(payload):
    """A message of one field that has this payload in its section 4."""
    return message(least(1, 3) + section(4, payload) + least(5, 6, 7) + END)


# By hand: what it is, the payload, and of each reading process, unit, time and first surface's type
# with those of them that are all ones.
READ_COLUMNS = ["process", "time_unit", "time", "first_type"]
READ = [
    ("44", aerosol(44, b"\0\6"),
     [0, 1, 6, 5], [], [0, 1, 394626, 5], []),
    ("44 of 32,767 hours", aerosol(44, b"\x7f\xff"),
     [0, 1, 32767, 5], [], [0, 1, 2147419522, 5], []),
    ("44 of 32,768 hours", aerosol(44, b"\x80\0"),
     [0, 1, 32768, 5], [], [0, 1, 2147485058, 5], []),
    ("44 of 65,534 hours", aerosol(44, b"\xff\xfe"),
     [0, 1, 65534, 5], [], [0, 1, 4294837634, 5], []),
    ("44 with two octets of all ones", aerosol(44, b"\xff\xff"),
     [0, 1, 65535, 5], ["time"], [0, 1, 4294903170, 5], []),
    ("44 with four", aerosol(44, b"\xff\xff", NO_LAYER),
     [0, 1, 65535, 255], ["time", "first_type"], [0, 1, 4294967295, 255], ["time", "first_type"]),
    ("44 with two behind its time", aerosol(44, b"\0\0", NO_LAYER),
     [0, 1, 0, 255], ["first_type"], [0, 1, 65535, 255], ["first_type"]),
    ("44 that ends behind its two octets", aerosol(44, b"\0\6", b""),
     [0, 1, 6, None], [], [0, None, None, None], []),
    ("44 that ends one octet sooner", aerosol(44, b"\0", b""),
     [0, None, None, None], [], [0, None, None, None], []),
    *((f"{template} of 65,535 hours", aerosol(template, b"\0\0\xff\xff"),
       [0, 1, 65535, 5], [], [0, 1, 65535, 5], []) for template in (45, 46, 47)),
    ("45 with a time of all ones", aerosol(45, b"\xff\xff\xff\xff"),
     [0, 1, 4294967295, 5], ["time"], [0, 1, 4294967295, 5], ["time"]),
    ("47 with two processes", bytes.fromhex("0000002f000009") + bytes(12) + b"\4",
     [4, None, None, None], [], [9, None, None, None], []),
    ("47 that ends before octet 25", bytes.fromhex("0000002f000002"),
     [None, None, None, None], [], [2, None, None, None], []),
    ("83, which the Manual has otherwise too", bytes.fromhex("00000053000002") + bytes(12),
     [2, None, None, None], [], [2, None, None, None], []),
    ("0 of 65,535 hours", bytes(12) + b"\1\0\0\xff\xff" + LAYER,
     [0, 1, 65535, 5], [], [0, 1, 65535, 5], []),
]
