"""Plans for the writer, and what document 01 says of each ("The writer")."""

import random
from typing import NamedTuple

from reference import CAN_COME, LEAST, SUBMESSAGE_START
from walk_files import END, message, section

MOST_SECTIONS = 4_096
LARGEST_PAYLOAD = 4_294_967_290


class Plan(NamedTuple):
    discipline: int
    reserved: bytes
    sections: tuple         # of (number, offset, length); the payload is a part of the store
    store: bytes
    room: int               # length of the destination


def payloads(plan):
    return [plan.store[offset:offset + length] for _, offset, length in plan.sections]


def total_length(plan):
    return 16 + sum(length + 5 for _, _, length in plan.sections) + 4


# --- By document 01 ------------------------------------------------------------------------------

def first_misfit(numbers):
    """The first place whose number can't come next; the plan's length if only the 8 misfits; None
    if the numbers are one message."""
    last = 0
    for place, number in enumerate(numbers):
        fitting = CAN_COME[SUBMESSAGE_START] if last == 7 else CAN_COME[last]
        if not 1 <= number <= 7 or number not in fitting:
            return place
        last = number
    return None if last == 7 else len(numbers)


def first_place(plan, at_fault):
    return next((place for place, row in enumerate(plan.sections) if at_fault(*row)), None)


def first_outside(plan):
    return first_place(plan, lambda number, offset, length: offset + length > len(plan.store))


def first_of_wrong_size(plan):
    def wrong(number, _, length):
        return not LEAST.get(number, 0) <= length <= LARGEST_PAYLOAD
    return first_place(plan, wrong)


def refusal(plan):
    """Outcome and detail, in 01's order of checks; None if there is none."""
    if len(plan.sections) > MOST_SECTIONS:
        return 15, 0
    checks = [
        (16, first_misfit([number for number, _, _ in plan.sections])),
        (17, first_outside(plan)),
        (18, first_of_wrong_size(plan)),
    ]
    for outcome, place in checks:
        if place is not None:
            return outcome, place
    return (19, 0) if plan.room < total_length(plan) or total_length(plan) > 2**40 else None


def written(plan):
    numbers = [number for number, _, _ in plan.sections]
    body = b"".join(map(section, numbers, payloads(plan)))
    return message(body + END, reserved=plan.reserved, discipline=plan.discipline)


def dest_words(octets, room):
    """Every octet that is not written is 165, as before the call."""
    return "dest " + (octets.ljust(room, b"\xa5").hex() or "-")


def answer(outcome, detail, octets, room):
    return f"write {outcome} 0 0 {detail} {len(octets)}\n{dest_words(octets, room)}"


def by_01(plan):
    refused = refusal(plan)
    if refused is None:
        return answer(0, 0, written(plan), plan.room)
    return answer(*refused, b"", plan.room)


# --- By the crate --------------------------------------------------------------------------------

def for_crate(plan):
    """The request to the oracle; None for a plan that the crate's calls can't be handed: a payload
    is octets there, and a section number is a type."""
    numbers = [number for number, _, _ in plan.sections]
    if max(numbers, default=0) > 255 or first_outside(plan) is not None:
        return None
    parts = b"".join(bytes([number]) + len(payload).to_bytes(4, "big") + payload
                     for number, payload in zip(numbers, payloads(plan)))
    return bytes([plan.discipline]) + plan.reserved + plan.room.to_bytes(4, "big") + parts


def without_grid_or_product(plan):
    """A shape that the crate frames and 01 refuses with 16: behind a section 1, 2 or 3 lacks what
    has to follow."""
    numbers = [number for number, _, _ in plan.sections]
    known = all(1 <= number <= 7 for number in numbers)
    return known and numbers[:1] == [1] and first_misfit(numbers) is not None


def agrees(plan, told):
    """Does what the crate told of the plan go with 01's answer? Where 01 adds a refusal the crate
    may write."""
    refused = refusal(plan)
    if told == ["NoShape"]:
        return refused is not None and refused[0] in (15, 16)
    size, dest = total_length(plan), told[1]
    if told[0].startswith("TooSmall"):
        too_small = told[0] == f"TooSmall for {size}" and plan.room < size
        return too_small and dest == dest_words(b"", plan.room)
    if told[0] != f"written {size} of {size}":
        return False
    if refused is None:
        return dest == dest_words(written(plan), plan.room)
    return refused[0] in (15, 18) or refused[0] == 16 and without_grid_or_product(plan)


# --- Plans ---------------------------------------------------------------------------------------

LAST = 4, 5, 6, 7
ROWS = [(1, 3, *LAST), (1, 2, 3, *LAST), (1, 3, *LAST, *LAST), (1, 3, *LAST, 3, *LAST),
        (1, 2, 3, *LAST, 2, 3, *LAST), (1, 2, 3, *LAST, *LAST, 3, *LAST, 2, 3, *LAST)]


def drafted(rng):
    """A plan without fault: parts of the store may touch, overlap or leave octets unused."""
    store = bytes(rng.choices(range(256), k=rng.randrange(16, 120)))
    sections = []
    for number in rng.choice(ROWS):
        length = min(LEAST[number] + rng.choice([0, 0, 1, rng.randrange(30)]), len(store))
        sections.append((number, rng.randrange(len(store) - length + 1), length))
    plan = Plan(rng.randrange(256), bytes(rng.choices(range(256), k=2)), tuple(sections), store, 0)
    return plan._replace(room=total_length(plan) + rng.choice([0, 0, 1, 40]))


def with_section(plan, place, row):
    sections = list(plan.sections)
    sections[place] = row
    return plan._replace(sections=tuple(sections))


def wrong_number(rng, plan):
    place = rng.randrange(len(plan.sections))
    _, offset, length = plan.sections[place]
    number = rng.choice([*range(10), 255, 256, 263, 2**32 + 3, 2**64 - 1])
    return with_section(plan, place, (number, offset, length))


def cut_short(rng, plan):
    return plan._replace(sections=plan.sections[:rng.randrange(len(plan.sections))])


def outside_store(rng, plan):
    place = rng.randrange(len(plan.sections))
    number, offset, length = plan.sections[place]
    end = len(plan.store)
    part = rng.choice([(end, 1), (end + 1, 0), (max(end - length, 0) + 1, length), (0, end + 1),
                       (2**64 - 1, 2**64 - 1), (1, 2**32), (2**64 - 1, 1), (end, 0)])
    return with_section(plan, place, (number, *part))


def short_payload(rng, plan):
    place = rng.choice([place for place, row in enumerate(plan.sections) if LEAST[row[0]]])
    number, offset, _ = plan.sections[place]
    return with_section(plan, place, (number, offset, rng.randrange(LEAST[number])))


def short_room(rng, plan):
    """Of a plan whose lengths are no true ones, any room."""
    short = min(total_length(plan), 1_000) - 1
    return plan._replace(room=rng.choice([0, 1, short, rng.randrange(short)]))


FAULTS = [wrong_number, cut_short, outside_store, short_payload, short_room]


def fixed_plans():
    """An empty plan; plans with as many sections as may be, with five less and with one more."""
    nothing = Plan(0, b"\xff\xff", (), b"", 20)
    yield nothing
    yield nothing._replace(room=19)
    most = [1, 2, 3] + [4, 5, 6, 7] * 1022 + [3, 4, 5, 6, 7]
    for numbers in (most[:-5], most, most + [3]):
        sections = tuple((number, 0, LEAST[number]) for number in numbers)
        yield Plan(0, b"\xff\xff", sections, bytes(16), 40_000)


def all_plans(seed, count):
    yield from fixed_plans()
    rng = random.Random(f"{seed} plans")
    for _ in range(count):
        plan = drafted(rng)
        yield plan
        for fault in FAULTS:
            faulty = fault(rng, plan)
            yield faulty
            if faulty.sections:
                yield rng.choice([wrong_number, outside_store, short_room])(rng, faulty)
