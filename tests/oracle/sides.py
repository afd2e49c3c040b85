"""The two sides: the oracle, which is the crate's code, and `replay`, which is ours. Each is asked
in batches."""

import shutil
import subprocess
import sys
from pathlib import Path
from typing import NamedTuple

REPOSITORY = Path(__file__).resolve().parent.parent.parent
RUN = REPOSITORY / "tests" / "run.sh"

# --- Requests, as docs/REPLAY.md writes them -----------------------------------------------------

LARGEST_INPUT = 262_144             # octets of requests in one run of `replay`
LARGEST_TABLES = 6_144, 512         # numbers, lines


def number(value, width):
    return value.to_bytes(width, "big")


def walk_request(file, numbers=LARGEST_TABLES[0], lines=LARGEST_TABLES[1]):
    return b"W" + number(numbers, 2) + number(lines, 2) + number(len(file), 4) + file


def pull_request(file):
    return b"P" + number(len(file), 4) + file


def fields_request(section, payload):
    return b"F" + bytes([section]) + number(len(payload), 4) + payload


def signed_request(octets):
    return b"S" + bytes([len(octets)]) + octets


def write_request(plan):
    rows = b"".join(number(value, 8) for row in plan.sections for value in row)
    return (b"M" + bytes([plan.discipline]) + plan.reserved + number(len(plan.sections), 2) + rows
            + number(len(plan.store), 4) + plan.store + number(plan.room, 4))


def run(program, octets):
    """What a program prints, given the octets on standard input. `tests/run.sh` runs it on any
    processor, and says what is missing for that."""
    done = subprocess.run([RUN, program], input=octets, capture_output=True)
    if done.returncode:
        sys.exit(f"{program}: status {done.returncode}\n{done.stderr.decode(errors='replace')}")
    return done.stdout.decode()


def copy_crates(folder):
    """A copy of the repository's crates, for rt a repository of its own. What is proved is not
    proved again: rt begins with what its checks kept elsewhere on the machine."""
    shutil.copy(REPOSITORY / "crates.txt", folder)
    shutil.copytree(REPOSITORY / "crates", folder / "crates",
                    ignore=shutil.ignore_patterns("out"))
    subprocess.run(["git", "init", "-q", folder], check=True)


# --- Ours ----------------------------------------------------------------------------------------

class Ask(NamedTuple):
    """A request, what it is about, and the answer that is expected."""
    about: str
    request: bytes
    expected: str


def answer_ends(kind):
    """Tells of each line of an answer whether it is the last."""
    if kind == "W":
        return lambda line, before: line.startswith("end ")
    if kind == "P":
        return lambda line, before: line == "ended" and before.count("ended") == 1
    if kind in ("M", "I"):
        return lambda line, before: line.startswith("dest ")
    return lambda line, before: True


def split_answers(asks, said):
    """The answers one by one, and the lines behind the last; where an answer is missing or `bad`,
    the rest are what is left."""
    *lines, unended = said.split("\n")
    answers = []
    for ask in asks:
        last, mine = answer_ends(chr(ask.request[0])), []
        while lines:
            line = lines.pop(0)
            done = line == "bad" or last(line, mine)
            mine.append(line)
            if done:
                break
        answers.append("\n".join(mine))
    return answers, lines + [unended] * (unended != "")


class Replay:
    """Asks are gathered until a run is full. An answer that is not as expected goes to `report`,
    and so does what stands behind the last one."""

    def __init__(self, program, report):
        self.program, self.report = program, report
        self.asks, self.size = [], 0

    def ask(self, about, request, expected):
        if self.size + len(request) > LARGEST_INPUT:
            self.run()
        self.asks.append(Ask(about, request, expected))
        self.size += len(request)

    def run(self):
        asks, self.asks, self.size = self.asks, [], 0
        octets = b"".join(ask.request for ask in asks)
        said = run(self.program, octets)
        # Equal as a whole is the common case, and the quick one.
        if said != "".join(ask.expected + "\n" for ask in asks):
            answers, behind = split_answers(asks, said)
            for ask, answer in zip(asks, answers):
                if answer != ask.expected:
                    self.report(ask, answer)
            if behind:
                unasked = Ask("what stands behind the last answer", octets, "")
                self.report(unasked, "\n".join(behind))


# --- The oracle ----------------------------------------------------------------------------------

class Oracle:
    def __init__(self, folder):
        self.program = folder / "oracle"

    def answers(self, kind, requests):
        """The lines of each answer; a request is the octets that the kind takes."""
        requests = list(requests)
        octets = b"".join(kind + number(len(request), 4) + request for request in requests)
        said = run(self.program, octets)
        answers = [answer.splitlines() for answer in said.split(".\n")]
        assert answers.pop() == [] and len(answers) == len(requests), "the oracle lost an answer"
        return answers


class Told:
    """What the crate told of a file, in its own words."""

    def __init__(self, lines):
        self.read, self.lines, self.offsets, self.fields = [], [], [], []
        for line in lines:
            head, _, rest = line.partition(" ")
            if head == "read":
                self.read.append(tuple(map(int, rest.split())))
            elif head == "line":
                self.lines.append(rest)
            elif head == "offsets":
                self.offsets.append(rest)
            elif head == "fields":
                self.fields.append(line)
            elif head == "passed":
                self.passed = self.read[:int(rest)]
            elif head == "offsets-end":
                offsets_end = rest
            elif head == "end":
                end = rest
        # Two streams walk, one with places and one with offsets.
        assert offsets_end == end, (offsets_end, end)
        word, value, began = end.split()
        self.word, self.value, self.began = word, int(value), int(began)
