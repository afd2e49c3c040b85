"""What the tests of the command share: to run it, to say what held, to make files,
and the count at the end."""

import os
import re
import signal
import subprocess
import sys
import tempfile
from pathlib import Path

ROOT = Path(__file__).resolve().parent.parent.parent
sys.path.append(str(ROOT / "tests/lists"))

import reference  # noqa: E402: it stands in the folder that was just named

SAMPLES = ROOT / "samples"
ECCODES_SAMPLES = Path("/usr/share/eccodes/samples")

# --- Saying --------------------------------------------------------------------------------------

counts = {"ok": 0, "not ok": 0, "skipped": 0}


def say(word, text):
    counts[word] += 1
    print(f"{word}: {text}", flush=True)


def check(what, holds, told=""):
    """One check. What was found instead is told if it does not hold."""
    say("ok" if holds else "not ok", what)
    if not holds and told != "":
        print("    " + str(told)[:2000].replace("\n", "\n    "), flush=True)
    return bool(holds)


def check_equal(what, found, expected):
    return check(what, found == expected, f"found    {shown(found)}\nexpected {shown(expected)}")


def shown(value):
    """The start of a long value is enough to see what it is."""
    text = repr(value)
    return text if len(text) < 900 else text[:900] + f".. ({len(text)} characters)"


def skip(what, why):
    say("skipped", f"{what}: {why}")


def total():
    return ", ".join(f"{count} {word}" for word, count in counts.items())


# --- Running -------------------------------------------------------------------------------------

class Command:
    """The command under test, behind its emulator if it needs one."""
    path = None
    emulator = []

    @classmethod
    def words(cls, *arguments):
        return [*cls.emulator, str(cls.path), *map(os.fspath, arguments)]


def emulated():
    return bool(Command.emulator)


def run(*arguments, timeout=120, **options):
    """Runs the command to its end; its output and its errors are octets."""
    options.setdefault("stdout", subprocess.PIPE)
    options.setdefault("stderr", subprocess.PIPE)
    if "input" not in options:
        options.setdefault("stdin", subprocess.DEVNULL)
    return subprocess.run(Command.words(*arguments), timeout=timeout, **options)


def start(*arguments, **options):
    """Starts the command and leaves it running."""
    options.setdefault("stdout", subprocess.PIPE)
    options.setdefault("stderr", subprocess.PIPE)
    options.setdefault("stdin", subprocess.DEVNULL)
    return subprocess.Popen(Command.words(*arguments), **options)


def finish(process, timeout=120):
    """The end of a started command, in the form of run()."""
    output, errors = process.communicate(timeout=timeout)
    return subprocess.CompletedProcess(process.args, process.returncode, output, errors)


def was_stopped(process):
    """Waits until a process that was sent SIGSTOP stands still; False if it ended before."""
    found, status = os.waitpid(process.pid, os.WUNTRACED)
    if found == process.pid and os.WIFSTOPPED(status):
        return True
    process.returncode = os.waitstatus_to_exitcode(status)
    return False


def meanwhile(process, act):
    """Does something while the process stands still. Answers whether it still ran."""
    process.send_signal(signal.SIGSTOP)
    if process.returncode is not None or not was_stopped(process):
        return False
    act()
    process.send_signal(signal.SIGCONT)
    return True


def check_ended(what, done, status, in_errors=b"", in_output=None):
    """Status, a text on standard error (none at all where it is empty), and where it is given all
    of the output."""
    errors_as_said = in_errors in done.stderr if in_errors else done.stderr == b""
    output_as_said = in_output is None or done.stdout == in_output
    told = (f"status {done.returncode}, not {status}\n"
            f"errors {shown(done.stderr)}\noutput {shown(done.stdout)}")
    if in_errors:
        told += f"\nwanted {shown(in_errors)}"
    return check(what, done.returncode == status and errors_as_said and output_as_said, told)


def missing(octets):
    """The detail of refusal 2 in words."""
    return "1 octet is missing" if octets == 1 else f"{octets} octets are missing"


def tells(errors, answer):
    """Whether standard error has an answer of reference.py: nothing of a clean end, else one line
    with its numbers, and of 2 the words."""
    if answer.outcome == 0:
        return errors == b""
    words = re.escape(f" ({missing(answer.detail)})") if answer.outcome == 2 else r"( \(.+\))?"
    line = (rf"buttresk: .+: refused by {answer.outcome} \(.+\): .+; "
            rf"place {answer.place}, offset {answer.offset}, detail {answer.detail}{words}\n")
    return re.fullmatch(line.encode(), errors) is not None


def outside_of(file):
    """How many octets no listed section holds, each looked at: to the end of a clean file, and to
    where another is refused."""
    done = reference.walk(file)
    marks = bytearray(len(file) if done.outcome == 0 else done.offset)
    for row in done.rows:
        marks[row.offset:row.offset + row.length] = (
            b"\1" * len(marks[row.offset:row.offset + row.length]))
    return marks.count(0)


def outside_words(path, file):
    """The line that tells of them; no octets where there is none."""
    done, outside = reference.walk(file), outside_of(file)
    stand = "1 octet stands" if outside == 1 else f"{outside} octets stand"
    if done.outcome == 0 and done.messages == 0:
        words = (f"there is no message: {stand} outside messages" if file
                 else "there is no message: the file is empty")
    else:
        words = (f"{stand} outside messages{'' if done.outcome == 0 else ', before the refusal'}"
                 if outside else "")
    return f"buttresk: {path}: {words}\n".encode() if words else b""


# --- Folders and files ---------------------------------------------------------------------------

def folder():
    return tempfile.TemporaryDirectory(prefix="buttresk-test-")


def write(path, octets):
    Path(path).write_bytes(octets)
    return Path(path)


def names_in(path):
    """All of a folder, hidden files too: nothing may be left behind."""
    return sorted(os.listdir(path))


def is_root():
    return os.geteuid() == 0


def end_in_time(seconds):
    """No test may stand still for ever."""
    def late(*_):
        print("not ok: the tests did not end in time", flush=True)
        os._exit(1)
    signal.signal(signal.SIGALRM, late)
    signal.alarm(seconds)


def need_python():
    if sys.version_info < (3, 9):
        sys.exit("tests/command/run.py: Python 3.9 or later is wanted")
