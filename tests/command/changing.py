"""Files that another process changes while they are read: always a status with its reason, never a
crash, never a DEST of a changed file.

The command is stopped (SIGSTOP) once it has mapped the file, the file is changed, and the command
goes on (SIGCONT).
"""

import fcntl
import json
import os
import random
import subprocess
import sys
import termios
import threading
import time
from pathlib import Path

import reference
from shared import (check, check_ended, check_equal, emulated, finish, folder, meanwhile, names_in,
                    run, skip, start, write)
from walk_files import A, END, least, message, section

SHORTENED, GREW, WRITTEN = (b": was shortened while it was read\n", b": grew while it was read\n",
                            b": was written to while it was read\n")
CHANGED = b": was changed, or its mode, owner, links or times were, while it was read\n"
REPLACED, GONE = (b": was replaced by another file while it was read\n",
                  b": was moved or removed while it was read\n")


def messages():
    """How many messages keep the command at work for a good while."""
    return 12_000 if emulated() else 400_000


# --- Changes -------------------------------------------------------------------------------------

def shortened_by(octets):
    def act(path):
        os.truncate(path, path.stat().st_size - octets)
    return act


def shortened_to(size):
    return lambda path: os.truncate(path, size)


def grown(path):
    with open(path, "ab") as file:
        file.write(A)


def rewritten(path):
    """One octet, the last of the last message, in place."""
    with open(path, "r+b") as file:
        file.seek(-1, os.SEEK_END)
        file.write(b"7")


def touched(path):
    os.utime(path)


def replaced(path):
    """By a file of the same octets and the same time."""
    times = path.stat()
    other = path.with_name("other")
    other.write_bytes(path.read_bytes())
    os.utime(other, ns=(times.st_atime_ns, times.st_mtime_ns))
    os.rename(other, path)


def rewritten_and_set_back(path):
    """The modification time is the old one again: only the time of this setting tells."""
    times = path.stat()
    rewritten(path)
    os.utime(path, ns=(times.st_atime_ns, times.st_mtime_ns))


def removed(path):
    os.unlink(path)


CHANGES = [("shortened to nothing", shortened_to(0), SHORTENED),
           ("shortened to a page", shortened_to(4096), SHORTENED),
           ("shortened by an octet", shortened_by(1), SHORTENED),
           ("grown by a message", grown, GREW),
           ("rewritten by the same octet", rewritten, WRITTEN),
           ("rewritten, and its time set back", rewritten_and_set_back, CHANGED),
           ("touched", touched, WRITTEN),
           ("replaced by its like", replaced, REPLACED),
           ("removed", removed, GONE)]


# --- Stopped once the file is mapped -------------------------------------------------------------

def is_mapped(process, name):
    try:
        return str(name) in Path(f"/proc/{process.pid}/maps").read_text()
    except OSError:
        return False


def wait_until_mapped(process, name, mapped=True):
    while process.poll() is None and is_mapped(process, name) != mapped:
        time.sleep(0.0003)


def changed_while_at_work(path, act, *arguments, at_work=None):
    """The end of a command whose file is changed after it was mapped; a run that was over too soon
    is made again. Where `at_work` can tell of a process that its last look at the file is still to
    come, the file is changed then, and a run that was stopped later is made again too. No other
    is: a change that is not told is a fault."""
    for _ in range(20):
        write(path, A * messages())
        process, early = start(*arguments), []
        wait_until_mapped(process, path)
        while at_work and process.poll() is None and not at_work(process):
            time.sleep(0.0003)

        def change():
            early.append(at_work is None or at_work(process))
            act(path)
        still_ran = meanwhile(process, change)
        done = finish(process)
        if still_ran and early[0]:
            return done
    raise RuntimeError("the command is too fast to be stopped at work")


def each_change(at):
    path = at / "file"
    for what, act, reason in CHANGES:
        done = changed_while_at_work(path, act, "index", path)
        check_ended(f"index, the file is {what}", done, 2, reason, b"")
        done = changed_while_at_work(path, act, "copy", path, at / "dest")
        check_ended(f"copy, the file is {what}", done, 2, reason, b"")
        check("and there is no DEST and nothing beside it", set(names_in(at)) <= {"file"},
              names_in(at))
    write(at / "dest", b"old")
    done = changed_while_at_work(path, shortened_to(4096), "copy", "--force", path, at / "dest")
    check_ended("copy --force, the file is shortened to a page", done, 2, SHORTENED, b"")
    check("and DEST is as it was",
          (at / "dest").read_bytes() == b"old" and names_in(at) == ["dest", "file"], names_in(at))


def unchanged(at):
    """That the stop itself changes nothing."""
    path = at / "file"
    done = changed_while_at_work(path, lambda _: None, "copy", path, at / "dest")
    check_ended("a copy that is only stopped for a while succeeds", done, 0)
    expected = reference.public_copy(A, len(A)).octets * messages()
    check("and is whole", (at / "dest").read_bytes() == expected)


def stopped_before_it_is_named(path, dest):
    """The end of a copy whose file is touched after the copy is written, and before it is named;
    None if the moment was missed."""
    process = start("copy", path, dest)
    # So the system shows a mapped file of this folder that has no name.
    # It is unmapped before it is synced.
    nameless = f" {dest.parent}/#"
    wait_until_mapped(process, nameless)
    wait_until_mapped(process, nameless, mapped=False)
    named = []

    def touch():
        named.append(dest.exists())
        touched(path)
    still_ran = meanwhile(process, touch)
    done = finish(process)
    return done if still_ran and not named[0] else None


def written_but_not_named(at):
    """A section 7 of 48 MiB takes its time to be synced."""
    path, dest = (
        write(at / "file", message(least(1, 3, 4, 5, 6) + section(7, bytes(48 * 2**20)) + END)),
        at / "dest")
    for _ in range(12):
        done = stopped_before_it_is_named(path, dest)
        if done is not None:
            check_ended("copy, the file is touched while the copy is synced", done, 2, WRITTEN, b"")
            check("and there is no DEST", names_in(at) == ["file"], names_in(at))
            return
        dest.unlink(missing_ok=True)
    skip("a file that is touched while its copy is synced", "the disk is too fast")


# --- fields, stopped by a pipe that is full ------------------------------------------------------

def wait_until_full(pipe):
    """Until nothing more comes into a pipe that nobody reads."""
    there, before = -1, -2
    while there != before:
        time.sleep(0.3)
        held = fcntl.ioctl(pipe.fileno(), termios.FIONREAD, bytes(4))
        there, before = int.from_bytes(held, sys.byteorder), there


def while_printing(path, act, *options):
    """The command waits for the pipe to be read: it is at a submessage in the middle when the file
    is changed."""
    write(path, A * 6000)
    process = start("fields", *options, path)
    first = os.read(process.stdout.fileno(), 1)
    wait_until_full(process.stdout)
    act(path)
    done = finish(process)
    return subprocess.CompletedProcess(done.args, done.returncode, first + done.stdout, done.stderr)


def fields_at_work(at):
    path = at / "file"
    for what, act, reason in CHANGES:
        done = while_printing(path, act)
        check_ended(f"fields, the file is {what} while lines are printed", done, 2, reason)
        check("and the first lines stand",
              done.stdout.startswith(b"submessage\t") and done.stdout.count(b"\n") > 100,
              done.stdout[:200])
    done = while_printing(path, touched, "--json")
    end = json.loads(done.stdout.splitlines()[-1])
    check_equal("in JSON the end says why the lines are void",
                (end["kind"], end["outcome"], end["error"]),
                ("end", None, "was written to while it was read"))


def one_of_several(at):
    """The other files are read all the same."""
    path, other = at / "file", write(at / "other", A)
    done = changed_while_at_work(path, shortened_to(4096), "index", path, other)
    expected = (f"file {other}\nsections 8 submessages 1 messages 1\n"
                "0.0 0 1 - 2 3 4 5 6 7 0 86\nend 0 0 0 0\n")
    check_ended("index of a changed file and another: the other is printed alone", done, 2,
                SHORTENED, expected.encode())


# --- Between two looks ---------------------------------------------------------------------------

def section_7_reaches_far(path):
    """The last message's section 7 seems to have nearly 2^32 octets: clean at the first look, it is
    not at the second."""
    far = message(least(1, 3, 4, 5, 6) + section(7, b"", stated=2**32 - 16) + END,
                  total=2**32 - 16 + len(A) - 5)
    with open(path, "r+b") as file:
        file.seek(-len(A), os.SEEK_END)
        file.write(far)


def between_two_looks(at, times):
    """At any moment of a copy, also between its judgement of the file and its writing."""
    path, dest = write(at / "file", A * messages()), at / "dest"
    begun = time.monotonic()
    run("copy", path, dest)
    lasts, statuses, wrong = time.monotonic() - begun, {}, []
    for number in range(times):
        dest.unlink(missing_ok=True)
        write(path, A * messages())
        process = start("copy", path, dest)
        wait_until_mapped(process, path)
        time.sleep(lasts * number / times)
        still_ran = meanwhile(process, lambda: section_7_reaches_far(path))
        done = finish(process)
        statuses[done.returncode] = statuses.get(done.returncode, 0) + 1
        whole = dest.exists() and dest.stat().st_size == len(A) * messages()
        unsaid = done.returncode == 2 and not (still_ran and WRITTEN in done.stderr)
        if done.returncode not in (0, 2) or whole != (done.returncode == 0) or unsaid:
            wrong.append((done, still_ran, whole))
    check(f"{times} copies of a file that is rewritten at some moment end in 2 with the reason, "
          f"or were over: {statuses}",
          not wrong and statuses.get(2, 0) > times // 2, wrong[:3])


def always_rewritten(at, times):
    """Somebody writes all the time, whole messages and torn ones: anything but a crash."""
    path, over = write(at / "file", A * 2000), threading.Event()

    def write_on():
        with open(path, "r+b", buffering=0) as file:
            while not over.is_set():
                file.seek(len(A) * random.randrange(2000) + random.choice((8, 12, 16, 20, 37, 77)))
                file.write(random.choice((b"\xff\xff\xff\xff", b"\0\0\0\0", b"\0\0\0\5\7", b"GRIB",
                                          A[77:86])))
    writer = threading.Thread(target=write_on)
    writer.start()
    ends = [run(*words) for _ in range(times)
            for words in (("index", path), ("fields", path),
                          ("copy", "--force", path, at / "dest"))]
    over.set()
    writer.join()
    check(f"{len(ends)} runs on a file that is written to all the time: "
          "status 1 or 2 with a reason, never a signal",
          all(done.returncode in (1, 2) and done.stderr.startswith(b"buttresk: ") for done in ends),
          [(done.returncode, done.stderr) for done in ends if done.returncode not in (1, 2)][:3])
    check("and no copy of it", names_in(at) == ["file"], names_in(at))


def everything():
    random.seed(20260315)
    for part in (unchanged, each_change, written_but_not_named, fields_at_work, one_of_several):
        with folder() as name:
            part(Path(name))
    with folder() as name:
        between_two_looks(Path(name), 20)
    with folder() as name:
        always_rewritten(Path(name), 6)
