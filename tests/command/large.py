"""Large files: memory that does not grow with them, many messages, tables that grow, and the line
that shows how long it takes."""

import os
import pty
import re
import tempfile
import time
from pathlib import Path

import reference
from reading import HEAD, index_of
from shared import (ROOT, SAMPLES, check, check_equal, emulated, finish, folder, names_in, run,
                    start, write)
from walk_files import A, A117, END, FIRST, least, message, section, whole

MEBIBYTE = 2**20
MOST_TOUCHED = 64 * MEBIBYTE

# --- A sparse file -------------------------------------------------------------------------------

SPARSE_SIZE = 5 * 2**30
LONG_7 = 2**32 - 1024           # octets of the one long section 7: nearly 4 GiB
BEFORE_7 = len(message(least(1, 3, 4, 5, 6)))


def long_message(long_7):
    """A message up to its section 7 of so many octets,
    and where its section 8 stands from its start."""
    head = message(least(1, 3, 4, 5, 6), total=BEFORE_7 + long_7 + len(END))
    return head + section(7, b"", stated=long_7), BEFORE_7 + long_7


def write_at(path, parts):
    """A file that is a hole but for these octets at these places."""
    with open(path, "wb") as file:
        for place, octets in parts:
            file.seek(place)
            file.write(octets)
    return path


def sparse_file(path):
    """A message with a section 7 of nearly 4 GiB; a gibibyte of octets outside messages; a small
    message at the very end."""
    first, end = long_message(LONG_7)
    return write_at(path, [(0, first), (end, END), (SPARSE_SIZE - len(A), A)])


def file_without_search(path):
    """As large, but messages all over: the walk steps from header to header."""
    first, end = long_message(LONG_7)
    second, other_end = long_message(SPARSE_SIZE - (end + len(END)) - BEFORE_7 - len(END))
    return write_at(path, [(0, first), (end, END + second), (end + len(END) + other_end, END)])


def of_file_in_memory(process, path):
    """How many octets of the file's own map are in memory now."""
    try:
        lines = Path(f"/proc/{process.pid}/smaps").read_text().splitlines()
    except OSError:
        return 0
    octets, of_the_file = 0, False
    for line in lines:
        if re.match("[0-9a-f]+-[0-9a-f]+ ", line):
            of_the_file = line.endswith(str(path))
        elif of_the_file and line.startswith("Rss:"):
            octets += int(line.split()[1]) * 1024
    return octets


def told_by_system(process, key):
    """Octets of memory, by a line of the process' status; 0 if it has ended. What wait4 tells would
    be the tests' own, from before the exec."""
    try:
        found = re.search(rf"^{key}:\s*(\d+) kB",
                          Path(f"/proc/{process.pid}/status").read_text(), re.MULTILINE)
    except OSError:
        return 0
    return int(found[1]) * 1024 if found else 0


def run_measured(*arguments):
    """The command's end, the most memory that it touched at once, and how much of that was the
    file's own map, by looking all the time."""
    path, touched, mapped = arguments[-1], 0, 0
    with tempfile.TemporaryFile() as output:
        process = start(*arguments, stdout=output)
        while process.poll() is None:
            touched = max(touched, told_by_system(process, "VmHWM"))
            mapped = max(mapped, of_file_in_memory(process, path))
            time.sleep(0.001)
        output.seek(0)
        printed = output.read()
    done = finish(process)
    return done.returncode, printed, done.stderr, touched, mapped


def emulators_memory(at):
    """What the emulator takes for a file of that size, of which a few pages are read. Without an
    emulator nothing is taken off."""
    return run_measured("index", file_without_search(at / "without search"))[3] if emulated() else 0


def two_messages(first, second):
    """The index, by hand, of two messages of eight sections, each by its offset and its length."""
    lines = ["sections 16 submessages 2 messages 2", "0.0 0 1 - 2 3 4 5 6 7 %d %d" % first,
             "1.0 8 9 - 10 11 12 13 14 15 %d %d" % second, "end 0 0 0 0", ""]
    return "\n".join(lines).encode()


def stepped_over(at):
    path = file_without_search(at / "file")
    status, printed, errors, _, mapped = run_measured("index", path)
    first = BEFORE_7 + LONG_7 + len(END)
    index = two_messages((0, first), (first, SPARSE_SIZE - first))
    check("index of 5 GiB of two messages", (status, printed, errors) == (0, index, b""),
          (status, printed, errors))
    check("no page of a section 7 is read", mapped < MEBIBYTE, mapped)


def sparse(at):
    path, own = sparse_file(at / "sparse"), emulators_memory(at)
    check("the sparse file takes little of the disk", path.stat().st_blocks * 512 < MEBIBYTE,
          path.stat())
    total, last = BEFORE_7 + LONG_7 + len(END), SPARSE_SIZE - len(A)
    index = two_messages((0, total), (last, 86))
    outside = f"buttresk: {path}: {last - total} octets stand outside messages\n".encode()
    for verb in ("index", "fields"):
        status, printed, errors, touched, mapped = run_measured(verb, path)
        ended = (status, errors) == (0, outside)
        if verb == "index":
            check("index of 5 GiB with a section 7 of nearly 4 GiB", ended and printed == index,
                  (status, printed, errors))
        else:
            lines = printed.decode().splitlines()
            check("fields of the same",
                  ended and lines[0] == HEAD and lines[1].startswith(f"0.0\t0\t{total}\t")
                  and lines[2].startswith(f"1.0\t{last}\t86\t") and len(lines) == 3, printed)
        check(f"{verb} touches under 64 MiB of memory: {(touched - own) // MEBIBYTE}, "
              f"{mapped // MEBIBYTE} of it the file's",
              touched - own < MOST_TOUCHED and mapped < MOST_TOUCHED, (touched, own, mapped))


# --- Larger than memory --------------------------------------------------------------------------

def memory():
    """Octets of memory and of what stands in for it, of this machine."""
    words = dict(line.split(":") for line in Path("/proc/meminfo").read_text().splitlines())
    return sum(int(words[key].split()[0]) * 1024 for key in ("MemTotal", "SwapTotal"))


def larger_than_memory(at):
    """Messages with sections 7 of nearly 4 GiB, nearly all of them a hole, to twice the memory: an
    emulator maps it too."""
    head, end = long_message(LONG_7)
    count = min(2 * memory() // (end + len(END)) + 1, 200)
    path = write_at(at / "huge", [part for i in range(count)
                                  for part in ((i * (end + len(END)), head),
                                               (i * (end + len(END)) + end, END))])
    done = run("index", path)
    check(f"index of {count} messages in {path.stat().st_size // 2**30} GiB, "
          "which is more than there is memory",
          done.returncode == 0
          and done.stdout.startswith(f"sections {8 * count} submessages {count} "
                                     f"messages {count}\n".encode())
          and done.stderr == b"", done)


def run_without_maps(*arguments):
    """The command's end, and the most memory that it had at once beside the maps of files, by
    looking all the time. How much of a file is in memory depends on what runs the command: an
    emulator does not hand pages back."""
    most = 0
    with tempfile.TemporaryFile() as output:
        process = start(*arguments, stdout=output)
        while process.poll() is None:
            most = max(most, told_by_system(process, "RssAnon"))
            time.sleep(0.001)
    done = finish(process)
    return done.returncode, done.stderr, most


def tables_take_memory(at):
    """What README and the man page say of the worst file: 216 octets of tables for each submessage
    of 31 octets, seven times the file's length. It is no file of which memory does not grow."""
    count = 600_000
    path = write(at / "tiny", message(least(1, 3) + least(4, 5, 6, 7) * count + END))
    zeros = write(at / "zeros", bytes(path.stat().st_size))
    status, errors, most = run_without_maps("index", path)
    own = run_without_maps("index", zeros)[2]
    times = (most - own) / path.stat().st_size
    check(f"tables of {count} least submessages take about seven times the file: {times:.1f}",
          (status, errors) == (0, b"") and 6 < times < 8, (status, errors, most, own))
    for page in ("README.md", "docs/buttresk.1"):
        text = " ".join((ROOT / page).read_text().split())
        check(f"{page} says so", "seven times" in text and "memory does not grow" not in text)


# --- Many messages -------------------------------------------------------------------------------

def many_index(count):
    """The index of so many times the smallest message, written by hand."""
    lines = [f"sections {8 * count} submessages {count} messages {count}"]
    for i in range(count):
        first = 8 * i
        places = " ".join(str(place) for place in range(first + 2, first + 8))
        lines.append(f"{i}.0 {first} {first + 1} - {places} {86 * i} 86")
    return "\n".join(lines + ["end 0 0 0 0", ""]).encode()


def many(at):
    count = 100_000
    path = write(at / "many", A * count)
    done = run("index", path)
    check(f"index of {count} messages",
          done.returncode == 0 and done.stdout == many_index(count) and done.stderr == b"",
          done.stderr)
    done = run("fields", path)
    lines = done.stdout.decode().splitlines()
    numbers = [line.split("\t")[:3] for line in lines[1:]]
    check(f"fields of {count} messages",
          done.returncode == 0 and lines[0] == HEAD
          and numbers == [[f"{i}.0", str(86 * i), "86"] for i in range(count)], done.stderr)
    done = run("copy", path, at / "copy")
    check(f"copy of {count} messages",
          done.returncode == 0 and (at / "copy").read_bytes() == A * count, done.stderr)


def tables_grow(at):
    """About each size at which a table is full: of rows, and of lines. Many submessages fill the
    lines first, few the rows."""
    lines_first = [whole(*FIRST, *((4, 5, 6, 7) * more))
                   for more in (126, 127, 128, 255, 256, 300, 1100)]
    rows_first = ([whole(1, 2, 3, 4, 5, 6, 7) * count for count in (113, 114, 227, 228)]
                  + [A * count for count in (127, 128, 129, 256, 257, 512)])
    refused = [A * 128 + A[:50], A117 * 200 + b"GRIB" + bytes(20)]
    files = lines_first + rows_first + refused
    paths = [write(at / f"file-{i}", file) for i, file in enumerate(files)]
    done = run("index", *paths)
    expected = "".join(f"file {path}\n{index_of(file)}" for path, file in zip(paths, files))
    check(f"index of {len(files)} files about the sizes at which tables grow, as reference.py says",
          done.stdout == expected.encode() and done.returncode == 1, done.stderr)
    check("neither 13 nor 14 is ever the answer",
          all(reference.walk(file).outcome not in (13, 14) for file in files)
          and not re.search(rb"^end 1[34] ", done.stdout, re.MULTILINE))


# --- The line that shows how long it takes -------------------------------------------------------

def on_terminal(*arguments):
    """Runs the command with standard error on a terminal: its end,
    and all that came to the terminal."""
    ours, theirs = pty.openpty()
    with open(os.devnull, "wb") as nowhere:
        process = start(*arguments, stdout=nowhere, stderr=theirs)
    os.close(theirs)
    came = b""
    while True:
        try:
            part = os.read(ours, 4096)
        except OSError:
            part = b""
        if not part:
            break
        came += part
    os.close(ours)
    return finish(process), came


def after_the_line(came):
    """What is left to be seen: each return goes back to the line's start,
    and what follows covers it."""
    line = ""
    for part in came.decode().split("\r"):
        line = part + line[len(part):]
    return line.strip()


def seconds(*arguments):
    begun = time.monotonic()
    done = run(*arguments)
    return time.monotonic() - begun, done


def busy(at):
    """A file that takes over a second to walk: octets that belong to no message, and a message
    behind them. Its run without a terminal."""
    path = at / "busy"
    for gibibytes in (0.5, 1, 2, 4, 8, 16):
        with open(path, "wb") as file:
            file.seek(int(gibibytes * 2**30))
            file.write(A)
        # The first run finds the file's pages nowhere: the second tells how long a third will take.
        seconds("index", path)
        lasts, done = seconds("index", path)
        if lasts > 1.6:
            break
    return path, done


def progress(at):
    path, unseen = busy(at)
    done, came = on_terminal("index", path)
    shown = [int(number)
             for number in re.findall(rb"\rbuttresk: [^\r]*busy: walking, (\d+) s", came)]
    check("work of over a second shows a line on a terminal",
          done.returncode == 0 and min(shown, default=0) >= 1, came[:300])
    check("whose seconds go on", shown == sorted(shown), shown)
    told, _, rest = came.rpartition(b"buttresk: ")[2].partition(b"\r\n")
    check("and which is gone at the end, where the octets outside are told",
          told.endswith(b" octets stand outside messages") and not rest, came[-300:])
    outside = f"buttresk: {path}: {path.stat().st_size - len(A)} octets stand outside messages\n"
    check("none is shown where standard error is no terminal",
          (unseen.returncode, unseen.stderr) == (0, outside.encode()), unseen.stderr)
    done, came = on_terminal("index", SAMPLES / "sea.grib2")
    check("nor of work of under a second", (done.returncode, came) == (0, b""), came)


def slow_to_copy(at):
    """A file that takes over a second to copy, with a long name that would spoil the line."""
    path, count = at / ("a long name " * 8 + "\n and its end"), 40_000
    while (seconds("copy", "--force", write(path, A * count), at / "dest")[0] < 1.6
           and count < 5_000_000):
        count *= 2
    (at / "dest").unlink()
    return path


def progress_of_a_copy(at):
    path = slow_to_copy(at)
    done, came = on_terminal("copy", path, at / "dest")
    shown = re.search(rb"\rbuttresk: [^\r\n]{28} and its end: "
                      rb"(copying|looking for zeros|syncing), \d+ s", came)
    check("a copy shows what is done, and of a name the end, in one line",
          done.returncode == 0 and shown and b"\n" not in came, came[:300])
    check_equal("and nothing stays", after_the_line(came), "")
    (at / "dest").unlink()
    with open(path, "ab") as file:
        file.write(A[:40] + bytes(400))
    done, came = on_terminal("copy", path, at / "dest")
    left = after_the_line(came.split(b"\n")[0])
    check("a refusal after that stands alone on its line",
          done.returncode == 1 and came.count(b"\n") == 1
          and left.startswith("buttresk: ") and "refused by" in left and len(names_in(at)) == 1,
          came[-300:])


def everything():
    for part in (stepped_over, sparse, larger_than_memory, tables_take_memory, many, tables_grow,
                 progress, progress_of_a_copy):
        begun = time.monotonic()
        with folder() as name:
            part(Path(name))
        print(f"   {part.__name__}: {time.monotonic() - begun:.0f} s", flush=True)
