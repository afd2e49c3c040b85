"""`verify` and `leaks`: their answers against `reference.py`, whole files and single octets, what
has no answer, and the spool."""

import os
import shutil
import subprocess
from pathlib import Path

import copy_files
import reference
from changing import CHANGES, changed_while_at_work, messages
from large import MEBIBYTE, MOST_TOUCHED, long_message, run_measured, write_at
from shared import (ECCODES_SAMPLES, SAMPLES, Command, check, check_ended, check_equal, emulated,
                    folder, is_root, names_in, run, skip, tells, write)
from walk_files import A, END

SEA, LEAST, CUT = SAMPLES / "sea.grib2", SAMPLES / "least.grib2", SAMPLES / "cut.grib2"
PAGE = b"<!DOCTYPE html>\n<html><title>404 Not Found</title><body>no such file</body></html>\n"
NONE = "every octet that carries values or stands outside a message is 0"
FILE = b"GRI" + copy_files.FULL + b"between" + copy_files.FULL_STARTS + b"behind"


def public(file):
    return reference.public_copy(file, len(file)).octets


def first_difference(one, other):
    return next((place for place, (a, b) in enumerate(zip(one, other)) if a != b), None)


def with_octet(file, place, octet):
    return file[:place] + bytes([octet]) + file[place + 1:]


# --- What is expected ----------------------------------------------------------------------------

def verified(claimed, file):
    """Status and words, by reference.py's copy of the file."""
    copy = public(file)
    place = first_difference(claimed, copy)
    if place is not None:
        return 1, f"octet {place} is {claimed[place]}, and is {copy[place]} in the public copy of"
    if len(claimed) == len(copy):
        return 0, "is the public copy of"
    if len(claimed) < len(copy):
        return 1, f"ends before octet {len(claimed)} of the public copy of"
    return 1, f"goes on with octet {len(copy)}, behind the end of the public copy of"


def leaked(file):
    """Status and words, by reference.py's copy and sections of a clean file."""
    place = first_difference(file, public(file))
    if place is None:
        return 1, NONE
    for number, found in enumerate(reference.walk(file).rows):
        if found.offset <= place < found.offset + found.length:
            return 0, (f"octet {place} is {file[place]}, and carries values: "
                       f"section {found.number} at place {number}")
    return 0, f"octet {place} is {file[place]}, and stands outside every message"


# --- verify --------------------------------------------------------------------------------------

def check_verified(what, at, claimed, file):
    """The answer, which is one line on standard output, or the refusal."""
    one, other = write(at / "claimed", claimed), write(at / "original", file)
    done, refused = run("verify", one, other), reference.walk(file)
    if refused.outcome:
        return check(f"{what}: a refused original",
                     done.returncode == 2 and done.stdout == b"" and tells(done.stderr, refused),
                     done)
    status, words = verified(claimed, file)
    return check_ended(f"{what}: {words}", done, status, b"", f"{one}: {words} {other}\n".encode())


def verify_by_hand(at):
    for number, (file, room, _, octets) in enumerate(copy_files.COPIES):
        if room == len(file):
            check_verified(f"verify copy {number} written by hand", at, octets, file)
    write(at / "page", PAGE)
    check_ended("verify a page of HTML with itself", run("verify", "page", "page", cwd=at), 1, b"",
                b"page: octet 0 is 60, and is 0 in the public copy of page\n")


def verify_samples(at):
    for file in (SEA, LEAST):
        run("copy", file, at / file.name)
        check_ended(f"a copy of {file.name} is the public copy",
                    run("verify", at / file.name, file), 0, b"",
                    f"{at / file.name}: is the public copy of {file}\n".encode())
    # 154 is octet 12 of the first section 5, which follows octets 0 to 142: sections of 16, 21, 72
    # and 34 octets.
    done = run("verify", "sea.grib2", "sea.grib2", cwd=SAMPLES)
    check_ended("a file is not its own public copy", done, 1, b"",
                b"sea.grib2: octet 154 is 66, and is 0 in the public copy of sea.grib2\n")
    check_ended("unless it has no values", run("verify", LEAST, LEAST), 0, b"",
                f"{LEAST}: is the public copy of {LEAST}\n".encode())


def verify_changed(at):
    """One octet changed: of a header, of what is named, of values, outside; and another length."""
    copy = public(FILE)
    step = 29 if emulated() else 7
    for place in [*range(0, len(copy), step), len(copy) - 1]:
        check_verified(f"verify, octet {place} changed", at,
                       with_octet(copy, place, copy[place] ^ 0x91), FILE)
    for length in (0, 1, 3, 100, len(copy) - 1):
        check_verified(f"verify, {length} octets", at, copy[:length], FILE)
    for more in (b"\0", b"GRIB", FILE):
        check_verified(f"verify, {len(more)} octets more", at, copy + more, FILE)
    check_verified("verify, shorter and changed", at,
                   with_octet(copy[:200], 150, copy[150] ^ 1), FILE)
    check_verified("verify, an empty original", at, b"", b"")
    check_verified("verify, something for an empty original", at, b"\0", b"")


def verify_across_blocks(at):
    """Octets about the ends of the blocks that are compared at once."""
    file = copy_files.FULL * (3 * 65_536 // len(copy_files.FULL) + 1)
    copy = public(copy_files.FULL) * (len(file) // len(copy_files.FULL))
    other = write(at / "original", file)
    for place in (65_535, 65_536, 65_537, 131_071, 131_072, len(copy) - 1):
        one = write(at / "claimed", with_octet(copy, place, copy[place] ^ 255))
        done = run("verify", one, other)
        line = (f"{one}: octet {place} is {copy[place] ^ 255}, "
                f"and is {copy[place]} in the public copy of {other}\n")
        check_ended(f"verify, octet {place} of {len(copy)} changed", done, 1, b"", line.encode())


# --- leaks ---------------------------------------------------------------------------------------

def check_leaked(what, at, file):
    path, refused = write(at / "file", file), reference.walk(file)
    done = run("leaks", path)
    if refused.outcome:
        return check(f"{what}: refused",
                     done.returncode == 2 and done.stdout == b"" and tells(done.stderr, refused),
                     done)
    status, words = leaked(file)
    return check_ended(f"{what}: {words}", done, status, b"", f"{path}: {words}\n".encode())


def leaks_by_hand(at):
    """Places counted by hand in the messages of copy_files.LAID_OUT: sections 2, 5, 6 and 7 stand
    at places 2, 5, 6 and 7."""
    zeros = copy_files.COPY
    cases = [(copy_files.FILE, 0, "octet 44 is 49, and carries values: section 2 at place 2"),
             (with_octet(zeros, 44, 1), 0,
              "octet 44 is 1, and carries values: section 2 at place 2"),
             (with_octet(zeros, 84, 255), 0,
              "octet 84 is 255, and carries values: section 5 at place 5"),
             (with_octet(zeros, 91, 2), 0,
              "octet 91 is 2, and carries values: section 6 at place 6"),
             (with_octet(zeros, 103, 3), 0,
              "octet 103 is 3, and carries values: section 7 at place 7"),
             (zeros + b"\7" + zeros, 0, "octet 108 is 7, and stands outside every message"),
             (zeros + b"\0" + zeros[:4] + b"\0", 0,
              "octet 109 is 71, and stands outside every message"),
             (b"\0\0\7" + zeros, 0, "octet 2 is 7, and stands outside every message"),
             (zeros, 1, NONE),
             (zeros + bytes(9), 1, NONE),
             (b"", 1, NONE),
             (bytes(70_000), 1, NONE),
             (bytes(70_000) + b"\1", 0, "octet 70000 is 1, and stands outside every message"),
             (PAGE, 0, "octet 0 is 60, and stands outside every message"),
             (A, 1, NONE)]
    for file, status, words in cases:
        done = run("leaks", write(at / "file", file))
        check_ended(f"leaks: {words}", done, status, b"", f"{at / 'file'}: {words}\n".encode())
        check_equal("as reference.py has it", leaked(file), (status, words))


def leaks_samples():
    check_ended("leaks of a sample", run("leaks", "sea.grib2", cwd=SAMPLES), 0, b"",
                b"sea.grib2: octet 154 is 66, and carries values: section 5 at place 4\n")
    check_ended("leaks of the least sample", run("leaks", "least.grib2", cwd=SAMPLES), 1, b"",
                f"least.grib2: {NONE}\n".encode())


def leaks_changed(at):
    """One octet of a public copy changed, wherever it stands: some are no leak, and some make a
    file that is refused."""
    copy = public(FILE)
    step = 23 if emulated() else 5
    for place in range(0, len(copy), step):
        check_leaked(f"leaks, octet {place} changed", at,
                     with_octet(copy, place, copy[place] ^ 0x91))


def leaks_one_by_one(at):
    files = [file for file, room in copy_files.swept_copies()
             if room == len(file) and len(file) < 5000]
    for number, file in enumerate(files[::90] if emulated() else files[::20]):
        check_leaked(f"leaks of file {number}", at, file)
        copy = public(file)
        if copy:
            check_leaked("leaks of its copy", at, copy)


def eccodes(at):
    paths = [path for path in sorted(ECCODES_SAMPLES.glob("*.tmpl"))
             if path.stat().st_size < 40_000]
    if not paths:
        skip("leaks of eccodes' samples", "eccodes is not installed (package libeccodes-data)")
    for path in paths[::12]:
        check_leaked(f"leaks of {path.name}", at, path.read_bytes())


# --- What has no answer --------------------------------------------------------------------------

def unanswered(at):
    write(at / "cut", CUT.read_bytes())
    write(at / "sea", SEA.read_bytes())
    (at / "folder").mkdir()
    refused = b"buttresk: cut: refused by 2 (cut): "
    for words, reason in (
            (("leaks", "cut"), refused),
            (("verify", "sea", "cut"), refused),
            (("verify", "cut", "cut"), refused),
            (("leaks", "missing"), b"buttresk: missing: No such file or directory\n"),
            (("verify", "missing", "sea"), b"buttresk: missing: No such file or directory\n"),
            (("verify", "sea", "missing"), b"buttresk: missing: No such file or directory\n"),
            (("leaks", "folder"), b"buttresk: folder: Is a directory\n"),
            (("verify", "folder", "sea"), b"buttresk: folder: Is a directory\n"),
            (("verify", "sea", "folder"), b"buttresk: folder: Is a directory\n")):
        done = run(*words, cwd=at)
        check_ended(" ".join(words), done, 2, reason, b"")
        check("is told in one line", done.stderr.count(b"\n") == 1, done.stderr)
    check_ended("a refused file may be compared as PUBLIC",
                run("verify", "cut", "sea", cwd=at), 1, b"")
    for words in (("leaks", "sea"), ("verify", "sea", "sea")):
        with open("/dev/full", "wb") as full:
            check_ended(f"{words[0]} onto a full device", run(*words, cwd=at, stdout=full), 2,
                        b"buttresk: standard output: No space left on device\n")


def names(at):
    name = "line\nfeed \\ and tab\t"
    write(at / name, SEA.read_bytes())
    shown = "line\\nfeed \\\\ and tab\\t"
    check_ended("leaks of a name of any octets is one line", run("leaks", name, cwd=at), 0, b"",
                f"{shown}: octet 154 is 66, and carries values: section 5 at place 4\n".encode())
    check_ended("and verify", run("verify", name, name, cwd=at), 1, b"",
                f"{shown}: octet 154 is 66, and is 0 in the public copy of {shown}\n".encode())


def has_spool(process):
    """Whether a file without a name is mapped: so the system shows the spool."""
    try:
        maps = Path(f"/proc/{process.pid}/maps").read_text().splitlines()
    except OSError:
        return False
    return any("/#" in line and line.endswith(" (deleted)") for line in maps)


def changing_files(at):
    """Nothing is answered of a file that changed while it was read. The spool is unmapped before
    the last look at the files, so while it is mapped that look is still to come."""
    path, other = at / "file", write(at / "other file", A * messages())
    for what, act, reason in CHANGES:
        for words in (("leaks", path), ("verify", other, path), ("verify", path, other)):
            done = changed_while_at_work(path, act, *words, at_work=has_spool)
            check_ended(f"{words[0]}, {'PUBLIC' if words[1:] == (path, other) else 'the file'} "
                        f"is {what}", done, 2, reason, b"")


# --- The spool -----------------------------------------------------------------------------------

def in_folder(name):
    return {"env": {**os.environ, "TMPDIR": str(name)}}


def spool(at):
    """Whether TMPDIR is there or not, and nothing is left in it."""
    (at / "spool").mkdir()
    write(at / "a file", b"")
    for name in ("spool", "missing", "a file", ""):
        done = run("leaks", SEA, **in_folder(at / name if name else ""))
        check_ended(f"a spool where TMPDIR is {name or 'empty'}", done, 0)
    check_equal("nothing is left", names_in(at / "spool"), [])


ON_SMALL_SPOOL = ('mount -t tmpfs -o size=64k none "$TMPDIR" || exit 99; "$@"; echo "status $?"; '
                  'ls -A "$TMPDIR"; df --output=used "$TMPDIR"')


def full_spool(at):
    if not is_root() or shutil.which("unshare") is None:
        skip("a spool that is full", "a small disk can't be mounted (it takes root and unshare)")
        return
    (at / "spool").mkdir()
    file = write(at / "file", A * 3000)
    for words in (("leaks", file), ("verify", file, file)):
        done = subprocess.run(["unshare", "--mount", "sh", "-c", ON_SMALL_SPOOL, "sh",
                               *Command.words(*words)],
                              capture_output=True, timeout=60, **in_folder(at / "spool"))
        if done.returncode == 99:
            skip("a spool that is full", "tmpfs can't be mounted here")
            return
        told = (f"buttresk: {file}: could not be spooled in TMPDIR, /var/tmp or /tmp: "
                "No space left on device\n").encode()
        check(f"{words[0]} without room for its spool",
              done.stderr == told
              and done.stdout.split() == [b"status", b"2", b"Used", b"0"], done)


def memory(at):
    """A file of zeros but for its frame and the last octet: the pages of the file and of the spool
    are handed back."""
    size = 256 * MEBIBYTE
    head, end = long_message(size)
    path = write_at(at / "file", [(0, head), (end - 1, b"\5" + END)])
    own = run_measured("index", path)[3] if emulated() else 0
    status, printed, errors, touched, mapped = run_measured("leaks", path)
    line = f"{path}: octet {end - 1} is 5, and carries values: section 7 at place 6\n".encode()
    check("leaks of a section 7 of 256 MiB",
          (status, printed, errors) == (0, line, b""), (status, printed, errors))
    check(f"touches under 64 MiB of memory: {(touched - own) // MEBIBYTE}, "
          f"{mapped // MEBIBYTE} of it the file's",
          touched - own < MOST_TOUCHED and mapped < MOST_TOUCHED, (touched, own, mapped))


def everything():
    leaks_samples()
    for part in (verify_by_hand, verify_samples, verify_changed, verify_across_blocks,
                 leaks_by_hand, leaks_changed, leaks_one_by_one, eccodes, unanswered, names,
                 changing_files, spool, full_spool, memory):
        with folder() as name:
            part(Path(name))
