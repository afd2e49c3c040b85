"""`copy`: the octets against `reference.py`, what may stand at DEST, copies into a folder, and that
DEST is absent, old or whole whenever it is killed."""

import os
import random
import re
import resource
import shutil
import signal
import socket
import stat
import subprocess
import threading
import time
from pathlib import Path

import copy_files
import reference
from errors import as_somebody
from shared import (ECCODES_SAMPLES, SAMPLES, Command, check, check_ended, check_equal, emulated,
                    finish, folder, is_root, meanwhile, names_in, run, skip, start, tells, write)
from walk_files import A, END, least, message, section

OLD = b"what stood here before"

# --- Octets --------------------------------------------------------------------------------------

def copied(at, file, *options):
    """The copy of a file, and what the command said; the folder is left as it was but for the
    file."""
    source, dest = write(at / "file", file), at / "copy"
    done = run("copy", *options, source, dest)
    octets = dest.read_bytes() if dest.exists() else None
    dest.unlink(missing_ok=True)
    return done, octets


def by_hand(at):
    for number, (file, room, answer, octets) in enumerate(copy_files.COPIES):
        if room == len(file):
            done, found = copied(at, file)
            told = done.returncode, done.stdout, done.stderr, found
            check(f"copy {number} written by hand", told == (0, b"", b"", octets), told)


def one_by_one(at):
    files = [file for file, room in copy_files.swept_copies() if room == len(file)]
    chosen = files[::12] if emulated() else files[::3]
    wrong = []
    for file in chosen:
        done, found = copied(at, file)
        expected = reference.public_copy(file, len(file))
        if ((found, done.returncode) != ((None, 1) if expected.outcome else (expected.octets, 0))
                or not tells(done.stderr, expected)):
            wrong.append((file[:200], done, found))
    check(f"copies of {len(chosen)} files, clean and refused, as reference.py says",
          not wrong, wrong[:3])


def all_in_one(at):
    """Every clean file of the list, one behind the other."""
    files = [file for file, room in copy_files.swept_copies()
             if not reference.walk(file).outcome and len(file) < 5000]
    while files and reference.walk(b"".join(files)).outcome:
        files = files[:len(files) // 2]
    file = b"".join(files)
    done, found = copied(at, file)
    check(f"the copy of {len(files)} clean files in one, {len(file)} octets, as reference.py says",
          len(files) > 20 and done.returncode == 0
          and found == reference.public_copy(file, len(file)).octets, done)


def long_sections(at):
    """Values of many pages, of octets that are all unlike 0."""
    body = (least(1) + section(2, copy_files.loaded(9000)) + least(3, 4)
            + section(5, copy_files.loaded(5000)))
    file = message(body + section(6, copy_files.loaded(200_001))
                   + section(7, copy_files.loaded(300_001)) + END)
    done, found = copied(at, b"between" + file + b"behind")
    expected = reference.public_copy(b"between" + file + b"behind", 10**6).octets
    check("the copy of sections of many pages as reference.py says",
          done.returncode == 0 and found == expected, done)


def same_index_and_fields(at):
    dest = at / "sea"
    run("copy", SAMPLES / "sea.grib2", dest)
    for verb in ("index", "fields"):
        check_equal(f"the copy's {verb} is the file's",
                    run(verb, dest).stdout, run(verb, SAMPLES / "sea.grib2").stdout)
    check_ended("a copy can be copied", run("copy", dest, at / "again"), 0)
    check_equal("the copy of a copy is the copy", (at / "again").read_bytes(), dest.read_bytes())
    dest.unlink()
    (at / "again").unlink()


def eccodes(at):
    paths = [path for path in sorted(ECCODES_SAMPLES.glob("*.tmpl"))
             if path.stat().st_size < 40_000]
    if not paths:
        skip("copies of eccodes' samples", "eccodes is not installed (package libeccodes-data)")
        return
    wrong = []
    for path in paths[::4]:
        file = path.read_bytes()
        done, found = copied(at, file)
        expected = reference.public_copy(file, len(file))
        if found != (None if expected.outcome else expected.octets):
            wrong.append((path.name, done))
    check(f"copies of {len(paths[::4])} samples of eccodes, of other codes and editions too, "
          "as reference.py says", not wrong, wrong)


def decoded(at):
    """What eccodes makes of a copy: zeros that nothing tells from values, and where there is a bit
    map no values at all."""
    if shutil.which("grib_get") is None:
        skip("copies decoded", "eccodes is not installed (package libeccodes-tools)")
        return
    run("copy", SAMPLES / "sea.grib2", at / "sea")
    words = ["grib_get", "-p", "shortName,numberOfMissing,min,max", at / "sea"]
    found = subprocess.run(words, capture_output=True, text=True, timeout=60).stdout.splitlines()
    wind_and_pressure = [line for line in found if not line.startswith("swh ")]
    check_equal("a decoder takes wind and pressure of a copy for 0",
                wind_and_pressure, ["10u 0 0 0", "10v 0 0 0", "prmsl 0 0 0"])
    check("and the waves, which have a bit map, for missing at all 12 points",
          any(line.startswith("swh 12 ") for line in found), found)


# --- Holes ---------------------------------------------------------------------------------------

def with_values(payload, sections=5):
    """Messages with this payload in each section 7. Of zeros it is its own public copy: all else in
    it is kept."""
    return message(least(1, 3, 4, 5, 6) + section(7, payload) + END) * sections


def has_holes(at):
    """Whether this file system has files that take less room than they are long."""
    with open(at / "hole", "wb") as file:
        file.truncate(2**20)
    found = (at / "hole").stat().st_blocks
    os.unlink(at / "hole")
    return found == 0


def holes(at):
    """What is all zero takes no room, and the octets are the same: about the least size of a hole
    too, wherever it begins."""
    if not has_holes(at):
        skip("copies with holes", "this file system has none")
        return
    size = 2**21 + 12_345
    file, dest = write(at / "file", with_values(b"\x81" * size)), at / "dest"
    check_ended("a copy of large sections 7", run("copy", file, dest), 0)
    expected = with_values(bytes(size))
    check("has the octets and the length that it should",
          dest.read_bytes() == expected, dest.stat())
    taken = dest.stat().st_blocks * 512
    check(f"and takes little room on the disk: {taken} of {len(expected)} octets",
          taken < len(expected) // 20, dest.stat())
    wrong = []
    for size in (4096, 65_535, 65_536, 65_537, 69_632, 69_700, 73_728, 131_072):
        done = run("copy", "--force",
                   write(file, b"before" + with_values(b"\x42" * size, 9) + b"\1" * 70_000), dest)
        if (done.returncode != 0
                or dest.read_bytes() != bytes(6) + with_values(bytes(size), 9) + bytes(70_000)):
            wrong.append((size, done))
    check("copies with runs of zeros about the least hole, at any offset, have their octets",
          not wrong, wrong)
    # What is kept may begin where a block does, and may be one octet again and again too.
    kept = message(least(1) + section(3, b"\x55" * 300_000) + least(4, 5, 6, 7) + END)
    for what, begun, behind in (("outside a message", 65_536, b""),
                                ("before a message", 69_632, A),
                                ("before much that is kept", 131_072, kept)):
        write(file, b"\7" * begun + behind)
        check_ended(f"a copy of {begun} octets {what}", run("copy", "--force", file, dest), 0)
        check("has its octets", dest.read_bytes() == bytes(begun) + behind, dest.stat())


def without_holes(at):
    """A file system that can't make them copies all the same."""
    if not is_root() or shutil.which("unshare") is None:
        skip("a copy where there are no holes",
             "such a disk can't be mounted (it takes root and unshare)")
        return
    size, disk = 300_000, at / "disk"
    disk.mkdir()
    file = write(at / "file", with_values(b"\x42" * size))
    made = subprocess.run(["unshare", "--mount", "sh", "-c",
                           'mount -t ramfs none "$DISK" || exit 99; "$@" && cat "$DISK/dest"',
                           "sh", *Command.words("copy", file, disk / "dest")],
                          capture_output=True, timeout=60, env={**os.environ, "DISK": disk})
    if made.returncode == 99:
        skip("a copy where there are no holes", "ramfs can't be mounted here")
        return
    check("a copy where the file system has no holes",
          made.returncode == 0 and made.stdout == with_values(bytes(size)), made.stderr)


# --- What may stand at DEST ----------------------------------------------------------------------

def ways_to(at, file):
    """Names that lead to the file itself."""
    (at / "folder").mkdir()
    os.symlink(file, at / "symbolic")
    os.symlink("symbolic", at / "symbolic of symbolic")
    os.link(file, at / "hard")
    return {"its path": file,
            "a longer path": at / "folder" / ".." / file.name,
            "a symbolic link": at / "symbolic",
            "a link to a link": at / "symbolic of symbolic",
            "a hard link": at / "hard"}


def dest_is_file(at):
    file = write(at / "same", SAMPLES.joinpath("sea.grib2").read_bytes())
    for how, dest in ways_to(at, file).items():
        for options in ((), ("--force",)):
            before = names_in(at), file.read_bytes()
            done = run("copy", *options, file, dest)
            check_ended(f"DEST that is FILE by {how} is refused {' '.join(options)}", done, 2,
                        b": is the file that is to be copied\n", b"")
            check("and nothing has changed", (names_in(at), file.read_bytes()) == before)
    check_ended("and FILE that is a link to DEST", run("copy", "--force", at / "symbolic", file), 2,
                b"is the file that is to be copied")
    check_ended("and a relative path",
                run("copy", "--force", "same", "./folder/../same", cwd=at), 2,
                b"is the file that is to be copied")


def whole_copy():
    file = SAMPLES.joinpath("sea.grib2").read_bytes()
    return reference.public_copy(file, len(file)).octets


def existing_dest(at):
    sea, dest = SAMPLES / "sea.grib2", write(at / "dest", OLD)
    os.chmod(dest, 0o600)
    os.link(dest, at / "other name")
    check_ended("an existing DEST is refused", run("copy", sea, dest), 2,
                b": exists already; --force replaces it\n")
    check_equal("and is as it was", dest.read_bytes(), OLD)
    check_ended("with --force it is replaced",
                run("copy", "--force", sea, dest, preexec_fn=lambda: os.umask(0o027)), 0)
    check_equal("by the whole copy", dest.read_bytes(), whole_copy())
    check_equal("by a rename: another name of the old file has the old octets",
                (at / "other name").read_bytes(), OLD)
    check_equal("its mode is 0666 less the umask", stat.S_IMODE(dest.stat().st_mode), 0o640)
    check_ended("--force may stand last, and DEST be absent",
                run("copy", sea, at / "new", "--force"), 0)
    check_equal("nothing else is left", names_in(at), ["dest", "new", "other name"])


def refused_file(at):
    cut, dest = SAMPLES / "cut.grib2", at / "dest"
    check_ended("a refused FILE is told", run("copy", cut, dest), 1, b"refused by 2 (cut): ", b"")
    check_equal("and leaves no DEST", names_in(at), [])
    write(dest, OLD)
    check_ended("with --force too", run("copy", "--force", cut, dest), 1,
                b"place 16, offset 390, detail 17 (17 octets are missing)\n", b"")
    check_equal("and leaves an existing DEST alone",
                (names_in(at), dest.read_bytes()), (["dest"], OLD))


def unfit_dests(at):
    """Whatever is no regular file is never replaced."""
    os.symlink("elsewhere", at / "a dangling link")
    write(at / "other", OLD)
    os.symlink("other", at / "a link to another file")
    os.mkfifo(at / "a pipe")
    server = socket.socket(socket.AF_UNIX)
    server.bind(str(at / "a socket"))
    special = b": is not a regular file, and is not replaced\n"
    cases = [("a dangling link", special),
             ("a link to another file", special),
             ("a pipe", special),
             ("a socket", special),
             ("missing/dest", b": No such file or directory\n"),
             ("other/dest", b": Not a directory\n"),
             ("new/", b": No such file or directory\n"),
             ("x" * 300, b": File name too long\n")]
    before = names_in(at)
    for name, reason in cases:
        done = run("copy", "--force", SAMPLES / "sea.grib2", f"{at}/{name}")
        check_ended(f"DEST is {name[:40]}: refused with --force too", done, 2, reason, b"")
    check_ended("DEST is a device",
                run("copy", "--force", SAMPLES / "sea.grib2", "/dev/null"), 2, special)
    check_ended("DEST is the empty name", run("copy", SAMPLES / "sea.grib2", ""), 2,
                b"No such file or directory")
    check("nothing has changed",
          names_in(at) == before and (at / "other").read_bytes() == OLD, names_in(at))
    server.close()


def folder_inside(at):
    """The copy's own name in the folder may be taken by a folder, or by a link to one."""
    (at / "sea.grib2").mkdir()
    (at / "links").mkdir()
    os.symlink(at / "sea.grib2", at / "links" / "sea.grib2")
    for options in ((), ("--force",)):
        done = run("copy", *options, SAMPLES / "sea.grib2", at)
        check_ended(f"a folder in FOLDER by the copy's name is refused {' '.join(options)}",
                    done, 2, b"/sea.grib2: Is a directory\n", b"")
        done = run("copy", *options, SAMPLES / "sea.grib2", at / "links")
        check_ended(f"and a link to one {' '.join(options)}", done, 2,
                    b"/sea.grib2: is not a regular file, and is not replaced\n", b"")
    check_equal("nothing has changed",
                (names_in(at), names_in(at / "sea.grib2")), (["links", "sea.grib2"], []))


# --- Copies into a folder ------------------------------------------------------------------------

def into_folder(at):
    sea, whole = SAMPLES / "sea.grib2", whole_copy()
    (at / "there").mkdir()
    os.symlink("there", at / "link")
    for number, (dest, how) in enumerate((("there", "its name"),
                                          ("there/", "its name and a slash"),
                                          ("link", "a link to it"),
                                          ("there/.", "a dot in it"),
                                          ("there//", "two slashes"))):
        file = write(at / f"file-{number}", sea.read_bytes())
        check_ended(f"a copy into a folder by {how}",
                    run("copy", f"file-{number}", dest, cwd=at), 0, b"", b"")
        check_equal("stands there by its own name", (at / "there" / file.name).read_bytes(), whole)
    check_equal("and nothing else does",
                names_in(at / "there"), [f"file-{number}" for number in range(5)])
    check_ended("a copy that stands there already is refused",
                run("copy", at / "file-0", at / "there"), 2,
                b"/there/file-0: exists already; --force replaces it\n")
    check_ended("and replaced with --force", run("copy", "--force", at / "file-0", at / "there"), 0)
    check_ended("a file into its own folder is refused",
                run("copy", "--force", "file-0", ".", cwd=at), 2,
                b"buttresk: ./file-0: is the file that is to be copied\n")


def many_into_folder(at):
    sea, least_file = SAMPLES / "sea.grib2", SAMPLES / "least.grib2"
    (at / "there").mkdir()
    done = run("copy", sea, least_file, at / "there")
    check_ended("two files into a folder", done, 0, b"", b"")
    check_equal("are both there",
                {name: (at / "there" / name).read_bytes() for name in names_in(at / "there")},
                {"least.grib2": least_file.read_bytes(), "sea.grib2": whole_copy()})
    done = run("copy", "--force", SAMPLES / "cut.grib2", "missing", sea, at / "there", cwd=at)
    check("of a refused, a missing and a clean one the clean one is copied, "
          "and the highest status counts",
          done.returncode == 2 and done.stderr.count(b"\n") == 2
          and b"refused by 2" in done.stderr and b"missing: No such file" in done.stderr
          and names_in(at / "there") == ["least.grib2", "sea.grib2"], done)
    done = run("copy", "--force", SAMPLES / "cut.grib2", sea, at / "there")
    check_ended("of a refused and a clean one it is 1", done, 1, b"refused by 2")


def no_folder(at):
    """What has to be a folder, and is none: nothing is copied."""
    write(at / "a", b"")
    write(at / "b", b"")
    write(at / "file", OLD)
    os.symlink("nowhere", at / "dangling")
    before = names_in(at)
    for words, reason in (
            (("a", "b", "missing"), b"buttresk: missing: No such file or directory\n"),
            (("a", "b", "file"), b"buttresk: file: is no folder\n"),
            (("a", "file/"), b"buttresk: file/: Not a directory\n"),
            (("a", "missing/"), b"buttresk: missing/: No such file or directory\n"),
            (("a", "b", "dangling"), b"buttresk: dangling: No such file or directory\n"),
            (("a", "b", ""), b"buttresk: : No such file or directory\n"),
            (("a", "b", "/dev/null"), b"buttresk: /dev/null: is no folder\n")):
        done = run("copy", "--force", *words, cwd=at)
        check_ended(f"copy {' '.join(words)}", done, 2, reason, b"")
        check_equal("is told in one line", done.stderr, reason)
    check("and nothing has changed",
          names_in(at) == before and (at / "file").read_bytes() == OLD, names_in(at))


def same_last_parts(at):
    """The second copy would replace the first: none is made."""
    for name in ("one", "other", "there"):
        (at / name).mkdir()
    for path in ("one/x", "other/x", "one/y"):
        write(at / path, b"")
    for words in (("one/x", "one/y", "other/x"),
                  ("one/y", "one/x", "other//x"),
                  ("one/x", "./one/x", "one/y")):
        pair = [word for word in words if word.endswith("x")]
        for options in ((), ("--force",)):
            done = run("copy", *options, *words, "there", cwd=at)
            reason = f"buttresk: {pair[0]} and {pair[1]}: both copies would be there/x\n".encode()
            check_ended(f"copy {' '.join((*options, *words))}: two of one last part are refused",
                        done, 2, reason, b"")
            check_equal("in one line, before anything is copied",
                        (done.stderr, names_in(at / "there")), (reason, []))
    done = run("copy", "one/x/", "one/y", "there", cwd=at)
    check_ended("slashes behind a name don't count as its last part", done, 2,
                b"buttresk: one/x/: Not a directory\n")
    check_equal("and the other is copied", names_in(at / "there"), ["y"])
    many = [f"one/{number}" for number in range(40)]
    for path in many:
        write(at / path, b"")
    check_ended("forty of different last parts are copied", run("copy", *many, "there", cwd=at), 0)
    check_equal("each", len(names_in(at / "there")), 41)


def standard_input_into_folder(at):
    (at / "there").mkdir()
    write(at / "a", b"")
    for words in (("-", "there"), ("a", "-", "there"), ("-", "there/")):
        done = run("copy", *words, cwd=at)
        check_ended(f"copy {' '.join(words)}: standard input has no name", done, 2,
                    b"buttresk: -: standard input has no name ", b"")
    check_equal("and nothing is copied", names_in(at / "there"), [])
    write(at / "-", SAMPLES.joinpath("sea.grib2").read_bytes())
    check_ended("a file of that name has one", run("copy", "./-", "there", cwd=at), 0)
    check_equal("and its copy too", (at / "there" / "-").read_bytes(), whole_copy())


# --- The order of the system's calls -------------------------------------------------------------

CALLS = ("fsync", "fdatasync", "linkat", "renameat", "renameat2", "rename", "link")


def listing_words(log, *arguments):
    """The command so that its system's calls are listed in a file; None where nothing can list
    them."""
    if emulated() and Path(Command.emulator[0]).name.startswith("qemu-"):
        return [Command.emulator[0], "-strace", "-D", str(log), *Command.words(*arguments)[1:]]
    return (["strace", "-f", "-o", str(log), *Command.words(*arguments)]
            if shutil.which("strace") else None)


def system_calls(at, *arguments, calls=CALLS, **options):
    """The calls that matter, each with the process that made it, in their order; None where nothing
    can list them."""
    log = at.parent / (at.name + ".calls")
    words = listing_words(log, *arguments)
    if words is None:
        return None
    subprocess.run(words, capture_output=True, timeout=120, **options)
    text = log.read_text(errors="replace")
    log.unlink()
    return calls_in(text, calls)


def calls_in(text, calls):
    """Threads write to the list at once: a call may begin in the middle of a line."""
    return re.findall(r"(\d+) +(%s)\(" % "|".join(calls), text)


def order_of_calls(at):
    sea, dest = SAMPLES / "sea.grib2", at / "dest"
    calls = system_calls(at, "copy", sea, dest)
    if calls is None:
        skip("the order of syncing and naming",
             "neither strace nor qemu is there to list the system's calls")
        return
    check_equal("a copy is synced, then named, then its folder is synced",
                [name for _, name in calls], ["fsync", "linkat", "fsync"])
    calls = system_calls(at, "copy", "--force", sea, dest)
    check_equal("and one that replaces is renamed",
                [name for _, name in calls], ["fsync", "linkat", "linkat", "renameat", "fsync"])
    own, child = ({process for process, _ in calls[:2] + calls[4:]},
                  {process for process, _ in calls[2:4]})
    check("by a child, which a kill of the command does not reach",
          len(own) == 1 and len(child) == 1 and own != child, calls)


# --- A folder that may not be listed -------------------------------------------------------------

def unlisted_folder(at):
    """Written and searched, as `cp` has it: the copy stands there, and what can't be synced alone
    is synced with all of its disk."""
    with as_somebody(at) as somebody:
        file, closed = write(at / "file", SAMPLES.joinpath("sea.grib2").read_bytes()), at / "closed"
        closed.mkdir()
        os.chmod(file, 0o644)
        if somebody:
            os.chown(closed, somebody["user"], somebody["group"])
        os.chmod(closed, 0o300)
        check_ended("a copy to a folder that may be written and searched but not listed",
                    run("copy", file, closed / "dest", **somebody), 0)
        check_equal("is whole", octets_of(closed / "dest"), whole_copy())
        check_ended("it is seen there", run("copy", file, closed / "dest", **somebody), 2,
                    b": exists already; --force replaces it\n")
        check_ended("and replaced with --force",
                    run("copy", "--force", file, closed / "dest", **somebody), 0)
        check_ended("a copy into such a folder", run("copy", file, closed, **somebody), 0)
        calls = system_calls(at, "copy", file, closed / "listed",
                             calls=(*CALLS, "syncfs"), **somebody)
        if calls is not None:
            check_equal("its file system is synced instead",
                        [name for _, name in calls], ["fsync", "linkat", "syncfs"])
        os.chmod(closed, 0o700)
        check_equal("nothing else is there", names_in(closed), ["dest", "file", "listed"])


def octets_of(path):
    return path.read_bytes() if path.exists() else None


# --- A disk that is full -------------------------------------------------------------------------

# A file of so many octets, or of as many as the disk seems to have free, to be copied onto a disk
# that has the log as well.
ON_SMALL_DISK = """
mount -o loop "$IMAGE" "$DISK" || exit 99
echo old >"$DISK/dest"
>"$DISK/log"
sync -f "$DISK"
truncate -s "${SIZE:-$(($(stat -f -c %f "$DISK") * $(stat -f -c %S "$DISK")))}" "$FILE"
[ -z "$HIDE" ] || mount -t tmpfs none /proc
"$@" 2>>"$DISK/log"
echo "status $?"; ls -A "$DISK"; cat "$DISK/dest" "$DISK/log"
"""
TOLD = "status 2\ndest\nlog\nlost+found\nold\nbuttresk: {}: No space left on device\n"


def small_disk(at):
    """An ext4 of 8 MiB in a file; None where there is none."""
    if not is_root() or shutil.which("unshare") is None or shutil.which("mke2fs") is None:
        return None
    with open(at / "image", "wb") as image:
        image.truncate(8 * 2**20)
    (at / "disk").mkdir()
    made = subprocess.run(["mke2fs", "-q", "-t", "ext4", "-F", at / "image"],
                          capture_output=True, timeout=60)
    return at / "image" if made.returncode == 0 else None


def copied_onto(at, words, size="", hide=""):
    """What the script above prints, in a mount namespace of its own."""
    environment = {"IMAGE": at / "image", "DISK": at / "disk", "FILE": at / "file",
                   "SIZE": size, "HIDE": hide}
    return subprocess.run(["unshare", "--mount", "sh", "-c", ON_SMALL_DISK, "sh", *words],
                          capture_output=True, timeout=60, env={**os.environ, **environment})


def full_disk_is_told(at):
    """On the disk itself: the reason is said when its room is free again."""
    if small_disk(at) is None:
        skip("a full disk that is told in a log on it",
             "an ext4 in a file can't be made (it takes root, unshare and mke2fs)")
        return
    for name, options in (("new", []), ("dest", ["--force"])):
        words = Command.words("copy", *options, at / "file", at / "disk" / name)
        told = TOLD.format(at / "disk" / name).encode()
        for what, size, hide in (("a file much larger than the disk", "20000000", ""),
                                 ("a file as large as all that seems free", "", ""),
                                 ("one much larger, by a hidden name", "20000000", "1"),
                                 ("one as large, by a hidden name", "", "1")):
            done = copied_onto(at, words, size, hide)
            if done.returncode == 99:
                skip("a full disk that is told in a log on it",
                     "a file can't be mounted here (it takes loop devices)")
                return
            check(f"copy {' '.join(options)}: {what} is told in a log on that disk",
                  (done.returncode, done.stdout) == (0, told), done)
    looked_at_first(at)


ON_FILLED_DISK = """
mount -t tmpfs -o size=1m none "$DISK" || exit 99
"$@" 2>"$DISK/log"
echo "status $?"; ls -A "$DISK"; cat "$DISK/log"
"""


def refusal_is_told(at):
    """A file whose copy takes all of the disk, and which is refused only then: the log on that disk
    has the refusal."""
    if not is_root() or shutil.which("unshare") is None:
        skip("a refusal that is told on the copy's own disk",
             "a small disk can't be mounted (it takes root and unshare)")
        return
    (at / "disk").mkdir()
    file = write(at / "file", bytes(2**20 - 40) + copy_files.FULL[:40])
    done = subprocess.run(["unshare", "--mount", "sh", "-c", ON_FILLED_DISK, "sh",
                           *Command.words("copy", file, at / "disk" / "dest")],
                          capture_output=True, timeout=60,
                          env={**os.environ, "DISK": str(at / "disk")})
    if done.returncode == 99:
        skip("a refusal that is told on the copy's own disk", "tmpfs can't be mounted here")
        return
    check("a refusal is told on the disk that its copy had filled",
          done.stdout.startswith(b"status 1\nlog\nbuttresk: ")
          and b": refused by 2 (cut): " in done.stdout
          and done.stdout.endswith(b" octets are missing)\n"), done)


def looked_at_first(at):
    words = listing_words(at / "calls", "copy", at / "file", at / "disk" / "new")
    if words is None:
        skip("that no room is taken in vain",
             "neither strace nor qemu is there to list the system's calls")
        return
    copied_onto(at, words, "20000000")
    calls = [name for _, name in calls_in((at / "calls").read_text(errors="replace"),
                                          ("fstatfs", "fallocate"))]
    check("where there is too little room none is taken",
          "fstatfs" in calls and "fallocate" not in calls, calls)


# --- Killed in the middle ------------------------------------------------------------------------

def busy_file():
    """Takes some tenths of a second to copy."""
    return copy_files.FULL * (1500 if emulated() else 60_000)


def duration(at, file):
    """How long a copy takes, from two of them."""
    begun = time.monotonic()
    for _ in range(2):
        run("copy", "--force", file, at / "measured")
    os.unlink(at / "measured")
    return (time.monotonic() - begun) / 2


def killed_at(moment, group, *arguments):
    """The status of a copy that is sent SIGKILL after so many seconds, alone or with its group."""
    process = start(*arguments, stdout=subprocess.DEVNULL, stderr=subprocess.DEVNULL,
                    start_new_session=True)
    time.sleep(moment)
    if process.poll() is None:
        (os.killpg if group else os.kill)(process.pid, signal.SIGKILL)
    return process.wait(timeout=60)


def settled(at, allowed):
    """What stands in the folder; what a child of a killed command still renames gets a moment."""
    for _ in range(100):
        names = names_in(at)
        if set(names) <= allowed:
            break
        time.sleep(0.02)
    return names


def kills(at, times):
    file, dest = write(at / "file", busy_file()), at / "dest"
    whole = whole_of(file)
    lasts = duration(at, file)
    found = {"absent": 0, "old": 0, "whole": 0}
    wrong, ended = [], 0
    for number in range(times):
        force = number % 2 == 1
        dest.unlink(missing_ok=True)
        if force:
            write(dest, OLD)
        # Half of them late, where the copy is put in place; sooner than it lasts, since one without
        # --force has none to put aside.
        moment = random.uniform(0 if number % 4 < 2 else 0.5 * lasts, lasts)
        status = killed_at(moment, number % 3 == 0,
                           "copy", *(["--force"] if force else []), file, dest)
        ended += status == 0
        state = dest_state(dest, whole)
        if (set(settled(at, {"file", "dest"})) - {"file", "dest"} or state not in found
                or state == ("old", "absent")[force]):
            wrong.append((number, moment, status, state, names_in(at)))
        found[state] = found.get(state, 0) + 1
    check(f"{times} copies killed at random moments: DEST is absent, old or whole, "
          "and nothing is beside it", not wrong, wrong[:5])
    check(f"the moments were spread: {found}, {ended} not killed",
          min(found.values()) >= times // 20 and ended < times * 2 // 3, found)


def whole_of(file):
    """The copy that is expected, by reference.py: it is the same message again and again."""
    size = len(copy_files.FULL)
    return reference.public_copy(copy_files.FULL, size).octets * (file.stat().st_size // size)


def dest_state(dest, whole):
    try:
        octets = dest.read_bytes()
    except FileNotFoundError:
        return "absent"
    return "old" if octets == OLD else "whole" if octets == whole else f"{len(octets)} other octets"


def others_always_see_a_file(at):
    """Who opens DEST while it is replaced finds the old or the new octets, and always a file."""
    file, dest = write(at / "file", copy_files.FULL * 1000), write(at / "dest", OLD)
    whole, seen, over = whole_of(file), set(), threading.Event()

    def look():
        while not over.is_set():
            seen.add(dest_state(dest, whole))
    reader = threading.Thread(target=look)
    reader.start()
    statuses = [run("copy", "--force", file, dest).returncode for _ in range(8)]
    over.set()
    reader.join()
    check("who opens DEST while it is replaced finds it old or whole",
          statuses == [0] * 8 and seen == {"old", "whole"}, (statuses, seen))


# --- Where a file can't be without a name --------------------------------------------------------

def hidden_words(*arguments):
    """The command where /proc is empty, so that a file without a name can't be given one."""
    return ["unshare", "--mount", "sh", "-c", 'mount -t tmpfs none /proc && exec "$@"', "sh",
            *Command.words(*arguments)]


def can_hide(at):
    if not is_root() or shutil.which("unshare") is None:
        return False
    done = subprocess.run(hidden_words("copy", SAMPLES / "sea.grib2", at / "try"),
                          capture_output=True, timeout=60)
    return done.returncode == 0


def hidden(at):
    if not can_hide(at):
        skip("copies by a hidden name",
             "a /proc that is empty can't be had (it takes root and unshare)")
        return
    check_equal("where a file can't be without a name a copy is whole all the same",
                (at / "try").read_bytes(), whole_copy())
    check_equal("and nothing is beside it", names_in(at), ["try"])
    done = subprocess.run(hidden_words("copy", SAMPLES / "cut.grib2", at / "refused"),
                          capture_output=True, timeout=60)
    check("a refused one leaves nothing",
          done.returncode == 1 and names_in(at) == ["try"], (done, names_in(at)))
    done = subprocess.run(hidden_words("copy", SAMPLES / "sea.grib2", at / "try"),
                          capture_output=True, timeout=60)
    check_ended("an existing DEST is refused there too", done, 2, b"exists already")
    done = subprocess.run(hidden_words("copy", "--force", SAMPLES / "sea.grib2", at / "try"),
                          capture_output=True, timeout=60)
    check("and replaced with --force",
          done.returncode == 0 and names_in(at) == ["try"], (done, names_in(at)))
    cut_hidden(at)
    stopped_hidden(at)


# Each that ends a process and can be caught, but those of a faulty access. SIGSTKFLT has a name in
# Python since 3.11 alone.
SIGSTKFLT = 16
STOPS = (signal.SIGTERM, signal.SIGINT, signal.SIGHUP, signal.SIGQUIT, signal.SIGALRM,
         signal.SIGUSR1, signal.SIGUSR2, signal.SIGXCPU, signal.SIGVTALRM, signal.SIGPROF,
         signal.SIGIO, signal.SIGPWR, signal.SIGABRT, signal.SIGSYS, SIGSTKFLT,
         signal.SIGRTMIN + 5)
# Those which an emulator takes for its own.
STOPS_WITHOUT_EMULATOR = (signal.SIGTRAP, signal.SIGILL, signal.SIGFPE)


def heed_signals():
    """The tests themselves may have been started so that some are ignored, which the command would
    keep to. Nor is a core wanted."""
    for number in STOPS + STOPS_WITHOUT_EMULATOR:
        signal.signal(number, signal.SIG_DFL)
    resource.setrlimit(resource.RLIMIT_CORE, (0, 0))


def heed_all_but_one():
    heed_signals()
    signal.signal(signal.SIGUSR1, signal.SIG_IGN)


def has_hidden(at):
    return any(name.startswith(".buttresk-") for name in names_in(at))


def signalled(at, file, number, prepare):
    """Sends a signal while the hidden file stands there. Whether it stood, and the status."""
    process = subprocess.Popen(hidden_words("copy", file, at / "dest"),
                               stdout=subprocess.DEVNULL, stderr=subprocess.DEVNULL,
                               preexec_fn=prepare)
    while process.poll() is None and not has_hidden(at):
        time.sleep(0.002)
    stood = has_hidden(at)
    process.send_signal(number)
    return stood, process.wait(timeout=60)


def hidden_with_room(at):
    """The hidden file once it has its room; None before."""
    paths = [at / name for name in names_in(at) if name.startswith(".buttresk-")]
    return paths[0] if paths and paths[0].exists() and paths[0].stat().st_size > 0 else None


def cut_hidden(at):
    """Somebody cuts the hidden file while it is written: as where a disk fails, octets can't be
    written, or read again."""
    file = write(at / "file", busy_file() * 4)
    process = subprocess.Popen(hidden_words("copy", file, at / "cut"),
                               stdout=subprocess.PIPE, stderr=subprocess.PIPE)
    while process.poll() is None and hidden_with_room(at) is None:
        time.sleep(0.0005)
    meanwhile(process, lambda: os.truncate(hidden_with_room(at), 0))
    done = finish(process)
    check_ended("a hidden file that somebody cuts is told", done, 2,
                b"/cut: could not be written: its disk is full or fails\n")
    check_equal("and gone", names_in(at), ["file", "try"])


def stopped_hidden(at):
    """Ended by a signal while the hidden file stands there."""
    file = write(at / "file", busy_file() * 4)
    for number in STOPS + (() if emulated() else STOPS_WITHOUT_EMULATOR):
        found = *signalled(at, file, number, heed_signals), names_in(at)
        check(f"signal {int(number)}, {signal.strsignal(number)}, while a hidden file stands there "
              "removes it, and ends the command",
              found == (True, -number, ["file", "try"]), found)
    found = *signalled(at, file, signal.SIGUSR1, heed_all_but_one), names_in(at)
    check("one that is ignored stays ignored", found == (True, 0, ["dest", "file", "try"]), found)
    check("and the copy is whole", (at / "dest").read_bytes() == whole_of(file))


def over_another_file(at):
    """A copy is never put over another of the files, which is still to be copied."""
    for name in ("p", "q"):
        (at / name).mkdir()
    first = write(at / "p" / "b", loaded_message(7))
    second = write(at / "q" / "b", loaded_message(9))
    (at / "soft").symlink_to(second)
    os.link(second, at / "hard")
    for link in ("soft", "hard"):
        for jobs in ([], ["-j", "2"]):
            done = run("copy", "--force", *jobs, first, at / link, at / "q")
            check_ended(f"a copy that would stand over another file, by a {link} link", done, 2,
                        b"q/b: is another of the files to be copied\n", b"")
            check("and nothing is copied", second.read_bytes() == loaded_message(9)
                  and names_in(at / "q") == ["b"], names_in(at / "q"))


def loaded_message(octet):
    return message(least(1, 3, 4, 5, 6) + section(7, bytes([octet]) * 9) + END)


def listed_names(at):
    """Who gives a list does not know how many names it has: they go into a folder, which has to be
    there."""
    sea, names = SAMPLES / "sea.grib2", write(at / "names", b"%s\0" % bytes(SAMPLES / "sea.grib2"))
    (at / "there").mkdir()
    missing = b"nowhere: No such file or directory\n"
    for what, listed in (("one name", names), ("no name", write(at / "none", b""))):
        check_ended(f"copies of a list of {what} into a folder that is not there",
                    run("copy", "--files0-from", listed, at / "nowhere"), 2, missing, b"")
    check_ended("a copy of a list of one name",
                run("copy", "--files0-from", names, at / "there"), 0)
    check_equal("stands in the folder", (at / "there" / sea.name).read_bytes(), whole_copy())
    check_ended("copies of a list of no name",
                run("copy", "--files0-from", at / "none", at / "there"), 0)
    check_equal("are none", names_in(at), ["names", "none", "there"])
    check_ended("standard input is no place for a copy", run("copy", sea, "-", cwd=at), 2,
                b"buttresk: -: is no place for a copy; a file of that name is ./-\n", b"")
    check_ended("a file of that name is", run("copy", sea, "./-", cwd=at), 0)


def everything():
    random.seed(20260314)
    for part in (by_hand, one_by_one, all_in_one, long_sections, same_index_and_fields, eccodes,
                 decoded, holes, without_holes, dest_is_file, existing_dest, refused_file,
                 unfit_dests, folder_inside, into_folder, many_into_folder, no_folder,
                 same_last_parts, standard_input_into_folder, listed_names, over_another_file,
                 order_of_calls, unlisted_folder, full_disk_is_told, refusal_is_told,
                 others_always_see_a_file, hidden):
        with folder() as name:
            part(Path(name))
    with folder() as name:
        kills(Path(name), 200)
