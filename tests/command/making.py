"""What the Makefile and cli/setup do for the command: installing it, naming what is missing, and
the man page. facing.py tries the installed libraries, completing.py the completions."""

import os
import re
import shlex
import shutil
import stat
import subprocess
from pathlib import Path

import completing
import facing
from listing import SEA as SEA_INVENTORY
from reading import COLUMNS, CUT_INDEX, SEA_FIELDS, SEA_INDEX, cut_refusal, re_request, table
from shared import ROOT, Command, check, check_equal, emulated, folder, skip, write

MAN_PAGE = ROOT / "docs" / "buttresk.1"
COMPILER = os.environ.get("CC", "cc")

# --- make ----------------------------------------------------------------------------------------

def make(*words):
    """As the tests were called: with their compiler and emulator, and without what a make above
    hands down."""
    handed_down = ("MAKEFLAGS", "MFLAGS", "MAKELEVEL")
    environment = {key: value for key, value in os.environ.items() if key not in handed_down}
    return subprocess.run(["make", "--no-print-directory", f"CC={COMPILER}",
                           f"RUN={' '.join(Command.emulator)}", *words],
                          cwd=ROOT, env=environment, capture_output=True, text=True, timeout=900)


# --- make install --------------------------------------------------------------------------------

INSTALLED = {"bin/buttresk": 0o755, "include/buttresk.h": 0o644, "lib/libbuttresk.a": 0o644,
             "lib/libbuttresk.so": 0o644, "lib/libbuttresk.so.1": 0o644,
             "lib/pkgconfig/buttresk.pc": 0o644,
             "share/bash-completion/completions/buttresk": 0o644,
             "share/man/man1/buttresk.1": 0o644, "share/zsh/site-functions/_buttresk": 0o644}
# Where an emulator has to run it the program stands aside, and a starter has its name. `env` is an
# emulator that does nothing, for processors that need none.
PROGRAM = "libexec/buttresk/buttresk"
WITH_STARTER = {**INSTALLED, PROGRAM: 0o755}


def what_is_installed():
    return WITH_STARTER if emulated() else INSTALLED


def some_emulator():
    return " ".join(Command.emulator) or "env"


def files_below(at):
    return {str(path.relative_to(at)): stat.S_IMODE(path.stat().st_mode)
            for path in sorted(at.rglob("*")) if path.is_file()}


def installed_command_runs(what, prefix, at):
    """By its own name, with no emulator before it. Words and status go through as they are."""
    command = prefix / "bin" / "buttresk"
    if not check(f"{what}: bin/buttresk is there", os.access(command, os.X_OK)):
        return
    try:
        done = subprocess.run([command, "index", "samples/sea.grib2"], cwd=ROOT,
                              capture_output=True, text=True)
        odd = write(at / "two  words $HOME 'and' \"quotes\"", b"GRIB")
        refused = subprocess.run([command, "index", odd, ROOT / "samples" / "cut.grib2"],
                                 capture_output=True, text=True)
    except OSError as error:
        check(f"{what}: the installed command runs", False, error)
        return
    check(f"{what}: the installed command runs", (done.returncode, done.stdout) == (0, SEA_INDEX),
          done)
    check(f"{what}: it gets its words as they are given, and its status is seen",
          refused.returncode == 1 and refused.stdout.startswith(f"file {odd}\n"), refused)


def install(at):
    prefix = at / "prefix"
    done = make("install", f"PREFIX={prefix}")
    check("make install PREFIX=.. succeeds", done.returncode == 0, done.stdout + done.stderr)
    complete = check_equal("and installs command, header, libraries, man page and completions",
                           files_below(prefix), what_is_installed())
    installed_command_runs("installed", prefix, at)
    if complete:
        facing.installed_libraries(at, prefix)


def install_below_destdir(at):
    make("install", f"DESTDIR={at}/stage", "PREFIX=/usr", f"RUN={some_emulator()}")
    below = at / "stage" / "usr"
    if not check_equal("make install installs below DESTDIR", files_below(at / "stage"),
                       {f"usr/{name}": mode for name, mode in WITH_STARTER.items()}):
        return
    found = facing.read_words(below / "lib" / "pkgconfig" / "buttresk.pc", "Cflags", "Libs")
    check_equal("the pkg-config file leads to where it will stand", found,
                ["-I/usr/include", "-L/usr/lib", "-lbuttresk"])
    check_equal("and so does the starter, in two lines", (below / "bin" / "buttresk").read_text(),
                f"#!/bin/sh\nexec {some_emulator()} '/usr/{PROGRAM}' \"$@\"\n")


def install_without_emulator(at):
    make("install", f"PREFIX={at}/prefix", "RUN=")
    check_equal("where no emulator is needed there is no starter", files_below(at / "prefix"),
                INSTALLED)
    command = at / "prefix" / "bin" / "buttresk"
    check("bin/buttresk is then the program",
          command.exists() and command.read_bytes().startswith(b"\x7fELF"))


def install_to_odd_folders(at):
    """A PREFIX is a path, whatever stands in it. One that is not absolute is of the Makefile's
    folder."""
    odd = at / "the desk's \"own\"  folder"
    done = make("install", f"PREFIX={odd}", f"RUN={some_emulator()}")
    check_equal("make install takes a PREFIX with spaces and quotes", files_below(odd),
                WITH_STARTER)
    check("and says nothing of it", (done.returncode, done.stderr) == (0, ""), done.stderr)
    installed_command_runs("a PREFIX with spaces and quotes", odd, at)
    near = at / "near"
    make("install", f"PREFIX={os.path.relpath(near, ROOT)}", f"RUN={some_emulator()}")
    installed_command_runs("a PREFIX that is not absolute", near, at)
    spaced = at / "the desk's folder"
    make("install", f"PREFIX={spaced}")
    if shutil.which("pkg-config"):
        environment = {**os.environ, "PKG_CONFIG_PATH": str(spaced / "lib" / "pkgconfig")}
        done = facing.call("pkg-config", "--cflags", "buttresk", env=environment)
        check_equal("pkg-config knows a PREFIX with spaces", shlex.split(done.stdout),
                    [f"-I{spaced}/include"])


def shown_by_make_run():
    done = make("run")
    wanted = SEA_INDEX in done.stdout and table(SEA_FIELDS) in done.stdout
    check("make run prints the index and the fields of the sample",
          done.returncode == 0 and wanted, done.stdout + done.stderr)


# --- cli/setup -----------------------------------------------------------------------------------

# What cli/setup itself calls. Everything else is missing, unless it is put there.
TOOLS = ("sh", "tr", "id", "env", "true")
GCC, CROSS = "gcc libc6-dev", "gcc-x86-64-linux-gnu libc6-dev-amd64-cross"
EMULATOR = "qemu-user"


def script(path, text):
    write(path, f"#!/bin/sh\n{text}\n".encode())
    path.chmod(0o755)


def a_path(at, *there):
    """A folder with the tools alone, and commands of these names that do nothing."""
    at.mkdir()
    for tool in TOOLS:
        os.symlink(shutil.which(tool), at / tool)
    for name in there:
        script(at / name, "exit 0")
    return at


def setup(path, *words, cc="gcc", emulator="", rt="rt"):
    environment = {"PATH": str(path), "CC": cc, "RUN": emulator, "RT": rt}
    return subprocess.run([ROOT / "cli" / "setup", *words], env=environment, capture_output=True,
                          text=True, timeout=60)


def named(words, packages):
    return f"buttresk: {words} missing: install the packages {packages}\n"


def missing_tools(at):
    nothing, kit = a_path(at / "nothing"), a_path(at / "kit", "rt")
    some = a_path(at / "some", "rt", "gcc")
    cross = {"cc": "x86_64-linux-gnu-gcc", "emulator": "qemu-x86_64"}
    cases = [("the kit", setup(nothing),
              "buttresk: rt is missing: it is the command of Rattle's kit, and no package\n"),
             ("the compiler", setup(kit), named("gcc", GCC)),
             ("a compiler with options", setup(kit, cc="gcc -m64"), named("gcc", GCC)),
             ("python3", setup(some, "python3"), named("python3", "python3")),
             ("the emulator", setup(some, emulator="qemu-x86_64"), named("qemu-x86_64", EMULATOR)),
             ("compiler and emulator of another processor", setup(some, **cross),
              named("x86_64-linux-gnu-gcc qemu-x86_64", f"{CROSS} {EMULATOR}"))]
    for what, done, line in cases:
        check(f"{what} missing: named in one line",
              (done.returncode, done.stdout, done.stderr) == (2, "", line), done)
    script(some / "gcc", "exit 1")
    check_equal("a compiler that finds no headers is missing too", setup(some).stderr,
                named("gcc", GCC))
    script(some / "gcc", "exit 0")
    done = setup(some)
    check("nothing missing: nothing said",
          (done.returncode, done.stdout, done.stderr) == (0, "", ""), done)


def a_machine(at, user):
    """A path of a user of this number, with an apt-get of our own, which touches no package: it
    notes how it is called, and its install makes a gcc. Through this sudo, as through the real one,
    no setting goes, but for the path."""
    path = a_path(at / f"of{user}", "rt")
    (path / "id").unlink()
    script(path / "id", f"echo {user}")
    make_gcc = f'echo "#!/bin/sh" >{path}/gcc; {shutil.which("chmod")} 755 {path}/gcc'
    script(path / "apt-get", f'echo "$DEBIAN_FRONTEND: $@" >>{path}/calls\n'
                             f'[ "$1" = update ] || {{ {make_gcc}; }}')
    script(path / "sudo", f'[ "$1" = -n ] || exit 1\nshift\nexec {shutil.which("env")} -i '
                          f'PATH={path} "$@"')
    return path


def installing(at):
    for user, by in [(0, "apt-get"), (1000, "sudo -n apt-get")]:
        path = a_machine(at, user)
        done = setup(path, "--install")
        check(f"what is missing is installed by {by}, which is said",
              (done.returncode, done.stdout, done.stderr) ==
              (0, f"buttresk: gcc missing: installing {GCC} by {by}\n", ""), done)
        calls = (path / "calls").read_text() if (path / "calls").exists() else ""
        check_equal(f"{by} is told to ask nothing, each time", calls,
                    f"noninteractive: update\n"
                    f"noninteractive: install -y --no-install-recommends {GCC}\n")


def failing_to_install(at):
    """Whatever apt-get does, the last line says what is missing, and which packages have it."""
    path = a_machine(at, 1000)
    for what, text in [("says so", "echo no network >&2; exit 100"), ("says nothing", "exit 100"),
                       ("fails behind its update",
                        '[ "$1" = update ] || { echo E: held >&2; exit 100; }'),
                       ("installs nothing", "exit 0")]:
        script(path / "apt-get", text)
        done = setup(path, "--install")
        check(f"an apt-get that {what} ends in our one line",
              done.returncode == 2 and done.stderr.endswith(named("gcc", GCC))
              and done.stderr.count("buttresk:") == 1, done)
    script(path / "apt-get", "echo no network >&2; exit 100")
    check("what apt-get says stands before it", "no network\n" in setup(path, "--install").stderr)
    script(path / "sudo", "exit 1")
    done = setup(path, "--install")
    check("where apt-get may not be called what is missing is named in one line",
          (done.returncode, done.stdout, done.stderr) == (2, "", named("gcc", GCC)), done)


# --- The man page --------------------------------------------------------------------------------

def man_page_is_well_formed():
    if shutil.which("groff") is None:
        skip("the man page's form", "groff is not installed (package groff)")
        return
    done = subprocess.run(["groff", "-t", "-man", "-ww", "-Tutf8", "-z", MAN_PAGE],
                          capture_output=True, text=True)
    check("the man page has no warnings", (done.returncode, done.stderr) == (0, ""), done.stderr)


def man_page_says_what_is_printed():
    text = facing.plain_man_page()
    columns = text.split(".TS\nlB l.\n")[1].split(".TE")[0]
    check_equal("the man page's table has the columns that are printed",
                re.findall(r"^([a-z_]+)\t", columns, re.MULTILINE), COLUMNS)
    check("its examples are what is printed",
          SEA_INDEX in text and SEA_INVENTORY.decode() in text)
    one_line = text.replace("\\e\n", "")
    cut = Path("samples/cut.grib2")
    refusal, rest = cut_refusal(cut, 16, 390, 17).decode(), re_request(cut, 407).decode()
    copied = f"$ buttresk copy {cut} public.grib2\n{refusal}$ echo $?\n1\n"
    indexed = f"$ buttresk index {cut}\n{CUT_INDEX}{refusal}{rest}"
    check("and of the cut sample all that is told", copied in one_line and indexed in one_line,
          one_line[one_line.index("A file that was cut"):])


def everything():
    for part in (install, install_below_destdir, install_without_emulator, install_to_odd_folders,
                 missing_tools, installing, failing_to_install):
        with folder() as name:
            part(Path(name))
    shown_by_make_run()
    facing.header()
    completing.everything()
    man_page_is_well_formed()
    man_page_says_what_is_printed()
