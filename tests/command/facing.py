"""The C face from outside: its header, alone and beside the man page, and its installed libraries.

making.py installs them and calls what is here.
"""

import os
import re
import shlex
import shutil
import subprocess
from pathlib import Path

from shared import ROOT, Command, check, check_equal, emulated, folder, run, skip, write

HEADER = ROOT / "include" / "buttresk.h"
MAN_PAGE = ROOT / "docs" / "buttresk.1"
COMPILER = os.environ.get("CC", "cc").split()
STRICT = ["-Wall", "-Wextra", "-Wunused", "-Wshadow", "-Wconversion", "-Werror", "-pedantic"]
# Where the cross compiler's packages have the C library that a program linked to it needs.
SYSROOT = Path("/usr/x86_64-linux-gnu")


def call(*words, **options):
    return subprocess.run(words, capture_output=True, text=True, **options)


def without_comments():
    return re.sub(r"/\*.*?\*/", "", HEADER.read_text(), flags=re.DOTALL)


# --- Programs over the installed libraries -------------------------------------------------------

PROGRAM = """
#include <stdio.h>
#include <buttresk.h>
int main(void)
{
    struct buttresk_walk_answer a = buttresk_walk(NULL, 0, NULL, 0, NULL, 0);
    printf("%s %d\\n", buttresk_outcome_name(a.outcome), (int)a.sections);
    return 0;
}
"""


def read_words(package, *keys):
    """What pkg-config says of a file: its variables put in, its quotes taken off."""
    variables, values = {}, {}
    for line in package.read_text().splitlines():
        found = re.fullmatch(r"(\w+)(=|: *)(.*)", line)
        if found:
            name, sign, value = found.groups()
            value = re.sub(r"\$\{(\w+)\}", lambda use: variables[use.group(1)], value)
            (variables if sign == "=" else values)[name] = value
    return [word for key in keys for word in shlex.split(values[key])]


def words_of(prefix):
    """The words for the compiler and the linker, by pkg-config where there is one."""
    package = prefix / "lib" / "pkgconfig" / "buttresk.pc"
    read = read_words(package, "Cflags", "Libs")
    check_equal("the pkg-config file has the words for header and library", read,
                [f"-I{prefix}/include", f"-L{prefix}/lib", "-lbuttresk"])
    check_equal("and the header's version", read_words(package, "Version"), [version()])
    if shutil.which("pkg-config") is None:
        skip("what pkg-config says", "it is not installed (package pkg-config)")
        return read
    environment = {**os.environ, "PKG_CONFIG_PATH": str(package.parent)}
    for static in [], ["--static"]:
        done = call("pkg-config", *static, "--cflags", "--libs", "buttresk", env=environment)
        check_equal(" ".join(["pkg-config", *static, "says the same"]), shlex.split(done.stdout),
                    read)
    done = call("pkg-config", "--modversion", "buttresk", env=environment)
    check_equal("pkg-config says the version", done.stdout, f"{version()}\n")
    return read


def build(what, source, program, *words):
    done = call(*COMPILER, "-o", program, source, *words)
    return check(f"{what} builds", done.returncode == 0, done.stderr)


def shared_library_can_run():
    if emulated() and not (SYSROOT / "lib" / "libc.so.6").exists():
        skip("a program over the shared library runs",
             "the C library of x86-64 is not there (package libc6-amd64-cross)")
        return False
    return True


def program_over_shared_library(at, prefix, words):
    """The run path leads to the installed library. cface.c is all that is known of the face."""
    where = ["-L", SYSROOT] if emulated() else []
    cface = ROOT / "tests" / "command" / "cface.c"
    for source, expected in [(write(at / "shared.c", PROGRAM.encode()), "done 0\n"),
                             (cface, ", 0 failed\n")]:
        program = at / f"{source.stem}-shared"
        what = f"{source.name} over the shared library"
        if build(what, source, program, *words, f"-Wl,-rpath,{prefix}/lib"):
            needed = call(tool("readelf"), "-d", program).stdout
            check(f"{what} needs it by its soname", "[libbuttresk.so.1]" in needed, needed)
            if shared_library_can_run():
                done = call(*Command.emulator, *where, program)
                check(f"{what} runs", done.returncode == 0 and done.stdout.endswith(expected), done)


def program_over_archive(at, words):
    source, program = write(at / "static.c", PROGRAM.encode()), at / "static"
    if build("a program over the archive", source, program, "-static", *words):
        done = call(*Command.emulator, program)
        check_equal("a program over the archive runs", done.stdout, "done 0\n")


# --- What the libraries have ---------------------------------------------------------------------

def tool(name):
    """One of the compiler's own tools, which knows its programs."""
    return call(*COMPILER, f"-print-prog-name={name}").stdout.strip()


def declared():
    return sorted(re.findall(r"^struct \w+ (buttresk_\w+)\([^;{]*\);", without_comments(),
                             flags=re.MULTILINE))


def defined(*words):
    """The names that a library defines for others, by nm."""
    lines = call(tool("nm"), "--defined-only", *words).stdout.splitlines()
    return sorted(line.split()[-1] for line in lines if len(line.split()) == 3)


def libraries_have_what_is_declared(prefix):
    lib = prefix / "lib"
    check_equal("the header declares these functions", declared(),
                [f"buttresk_{name}" for name in (
                    "bit_map", "grid_definition", "identification", "indicator", "inventory",
                    "product_definition", "publish", "read_list", "representation", "walk",
                    "when_and_where", "write")])
    check_equal("the shared library exports them and nothing else",
                defined("-D", lib / "libbuttresk.so.1"), declared())
    check_equal("and so does the archive", defined("-g", lib / "libbuttresk.a"), declared())
    check_equal("libbuttresk.so leads to it", os.readlink(lib / "libbuttresk.so"),
                "libbuttresk.so.1")
    dynamic = call(tool("readelf"), "-d", lib / "libbuttresk.so.1").stdout
    check("its soname is libbuttresk.so.1", "soname: [libbuttresk.so.1]" in dynamic, dynamic)
    check("none of its code is patched when it is loaded", "TEXTREL" not in dynamic, dynamic)


def installed_libraries(at, prefix):
    words = words_of(prefix)
    libraries_have_what_is_declared(prefix)
    program_over_shared_library(at, prefix, words)
    program_over_archive(at, words)


# --- The header by itself ------------------------------------------------------------------------

UNUSED = b"#include <buttresk.h>\nint %s(void);\nint %s(void)\n{\n    return 0;\n}\n"
USED = b"""#include <buttresk.h>
const char *name(uint64_t outcome);
const char *name(uint64_t outcome)
{
    return buttresk_outcome_detail(outcome) ? buttresk_outcome_means(outcome)
                                            : buttresk_outcome_name(outcome);
}
"""


def header_compiles(at):
    """In two files that use nothing of it and one that does, as C11 and as C++, with no warning."""
    files = [write(at / "one.c", UNUSED % (b"one", b"one")),
             write(at / "two.c", UNUSED % (b"two", b"two")), write(at / "used.c", USED)]
    done = call(*COMPILER, "-std=c11", *STRICT, f"-I{HEADER.parent}", "-r", "-nostdlib", "-o",
                at / "all.o", *files)
    check("the header compiles as C11 in several files", done.returncode == 0, done.stderr)
    compilers = [name for name in ("g++", "clang++") if shutil.which(name)]
    if not compilers:
        skip("the header as C++", "there is no compiler of it (package g++)")
    for name in compilers:
        done = call(name, "-x", "c++", "-std=c++11", *STRICT, f"-I{HEADER.parent}", "-fsyntax-only",
                    *files)
        check(f"the header compiles as C++ by {name}", done.returncode == 0, done.stderr)


def header_is_narrow():
    long = [line for line in HEADER.read_text().splitlines() if len(line) > 100]
    check_equal("no line of the header is over 100 columns", long, [])


def says_what_has_no_header():
    text = re.sub(r"\s*\n \*\s*", " ", HEADER.read_text())
    check("it says that sections 0 and 8 have no header of 5 octets",
          "SECTIONS 0 AND 8 HAVE NO SUCH HEADER" in text)
    check("and that null may be lent where the count is 0",
          "Where the count is 0 the pointer is never followed, and may be null" in text)


# --- The header beside the man page --------------------------------------------------------------

# The tables of the WMO's Manual on Codes, volume I.2: of each column of the man page that has one.
TABLES = {"discipline": "0.0", "centre": "C-11", "product_template": "4.0", "category": "4.1",
          "number": "4.2", "process": "4.3", "time_unit": "4.4", "first_type": "4.5",
          "grid_template": "3.1", "representation_template": "5.0", "bitmap": "6.0"}
# What the header calls them: the structure, and the field in it.
FIELDS = {"discipline": ("indicator_fields", "discipline"),
          "centre": ("identification_fields", "centre"),
          "product_template": ("product_fields", "template_number"),
          "category": ("product_fields", "category"), "number": ("product_fields", "number"),
          "process": ("product_fields", "process"), "time_unit": ("time_field", "unit"),
          "first_type": ("surface", "type"), "grid_template": ("grid_fields", "template_number"),
          "representation_template": ("representation_fields", "template_number"),
          "bitmap": ("bit_map_fields", "indicator")}
TABLE = r"(?:Code table|Common code table) ([\dC][\d.-]*\d)"
# What eccodes calls them: the file of its definitions, and the key in it.
KEYS = {"discipline": ("section.0", "discipline"), "centre": ("section.1", "centre"),
        "product_template": ("section.4", "productDefinitionTemplateNumber"),
        "category": ("template.4.parameter", "parameterCategory"),
        "number": ("template.4.parameter", "parameterNumber"),
        "process": ("template.4.generating_process", "typeOfGeneratingProcess"),
        "time_unit": ("template.4.forecast_time", "indicatorOfUnitOfTimeRange"),
        "first_type": ("template.4.horizontal", "typeOfFirstFixedSurface"),
        "grid_template": ("section.3", "gridDefinitionTemplateNumber"),
        "representation_template": ("section.5", "dataRepresentationTemplateNumber"),
        "bitmap": ("section.6", "bitMapIndicator")}


def plain_man_page():
    return re.sub(r"\\f.|\\&|\\%", "", MAN_PAGE.read_text()).replace("\\-", "-")


def table_in_header(structure, field):
    body = re.search(r"struct buttresk_%s \{(.*?)\n\};" % structure, HEADER.read_text(), re.DOTALL)
    found = re.search(r"\b%s; *\/\*[^*]*%s \*\/" % (field, TABLE), body.group(1))
    return found and found.group(1)


def table_of_eccodes(definitions, file, key):
    """Of `codetable[2] centre 'common/c-11.table'` and its like; none if it has moved."""
    path = definitions / "grib2" / f"{file}.def"
    text = path.read_text() if path.exists() else ""
    found = re.search(rf"codetable\[\d\] +{key} *\(?'(?:common/)?(c-\d+|\d+\.\d+)\.", text)
    return found and found.group(1).upper()


def tables_are_those_of_eccodes():
    """Judges the table above, from outside."""
    there = shutil.which("codes_info")
    definitions = Path(call("codes_info", "-d").stdout.strip()) if there else None
    if definitions is None or not (definitions / "grib2").is_dir():
        skip("the tables that eccodes names",
             "it is not installed (packages libeccodes-tools and libeccodes-data)")
        return
    found = {column: table_of_eccodes(definitions, *key) for column, key in KEYS.items()}
    found = {column: table for column, table in found.items() if table is not None}
    expected = {column: TABLES[column] for column in found}
    check_equal("eccodes names the same tables", found, expected)
    check("that of the centres among them", "centre" in found, sorted(found))


def tables_are_the_manuals():
    page = dict(re.findall(r"^([a-z_]+)\t.*" + TABLE + "$", plain_man_page(), re.MULTILINE))
    check_equal("the man page names the Manual's tables", page, TABLES)
    header = {column: table_in_header(*field) for column, field in FIELDS.items()}
    check_equal("the header names the Manual's tables", header, TABLES)


def version():
    return re.search(r'^#define BUTTRESK_VERSION +"(.*)"$', HEADER.read_text(), re.MULTILINE)[1]


def version_is_said_once():
    title = re.search(r'^\.TH BUTTRESK 1 \S+ "buttresk (.*?)"', MAN_PAGE.read_text(), re.MULTILINE)
    check_equal("the man page has the header's version", title and title[1], version())
    check_equal("and so has the command", run("--version").stdout,
                f"buttresk {version()}\n".encode())


WORDS = """
#include <stdio.h>
#include <buttresk.h>
int main(void)
{
    for (uint64_t outcome = 0; buttresk_outcome_name(outcome) != NULL; outcome++) {
        const char *detail = buttresk_outcome_detail(outcome);
        printf("%s\\t%s\\t%s\\n", buttresk_outcome_name(outcome), buttresk_outcome_means(outcome),
               detail == NULL ? "0" : detail);
    }
    return 0;
}
"""


def man_page_has_the_words(at):
    """The man page words each refusal that the command can meet as the header does."""
    source, program = write(at / "words.c", WORDS.encode()), at / "words"
    if not build("a program that says all words", source, program, "-static",
                 f"-I{HEADER.parent}"):
        return
    words = [line.split("\t") for line in call(*Command.emulator, program).stdout.splitlines()]
    check_equal("the header has words for 0 to 21", len(words), 22)
    page = " ".join(plain_man_page().split())
    for number in [*range(1, 15), 19, 20, 21]:
        name, means, detail = words[number]
        entry = f"{number} T{{ {name}: {means} T}} {detail} "
        check(f"the man page words refusal {number} as the header does", entry in page, entry)


def header():
    header_is_narrow()
    says_what_has_no_header()
    tables_are_those_of_eccodes()
    tables_are_the_manuals()
    version_is_said_once()
    for part in header_compiles, man_page_has_the_words:
        with folder() as name:
            part(Path(name))
