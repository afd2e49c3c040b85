"""The completions of bash and zsh: what they offer, and that it is what help and man page name.

making.py calls what is here.
"""

import re
import shutil
import subprocess

from shared import ROOT, check, check_equal, run, skip

BASH = ROOT / "completions" / "buttresk.bash"
ZSH = ROOT / "completions" / "_buttresk"
MAN_PAGE = ROOT / "docs" / "buttresk.1"

ALWAYS = {"-h", "--help"}
SEVERAL = ALWAYS | {"-j", "--jobs", "--files0-from"}
OPTIONS = {"index": SEVERAL | {"--json", "--strict"},
           "fields": SEVERAL | {"--json", "--strict", "--as-crate"},
           "list": SEVERAL | {"--strict"}, "inventory": SEVERAL, "read-list": SEVERAL | {"--json"},
           "copy": SEVERAL | {"--force"}, "verify": ALWAYS, "leaks": ALWAYS}
BEFORE_ANY = ALWAYS | {"--version"}

# --- bash ----------------------------------------------------------------------------------------

ASK_BASH = 'source "$1"; shift; COMP_WORDS=("$@"); COMP_CWORD=$(($# - 1)); _buttresk; ' \
    'printf "%s\\n" "${COMPREPLY[@]}"'


def offered_by_bash(*words):
    """The answers for the last of these words, behind the name of the command."""
    done = subprocess.run(["bash", "--norc", "-c", ASK_BASH, "bash", BASH, "buttresk", *words],
                          capture_output=True, text=True)
    return done.stdout.split() if not done.stderr and not done.returncode else done


def bash():
    check_equal("bash offers the commands", sorted(offered_by_bash("")), sorted(OPTIONS))
    check_equal("of these those that begin so", offered_by_bash("in"), ["index", "inventory"])
    check_equal("bash offers what stands without one", set(offered_by_bash("--")),
                BEFORE_ANY - {"-h"})
    for command, options in OPTIONS.items():
        check_equal(f"bash offers the options of {command}",
                    sorted(offered_by_bash(command, "a", "-")), sorted(options))
    cases = [("behind an option", ("--json", "fields", "--st"), ["--strict"]),
             ("behind what an option takes", ("-j", "2", "copy", "--f"),
              ["--files0-from", "--force"]),
             ("no command in place of what an option takes", ("index", "-j", ""), []),
             ("nor of a list", ("--files0-from", ""), []),
             ("no command for a name", ("index", "in"), []),
             ("no option behind --", ("index", "--", "--"), []),
             ("nothing of an unknown command", ("indexes", "--"), [])]
    for what, words, expected in cases:
        check_equal(f"bash: {what}", sorted(offered_by_bash(*words)), expected)
    asks = 'source "$1"; complete -p buttresk'
    done = subprocess.run(["bash", "--norc", "-c", asks, "bash", BASH], capture_output=True,
                          text=True)
    check_equal("bash completes buttresk by it, and else names of files", done.stdout,
                "complete -o default -F _buttresk buttresk\n")


# --- zsh -----------------------------------------------------------------------------------------

# In place of zsh's own two helpers: they print what they are told, and have read a command.
ASK_ZSH = """
fpath=($1)
_arguments() { print -rl -- "$@"; state=$asked; line=($command) }
_describe() { print -rl -- ${(P)2} }
asked=$2 command=$3
autoload -U _buttresk
_buttresk
"""


def told_by_zsh(asked, command=""):
    done = subprocess.run(["zsh", "-f", "-c", ASK_ZSH, "zsh", ZSH.parent, asked, command],
                          capture_output=True, text=True)
    return done.stdout.splitlines() if not done.stderr else [done.stderr]


def options_in(told):
    """Of `(..)--name[what it is]:..` the name."""
    found = (re.match(r"(?:\([^)]*\))?(--?[a-z][\w-]*)\[", line) for line in told)
    return {match.group(1) for match in found if match}


def zsh():
    if shutil.which("zsh") is None:
        skip("the completions of zsh", "it is not installed (package zsh)")
        return
    done = subprocess.run(["zsh", "-n", ZSH], capture_output=True, text=True)
    check("zsh reads its completions", (done.returncode, done.stderr) == (0, ""), done)
    loads = "fpath=($1 $fpath); autoload -U compinit; compinit -D -u; print $_comps[buttresk]"
    done = subprocess.run(["zsh", "-f", "-c", loads, "zsh", ZSH.parent], capture_output=True,
                          text=True)
    check("zsh completes buttresk by them", (done.stdout, done.stderr) == ("_buttresk\n", ""), done)
    told = told_by_zsh("command")
    check_equal("zsh offers the commands", sorted(line.split(":")[0] for line in told
                                                  if re.match("[a-z-]+:", line)), sorted(OPTIONS))
    check_equal("and what stands without one", options_in(told), BEFORE_ANY)
    for command, options in OPTIONS.items():
        told = told_by_zsh("word", command)
        check_equal(f"zsh offers the options of {command}", options_in(told) - {"--version"},
                    options)


# --- Help and man page ---------------------------------------------------------------------------

def options_of(text):
    return set(re.findall(r"(?<![\w-])--?[A-Za-z][\w-]*", text))


def plain(text):
    """Without the marks of groff: macros, fonts, quotes."""
    text = re.sub(r"\\f(?:\[\w*\]|.)|\\[|&%]", "", text).replace("\\-", "-").replace("\\~", " ")
    return re.sub(r'^\.[A-Z]+ ?|"', "", text, flags=re.MULTILINE)


def synopsis():
    """For each command that the man page's synopsis names the options that stand there with it."""
    section = MAN_PAGE.read_text().split(".SH SYNOPSIS\n")[1].split(".YS\n")[0]
    named = {}
    for entry in section.split(".SY buttresk\n")[1:]:
        words = plain(entry)
        command = words.split()[0] if re.match("[a-z]", words) else ""
        named.setdefault(command, set()).update(options_of(words))
    return named


def headings():
    """The options that a paragraph of the man page is about."""
    found = re.findall(r"^\.T[PQ]\n(.*)$", MAN_PAGE.read_text(), re.MULTILINE)
    return set().union(*(options_of(plain(line)) for line in found))


def pages_name_the_same():
    named, offered = synopsis(), set().union(BEFORE_ANY, *OPTIONS.values())
    check_equal("the man page's synopsis has the commands that are completed",
                sorted(set(named) - {""}), sorted(OPTIONS))
    for command, options in sorted(named.items()):
        check(f"what it has with {command or 'none'} is completed there",
              options <= OPTIONS.get(command, BEFORE_ANY), sorted(options))
    check_equal("the man page has the options that are completed",
                sorted(headings().union(*named.values())), sorted(offered))
    text = run("--help").stdout.decode()
    commands = re.findall(r"^(?:usage:)? *buttresk ([a-z][a-z-]*)", text, re.MULTILINE)
    check_equal("the help has the commands that are completed", sorted(set(commands)),
                sorted(OPTIONS))
    check_equal("and the options", sorted(options_of(text)), sorted(offered))


def everything():
    bash()
    zsh()
    pages_name_the_same()
