#!/usr/bin/env python3
"""Brings the names of this repository's definitions and lemmas to one spelling, once.

usage: python3 tools/respell.py [--dry] [ROOT]

A definition, a lemma, a field or a constructor in small camel case (`beAt`) or joined by dashes
(`read-sect0`) gets underscores; a name of the transcription with a middle dot (`IterL1·write`)
gets a dash there. A dash before a capital stays. A lemma that would get the name of another
definition gets `_lem`. What a function of src/ is called, what the toolchain makes (goals, steps,
layouts), and texts stay as they are. Run right after the toolchain's own script, over the whole
repository.
"""

import collections
import os
import re
import sys

TOKEN = re.compile(r"[^\s(){}.,;@«»\[\]]+")
HUMP = re.compile(r"[a-z0-9'][A-Z]")
DECLARED = re.compile(r"^\s*(?:(?:unfoldable|abbrev|pub|data|record|codata|opaque|private) )*"
                      r"([^\s:({]+)(?:\s*[({][^=]*)?\s*:(?!=)(.*)$")
# a lemma of a section or of a `where`
NESTED = re.compile(r"^ +(?:(?:unfoldable|abbrev|pub) )*([a-z][\w']*-[^\s:({.]*)"
                    r"(?:\s*[({][^=]*)?\s*:(?!=)(.*)$")
SKIPPED = ("use ", "pub use ", "--", "open ", "unfolding ", "module ", "mod ", "pub mod ")
# lemmas of one file, and of the files that take them from it, whose name a definition gets
FALL_TOGETHER = {
    "lists/proofs/Numbers.antt": {"is_digit": "is_digit_lem"},
    "round_trip/proofs/Listed.antt": {"to_end": "to_end_lem"},
    "round_trip/proofs/ReadsBack.antt": {"to_end": "to_end_lem"},
    "round_trip/proofs/Ordered.antt": {"or_at": "or_at_lem", "closed_at": "closed_at_lem"},
    "writer/proofs/plan/first_misfit/Proof.antt": {
        "or_at": "or_at_lem",
        "closed_at": "closed_at_lem",
    },
}
# made by the toolchain, not by a declaration of ours
MADE = re.compile(r"^(goal|tie|reads|lts)$|^Need-|^(loop|returns|overflow)([-_]|$)")


def files(root, ends):
    for folder, dirs, names in os.walk(os.path.join(root, "crates")):
        dirs[:] = sorted(d for d in dirs if d != "out")
        for name in sorted(names):
            if name.endswith(ends):
                yield os.path.join(folder, name)


def read(path):
    with open(path, encoding="utf-8") as f:
        return f.read()


def by_hand(path):
    """Is it a proof of one function, whose goals the toolchain names?"""
    return "/proofs/" in path and path.split("/proofs/")[1].count("/") > 0


def is_local(line):
    return line.startswith((" ", "\t"))


def declared(path, text):
    """Names that a file declares, with the rest of the line: top ones, fields, constructors."""
    inside = False  # a data or a record, whose fields and constructors are set in by two
    for line in text.split("\n"):
        if not line.strip():
            continue
        if not is_local(line):
            inside = bool(re.match(r"^(?:pub |private )*(?:data|record|codata) ", line))
            if line.startswith(SKIPPED):
                continue
            found = DECLARED.match(line)
        else:
            field = inside and re.match(r"^  (?! )", line)
            found = NESTED.match(line) or (field and DECLARED.match(line))
        if found:
            yield found.group(1), found.group(2)


def snake(name):
    """The name with its humps, dashes and middle dots respelled."""
    name = name.replace("·", "-") if re.match(r"^[A-Z]\w*·", name) else name
    parts = re.split(r"(-)", name)
    out = ""
    for k, part in enumerate(parts):
        if part == "-":
            after, first = parts[k + 1], k == 1 and parts[0][:1].isupper()
            out += "-" if after[:1].isupper() or first else "_"
            continue
        if part[:1].islower():
            part = re.sub(r"(?<=[a-z0-9'])([A-Z])", lambda m: "_" + m.group(1).lower(), part)
            part = re.sub(r"([A-Z])", lambda m: m.group(1).lower(), part)
        out += part
    return out


def taken_from_outside(texts):
    """Names that come from the toolchain's library."""
    out = set()
    for text in texts.values():
        for module, names in re.findall(r"use ([\w.'·+-]+)\.\{([^}]*)\}", text):
            ours = re.match(r"Rattle\.(?!std\.)\w+\.(specs|proofs)", module)
            if not ours:
                out |= {n.split(" as ")[0].strip() for n in names.split(",")}
    return out


def names_of(texts):
    """What each name of ours becomes."""
    outside = taken_from_outside(texts)
    definitions, lemmas = set(), set()
    for path, text in texts.items():
        for name, rest in declared(path, text):
            if by_hand(path) and re.search(r"\b(tie|goal)\.|^ *reads\.", rest):
                continue
            (definitions if "/specs/" in path else lemmas).add(name)
    every = definitions | lemmas
    tokens = set()
    for text in texts.values():
        tokens |= set(TOKEN.findall(re.sub(r"--.*", "", text)))
    humps = {t for t in tokens if t[:1].islower() and HUMP.search(t) and "_" not in t
             and "-" not in t and t not in outside and re.match(r"^[\w']+$", t)}
    wanted = {n for n in every | humps if snake(n) != n and n not in outside and not MADE.search(n)}
    became, spelled = {}, collections.defaultdict(set)
    for name in sorted(wanted, key=lambda n: (n not in definitions, n not in humps, n)):
        new = snake(name)
        if name not in definitions and name not in humps and (new in every or spelled[new]):
            new += "_lem"
        became[name] = new
        spelled[new].add(name)
    return became


def respelled(text, became):
    return TOKEN.sub(lambda m: became.get(m.group(0), m.group(0)), text)


def in_antt(text, became):
    out = []
    for line in text.split("\n"):
        has_comment = re.search(r"(^|\s)--(\s|$)", line)
        code, dashes, comment = line.partition("--") if has_comment else (line, "", "")
        comment = re.sub(r"`[^`]*`", lambda m: respelled_quote(m.group(0), became), comment)
        out.append(respelled(code, became) + dashes + comment)
    return "\n".join(out)


def respelled_quote(quote, became):
    return "`" + respelled(quote[1:-1], became) + "`"


def in_rt(text, became):
    """Small camel case of clauses and ghost lines; what stands in a text stays."""
    humps = {k: v for k, v in became.items() if HUMP.search(k) and "-" not in k}
    out = []
    for line in text.split("\n"):
        parts = re.split(r'("(?:[^"\\]|\\.)*")', line)
        parts[::2] = [re.sub(r"[A-Za-z_][\w']*", lambda m: humps.get(m.group(0), m.group(0)), p)
                      for p in parts[::2]]
        out.append("".join(parts))
    return "\n".join(out)


def main():
    dry = "--dry" in sys.argv
    words = [w for w in sys.argv[1:] if not w.startswith("--")]
    root = words[0] if words else "."
    texts = {p: read(p) for p in files(root, ".antt")}
    became = names_of(texts)
    for path, text in texts.items():
        here = FALL_TOGETHER.get(os.path.relpath(path, os.path.join(root, "crates")), {})
        here = {k: v for k, v in here.items() if k in set(became.values())}
        new = in_antt(text, {**became, **here})
        if not dry and new != text:
            with open(path, "w", encoding="utf-8") as f:
                f.write(new)
    for path in files(root, ".rt"):
        text = read(path)
        new = in_rt(text, became)
        if not dry and new != text:
            with open(path, "w", encoding="utf-8") as f:
                f.write(new)
    for old, new in sorted(became.items()):
        print(old, new)


if __name__ == "__main__":
    main()
