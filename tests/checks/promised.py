#!/usr/bin/env -S python3 -B
"""Every public function that answers is promised: its contract stands in Public.antt.

That is crates/promises/specs/Public.antt. A function that answers nothing but that a read or a
write failed, and is lent nothing to write, has nothing to promise: it only prints. A method of a
trait is as public as the type and the trait of its `impl`, though no `pub` stands before it. An
export for C is promised what the function of its name in `buttresk` is: its parameters, result and
clauses stand there word for word.
"""

import re
import sys

from declared import hidden_in
from edits import ROOT

CRATES = ROOT / "crates"
PAGE = CRATES / "promises/specs/Public.antt"
FUNCTION = re.compile(r"^( *)(pub )?(?:extern \"C\" )?fn (\w+)", re.M)
IMPL = re.compile(
    r"^impl(?:<[^>]*>)?\s+(?:(?P<trait>[^{]+?)\s+for\s+)?(?P<type>[^{]+?)\s*\{(?:\}|.*?^\})",
    re.M | re.S,
)
PROMISED = re.compile(r"^  pub \S+ :\s+(?:Gives|Promised) M .*?(\w+)(\S*)\.clauses\b", re.M | re.S)
# What the page calls a crate's contracts, those of a type, or those of an `impl` of a trait.
CALLED = re.compile(r"^use Rattle\.(\w+)\.specs\.contracts(\S*)\s+as (\w+)$", re.M)
# The crate of the exports, and the one whose functions they are.
EXPORTS, EXPORTED = "buttresk_c", "buttresk"


def joined(text):
    """The words of a type or of a trait with its arguments, as Rattle joins them in the name of an
    `impl`."""
    text = re.sub(r"'\w+", "", text).replace("&", " Ref ")
    while found := re.search(r"\(([^()]*)\)", text):
        parts = [part for part in found[1].split(",") if part.strip()]
        text = text.replace(found[0], " ".join([f"Tuple{len(parts)}", *parts]))
    return "".join(word[0].upper() + word[1:] for word in re.findall(r"\w+", text))


def owner_of(impl):
    """What a method's contract stands under: its type's name, or that of the `impl` of a trait."""
    if impl["trait"]:
        return joined(impl["type"]) + joined(impl["trait"])
    return re.match(r"\w+", impl["type"])[0]


def can_be_called(crate, impl):
    """Can other crates call the methods of this `impl`? Those of a trait, unless the crate keeps
    the type or the trait to itself; of others it is said one by one."""
    names = {re.match(r"\W*(\w*)", impl[part] or "")[1] for part in ("trait", "type")}
    return bool(impl["trait"]) and not names & hidden_in(crate)


def public_functions(file):
    """Names of the functions that other crates may call and that answer or write, a method's with
    its file and what it stands under before it, and what stands between name and body."""
    source, crate = file.read_text(), file.parts[-3]
    impls = list(IMPL.finditer(source))
    for found in FUNCTION.finditer(source):
        name = found[3]
        around = [impl for impl in impls if impl.start() < found.start() < impl.end()]
        if not found[2] and not any(can_be_called(crate, impl) for impl in around):
            continue
        body = source.index("{\n", source.index(")", found.end()))
        signature = source[found.end():body]
        answers = "->" in signature.replace("-> io::Result<()>", "")
        if "ensures" not in signature and not answers and "&mut" not in signature:
            continue
        if around:
            name = f"{owner_of(around[0])}.{name}"
            name = name if file.stem == "lib" else f"{file.stem}.{name}"
        yield name, signature


def promised():
    """Names of the functions of which the page has a line, behind their crate's."""
    page = PAGE.read_text()
    called = {alias: f"{crate}{path}" for crate, path, alias in CALLED.findall(page)}
    return {f"{called.get(alias, alias)}{rest}" for alias, rest in PROMISED.findall(page)}


def main():
    on_page = promised()
    missing, count, exported = [], 0, {}
    for file in sorted(CRATES.glob(f"{EXPORTED}/src/*.rt")):
        exported |= dict(public_functions(file))
    for file in sorted(CRATES.glob("*/src/*.rt")):
        crate = file.parts[-3]
        for name, signature in public_functions(file):
            count += 1
            if crate == EXPORTS:
                if exported.get(name, "").split() != signature.split():
                    missing.append(f"{crate}.{name}")
            elif f"{crate}.{name}" not in on_page:
                missing.append(f"{crate}.{name}")
    counts = f"{count} public functions, {len(missing)} not promised"
    print(*(f"not promised: {path}" for path in missing), counts, sep="\n")
    return 0 if count and not missing else 1


if __name__ == "__main__":
    sys.exit(main())
