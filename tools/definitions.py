#!/usr/bin/env python3
"""Writes docs/DEFINITIONS.md: the definitions that one has to read to know what the contract of `top` says, with the first sentence of the
comment of each.

usage: tools/definitions.py [--check | --count]     --check compares the page with what would be written, and its status is 1 if they differ

Which definitions these are, and where each stands, tools/contract_size.py says. A definition stands under the first heading from which it is
reached, or else under that of its crate; under a heading the files come in the order in which they are met, and in a file its definitions.
"""
import functools
import os
import re
import sys

sys.dont_write_bytecode = True
import contract_size
import crate_pages
from said import usage_if_asked

from said import usage_if_asked

TOP = crate_pages.TOP
CRATES, PAGE = f"{TOP}/crates", f"{TOP}/docs/DEFINITIONS.md"
# What says what a result means, if no clause of `top` does.
MEANING = "Rattle.cu_top.specs.Run", "IsMeant"
# Of a heading of crates.txt the heading under which its definitions stand, if nothing before reaches them.
LAYERS = {"Commands": "Answers", "Layouts and plans": "Plans", "Expressions": "Plans"}
HEADINGS = {
    "What a result means": "What the elements of a stored result are.",
    "What a store is": "What depots, streams, yards and their calls must meet.",
    "Answers": "What each command answers, and what it leaves.",
    "Plans": "What a plan is, and which one an expression has.",
    "Inside": "What the others rest on: histories, tables, schedules, copies and numbers.",
}
HEAD = """# Definitions

What one has to read to know what the contract of `top` says, the traits of the outside among it: {count} definitions and types.
`tools/definitions.py` writes this page from their comments. It is a list to look names up in. A reader begins with `crates/cu_top/src/call.rt`
and follows the names; `docs/CLAIMS.md` has the clauses in words. The standards are the Python array API 2022.12, the Zarr v3 core
specification with its codec "bytes", and Python's `slice`. The list is an upper bound: names are followed where they are written.
"""
DECLARED = re.compile(r"\s*(?:(?:pub(?:\([^)]*\))?|abbrev|unfoldable) )*(?:(?:record|data|struct|enum|trait) ([^\s(:<{;]+)|(\S+) :(?=\s|$))")


def is_trait(made):
    return re.match(r"\s*(pub )?trait ", made.rows[0]) is not None


def path_of(made):
    """The file in which a definition stands, below the crates."""
    crate, *place = made.home.split(".")
    kind = ("specs", "antt") if isinstance(made.scope, contract_size.Module) else ("src", "rt")
    return f"{crate}/{kind[0]}/{'/'.join(place)}.{kind[1]}"


def sentence(comment):
    """The first sentence of a comment, as one line that begins with a small letter unless it begins with a name."""
    text = re.sub(r"\s+", " ", " ".join(comment)).strip()
    text = re.split(r"(?<=[\w)`\"]{2})[.:]\s+(?=[A-Z`(])", text)[0].rstrip(".:")
    return text[:1].lower() + text[1:] if re.match(r"[A-Z][a-z]* [a-z]|An? ", text) else text


@functools.lru_cache(maxsize=None)
def comments(path):
    """Of each name that a file declares the line where it first does, and the first sentence of the comment right above it."""
    mark = "//" if path.endswith(".rt") else "--"
    found, comment = {}, []
    for number, line in enumerate(contract_size.text_of(f"{CRATES}/{path}").split("\n"), 1):
        bare = line.strip()
        told = DECLARED.match(bare)
        if bare.startswith(mark):
            comment = comment + [bare.lstrip("/-").strip()] if not bare.startswith("-- --") else []
        elif told:
            found.setdefault(told[1] or told[2], (number, sentence(comment)))
            comment = []
        elif not bare.startswith(("#[", "infix")):
            comment = []
    return found


def parted(crates):
    """The definitions under each heading."""
    roots = crates.clauses(contract_size.CALL)
    means = [made for made in crates.clauses(contract_size.CALL, contract_size.MEANING) if not is_trait(made)] or [crates.imported(*MEANING)]
    of_means, of_stores = (set(crates.read_from(first, {})) for first in (means, [made for made in roots if is_trait(made)]))
    layers = {name: heading for name, (heading, _) in crate_pages.listed().items()}
    found = {heading: [] for heading in HEADINGS}
    for made in dict.fromkeys([*crates.read_from(means, {}), *crates.read_from(roots, {})]):
        heading = LAYERS.get(layers[made.home.split(".")[0]], "Inside")
        found["What a result means" if made in of_means else "What a store is" if made in of_stores else heading].append(made)
    return found


def lines(found):
    """The lines of the page."""
    yield HEAD.format(count=f"{sum(map(len, found.values())):,}").rstrip("\n")
    for heading, definitions in found.items():
        yield f"\n## {heading}\n\n{HEADINGS[heading]} {len(definitions)} definitions."
        for path in dict.fromkeys(map(path_of, definitions)):
            yield f"\n`{path}`\n"
            told = comments(path)
            of_file = sorted((told.get(made.name, (0, "")) + (made.name,) for made in definitions if path_of(made) == path))
            yield from (f"- `{name}`: {text}" for _, text, name in of_file if text)
            if untold := [f"`{name}`" for _, text, name in of_file if not text]:
                yield f"- without a comment: {', '.join(untold)}"
    yield ""


def main(words):
    if words not in ([], ["--check"], ["--count"]):
        print(__doc__, file=sys.stderr)
        return 2
    found = parted(contract_size.Crates(CRATES))
    page = "\n".join(lines(found))
    if words == ["--count"]:
        print(*(f"{heading}: {len(definitions)}" for heading, definitions in found.items()), sep="\n")
        return 0
    if words == ["--check"]:
        is_same = os.path.exists(PAGE) and contract_size.text_of(PAGE) == page
        print("docs/DEFINITIONS.md is what tools/definitions.py writes" if is_same else "docs/DEFINITIONS.md is old: tools/definitions.py writes it anew")
        return 0 if is_same else 1
    with open(PAGE, "w", encoding="utf-8") as file:
        file.write(page)
    return 0


if __name__ == "__main__":
    usage_if_asked(__doc__)
    sys.exit(main(sys.argv[1:]))
