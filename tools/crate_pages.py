#!/usr/bin/env python3
"""Compares the pages of the crates with crates.txt: each crate has a row in docs/LAYERS.md and a page, and each row and page a crate.

usage: tools/crate_pages.py [--new NAME]

--new NAME prints a page to begin with. What is wrong is printed, and then the status is 1: a crate without a row of at most 40 words
under the heading of crates.txt, or without a page that has the parts Proved, Tested and Limits, or an order of crates.txt in which a
crate stands before one that it names.
"""
from __future__ import annotations

import os
import re
import sys
from typing import Any
from said import usage_if_asked

TOP = os.path.dirname(os.path.dirname(os.path.realpath(__file__)))
MOST = 40
PARTS = ("Proved", "Tested", "Limits")
PAGE = """# {}

What it keeps, in a sentence.

The contract that is used above: `CALL`.

## Proved

- One readable fact a line, no more than its clauses say.

## Tested

- Which table of cases runs it. The edits of `must-fail/` are refused in the gate.

## Limits

- What no clause says.
"""


def text_of(path: str) -> str:
    with open(f"{TOP}/{path}", encoding="utf-8") as file:
        return file.read()


def listed() -> Any:
    """The crates of crates.txt in their order, each with the heading before it and the crates that it names."""
    heading = ""
    found: dict[str, Any] = {}
    for line in text_of("crates.txt").split("\n"):
        if line.startswith("# "):
            heading = line[2:].split(":")[0].rstrip(".")
        elif line.strip():
            name, _, below = line.partition(":")
            found[name] = heading, below.split()
    return found


def rows() -> Any:
    """The rows of the tables in docs/LAYERS.md, each with its heading and its words."""
    heading = ""
    found: dict[str, Any] = {}
    for line in text_of("docs/LAYERS.md").split("\n"):
        if line.startswith("## "):
            heading = line[3:]
        row = re.match(r"\| `((?:cu|test)_\w+)` \| (.*?) \| (.*?) \|$", line)
        if row:
            found.setdefault(row[1], (heading, row[2].split()))  # the table of times names them again
    return found


def wrong() -> Any:
    crates, table, before = listed(), rows(), set()
    has_headings = len({heading for heading, _ in crates.values()}) > 1
    for name, (heading, below) in crates.items():
        if any(other in crates and other not in before for other in below):
            yield f"crates.txt: {name} stands before a crate that it names"
        before.add(name)
        if name not in table:
            yield f"docs/LAYERS.md: no row of {name}"
        elif len(table[name][1]) > MOST:
            yield f"docs/LAYERS.md: the row of {name} has {len(table[name][1])} words"
        elif has_headings and table[name][0] != heading:
            yield f"docs/LAYERS.md: {name} stands under {table[name][0]}, and in crates.txt under {heading}"
        page = f"crates/{name}/README.md"
        if not os.path.exists(f"{TOP}/{page}"):
            yield f"{page} isn't there (tools/crate_pages.py --new {name})"
        else:
            yield from (f"{page}: no part {part}" for part in PARTS if not re.search(f"\n###? {part}\n", text_of(page)))
    yield from (f"docs/LAYERS.md: {name} is no crate of crates.txt" for name in table if name not in crates)


def main(words: list[str]) -> int:
    if len(words) == 2 and words[0] == "--new":
        print(PAGE.format(words[1]), end="")
        return 0
    if words:
        print(__doc__, file=sys.stderr)
        return 2
    found = list(wrong())
    for line in found:
        print(line)
    print(f"{len(listed())} crates, {len(found)} things to mend")
    return 1 if found else 0


if __name__ == "__main__":
    usage_if_asked(__doc__)
    sys.exit(main(sys.argv[1:]))
