#!/usr/bin/env python3
"""Counts the files of the crates in which a form of an expression stands, or a kind of operation, as somebody who adds one has to write them.

usage: tools/variant_files.py [--files] [NAME..]

A form is a variant of `Form` in cu_form, a kind of operation one of `Op` in cu_op. A file counts where it names the variant of that type,
comments aside; worked examples, samples and the crates of tests don't count. It prints a line for each: its files, those of code and definitions,
those of proofs, and how many each crate has. --files prints their paths too. Where a form other than an input stands in more than 20 files,
or a kind of operation in more than 17, the last line says so, and the status is 1.
"""
from __future__ import annotations

import argparse
import os
import re
import sys
from typing import Any, Iterator
from typing import NamedTuple

TOP = os.path.dirname(os.path.dirname(os.path.realpath(__file__)))


class Counted(NamedTuple):
    """A type whose variants are counted."""
    name: str
    declared: str
    most: int
    # variants that may stand in more files
    free: frozenset[str] = frozenset()


# What a folder holds is named wherever names of arrays are: an input is no form that could be added.
FORMS = Counted("Form", "cu_form/src/form.rt", 20, frozenset({"Input"}))
KINDS = Counted("Op", "cu_op/src/operation.rt", 17)


def without_comments(path: str) -> str:
    with open(path, encoding="utf-8") as file:
        return re.sub(r"(?m)^\s*(--|//).*$", "", file.read())


def variants(counted: Counted, top: str) -> list[str]:
    """The variants of the type, in their order."""
    body = re.search(rf"pub enum {counted.name} \{{\n(.*?)\n\}}", without_comments(f"{top}/crates/{counted.declared}"), re.DOTALL)
    assert body, f"{counted.declared} declares no {counted.name}"
    return re.findall(r"(?m)^    (\w+)", body[1])


def is_worked(name: str) -> bool:
    """Whether a file has worked examples or a sample, which somebody who adds a form leaves as they are."""
    return "Examples" in name or name.startswith("Sample")


def texts(top: str) -> Iterator[tuple[str, str]]:
    """The files that count, each by its path below the crates."""
    for crate in sorted(os.listdir(f"{top}/crates")):
        for part in ("src", "specs", "proofs"):
            for folder, _, names in os.walk(f"{top}/crates/{crate}/{part}"):
                for name in sorted(names):
                    if name.endswith((".rt", ".antt")) and not crate.startswith("test_") and not is_worked(name):
                        path = os.path.join(folder, name)
                        yield os.path.relpath(path, f"{top}/crates"), without_comments(path)


def named(counted: Any, text: str) -> Any:
    """The names that a text takes from the type: as its variants, or by an import from it."""
    found = set(re.findall(rf"\b{counted.name}(?:::|\.)(\w+)", text))
    for names in re.findall(rf"\.{counted.name}\.TheVariants\.\{{([^}}]*)\}}", text):
        found.update(re.findall(r"\w+", names))
    return found


def files_of(counted: Counted, top: str = TOP) -> dict[str, list[str]]:
    """Of each variant the files in which it stands, in their order. One is that in which the type is declared."""
    found: dict[str, list[str]] = {name: [] for name in variants(counted, top)}
    for path, text in texts(top):
        names = found if path == counted.declared else named(counted, text)
        for name, paths in found.items():
            if name in names:
                paths.append(path)
    return found


def in_too_many(counted: Any, found: dict[str, list[str]]) -> list[str]:
    return [name for name, paths in found.items() if len(paths) > counted.most and name not in counted.free]


def line(name: str, paths: list[str]) -> str:
    crates = [path.split("/")[0] for path in paths]
    proofs = sum("/proofs/" in path for path in paths)
    by_crate = " ".join(f"{crate} {crates.count(crate)}" for crate in dict.fromkeys(crates))
    return f"{name:14} {len(paths):3}: {len(paths) - proofs:2} of code and definitions, {proofs:2} of proofs ({by_crate})"


def main() -> Any:
    words = argparse.ArgumentParser(description=__doc__.split("\n")[0])
    words.add_argument("--files", action="store_true", help="print the paths too")
    words.add_argument("names", nargs="*", help="these forms and kinds alone")
    given = words.parse_args()
    every = {counted: files_of(counted) for counted in (FORMS, KINDS)}
    unknown = set(given.names).difference(*every.values())
    if unknown:
        words.error(f"no form or kind: {', '.join(sorted(unknown))}")
    status = 0
    for counted, found in every.items():
        for name, paths in found.items():
            if not given.names or name in given.names:
                print(line(name, paths))
                if given.files:
                    print(*[f"  {path}" for path in paths], sep="\n")
        more = in_too_many(counted, found)
        if more:
            print(f"in more than {counted.most} files: {', '.join(more)}")
            status = 1
    return status


if __name__ == "__main__":
    sys.exit(main())
