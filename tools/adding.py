#!/usr/bin/env python3
"""Compares the lists of docs/ADDING.md with the files of the crates that name what the lists are shown on.

usage: tools/adding.py [--files NAME..]     as tools/adding.py --files FoldKind::Any

A heading of the page that ends in names of variants, as `Op::Merge`, has a table below it. Each file of the crates that names one of them
must stand in the table, and each file of the table must name one, comments aside; worked examples and the crates of tests don't count.
What is missing or too much is printed, and then the status is 1. --files prints the files of other variants, for who adds one.
"""
import argparse
import re
import sys

sys.dont_write_bytecode = True
import variant_files

TOP = variant_files.TOP
NAME = r"(\w+)::(\w+)"


def files_of(names, texts):
    """The files in which one of the variants is named, or declared."""
    found = set()
    for path, text in texts:
        for kind, variant in names:
            if kind in text and variant in text:
                declared = re.search(rf"pub enum {kind}\b[^{{]*\{{(.*?)\n\}}", text, re.DOTALL)
                is_declared = declared and re.search(rf"^    {variant}\b", declared[1], re.M)
                if is_declared or variant in variant_files.named(variant_files.Counted(kind, "", 0), text):
                    found.add(path)
    return found


def lists(page):
    """Yields of each heading with names of variants these names, and the files of its first table."""
    for heading, body in re.findall(r"^## ([^\n]*)\n(.*?)(?=^## |\Z)", page, re.M | re.S):
        names = re.findall(rf"`{NAME}`", heading)
        if names:
            table = re.search(r"^\| file \|.*?(?=\n\n|\Z)", body, re.M | re.S)
            cells = [line.split("|")[1] for line in (table[0].split("\n")[2:] if table else [])]
            yield names, [path for cell in cells for path in re.findall(r"`([^`]+)`", cell)]


def wrong(page, top=TOP):
    """What the page says other than the files do, a line each."""
    every, texts = list(lists(page)), list(variant_files.texts(top))
    if not every:
        yield "no heading names a variant"
    for names, told in every:
        said = " and ".join("::".join(name) for name in names)
        found = files_of(names, texts)
        if not found:
            yield f"{said}: no file names it"
        yield from (f"{said}: {path} stands twice" for path in sorted(set(told)) if told.count(path) > 1)
        yield from (f"{said}: {path} names it and isn't in the list" for path in sorted(found.difference(told)))
        yield from (f"{said}: {path} is in the list and doesn't name it" for path in sorted(set(told).difference(found)))


def main():
    words = argparse.ArgumentParser(description=__doc__, formatter_class=argparse.RawDescriptionHelpFormatter)
    words.add_argument("--files", nargs="+", default=[], metavar="NAME")
    given = words.parse_args()
    for name in given.files:
        parts = re.fullmatch(NAME, name)
        if not parts:
            words.error(f"{name} isn't TYPE::VARIANT")
        print(name, *sorted(files_of([parts.groups()], variant_files.texts(TOP))), sep="\n  ")
    if given.files:
        return 0
    with open(f"{TOP}/docs/ADDING.md", encoding="utf-8") as page:
        text = page.read()
    found = list(wrong(text))
    print(*found, *[f"{len(list(lists(text)))} lists, {len(found)} things to mend"], sep="\n")
    return 1 if found else 0


if __name__ == "__main__":
    sys.exit(main())
