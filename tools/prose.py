#!/usr/bin/env python3
"""Measures the sentences of the documents: how many there are, their mean length in words, and the longest.

usage: tools/prose.py [--most N] [--long N] [FILE..]     FILE is each document of the repository if none is given

--most N   the mean that is allowed, 20 if it isn't given; the status is 1 if a document has more
--long N   prints each sentence of more words

A paragraph, an item of a list and a cell of a table end a sentence each. A piece of code in a sentence is one word. Blocks of code,
headings, and cells without a verb's worth of words (fewer than four) aren't counted.
"""
from __future__ import annotations

import argparse
import glob
import os
import re
import sys
from typing import Iterator

TOP = os.path.dirname(os.path.dirname(os.path.realpath(__file__)))
PAGES = ("*.md", "docs/*.md", "bench/README.md", "compare/README.md", "crates/*/README.md", "python/README.md", "tools/README.md")
FEWEST = 4


def pieces_of(text: str, has_cells: bool = True) -> Iterator[str]:
    """Yields paragraphs, items and, unless they are left out, cells, without code blocks and headings."""
    text = re.sub(r"^(```|~~~).*?^\1", "", text, flags=re.S | re.M)
    text = re.sub(r"<!--.*?-->", "", text, flags=re.S)
    paragraph: list[str] = []
    for line in text.split("\n") + [""]:
        is_item, is_row = re.match(r"\s*([-*]|\d+\.) ", line), line.lstrip().startswith("|")
        if (not line.strip() or is_item or is_row or line.startswith("#") or line.startswith("    ")) and paragraph:
            yield " ".join(paragraph)
            paragraph = []
        if is_row and has_cells:
            yield from (cell for cell in line.strip().strip("|").split("|"))
        elif line.strip() and not is_row and not line.startswith("#") and not (line.startswith("    ") and not is_item):
            paragraph.append(line.strip())


def sentences_of(text: str, has_cells: bool = True) -> Iterator[list[str]]:
    """Yields the sentences of a document, each as the list of its words."""
    for piece in pieces_of(text, has_cells):
        plain = re.sub(r"`[^`]*`", "code", piece)
        plain = re.sub(r"\]\([^)]*\)", "]", plain)
        for sentence in re.split(r"(?<=[.!?])[)*\"]*\s+(?=[\"'(*`]*[A-Z0-9]|code)", plain):
            words = [word for word in re.findall(r"\S+", re.sub(r"^\s*([-*]|\d+\.)\s+", "", sentence)) if re.search(r"\w", word)]
            if len(words) >= FEWEST:
                yield words


def mean_of(sentences: list[list[str]]) -> float:
    return sum(map(len, sentences)) / max(len(sentences), 1)


def main() -> int:
    parser = argparse.ArgumentParser(description=__doc__, formatter_class=argparse.RawDescriptionHelpFormatter)
    parser.add_argument("--most", type=float, default=20)
    parser.add_argument("--long", type=int)
    parser.add_argument("files", nargs="*")
    given = parser.parse_args()
    files = given.files or [file for page in PAGES for file in sorted(glob.glob(f"{TOP}/{page}"))]
    worst = 0.0
    for file in files:
        with open(file, encoding="utf-8") as text:
            document = text.read()
        found = list(sentences_of(document))
        means = [mean_of(found), mean_of(list(sentences_of(document, has_cells=False)))]
        worst = max(worst, means[0])
        print(f"{os.path.relpath(file, TOP)}: {len(found)} sentences, mean {means[0]:.1f} words, outside of tables {means[1]:.1f}, longest {max(map(len, found), default=0)}")
        for words in found:
            if given.long and len(words) > given.long:
                print(f"    {len(words)}: {' '.join(words)}")
    return 1 if worst > given.most else 0


if __name__ == "__main__":
    sys.exit(main())
