#!/usr/bin/env python3
"""Runs the commands that the documents show, and compares what they print with what the documents say.

usage: tools/transcripts.py [--program FILE] [--python FILE] [--write] [FILE..]

FILE is README.md and each page of docs/ if none is given. --write puts what was printed into the pages, to be read before it is kept.

A command is a line that begins with `$ ` in a block between ``` lines; what must come on both outputs stands below it. The commands of
one page run one after another in one new folder, which is laid out as an archive of the program, with the status of the one before in
`$?`. What `cat FILE` must print is written there first if the folder hasn't the file. Three further things are looked at:
- a command inside a sentence (`./cubed scratch ..`) must be one of those that run, or have a word in capitals in it;
- a block of Python whose first line is `# needs MODULE..`, or that imports the package `cengmoat`, must end with status 0, if what it
  needs is there;
- each operator's example in the table of docs/OPERATORS.md must be accepted by `plan`.
What needs a module that isn't there is left out, and a line says so.
"""
from __future__ import annotations

import argparse
import glob
import json
import os
import re
import shutil
import subprocess
import sys
import tempfile
from typing import Iterator

import shipped  # shipped.py, in this folder

TOP = os.path.dirname(os.path.dirname(os.path.realpath(__file__)))
# The nodes before the example of an operator, and the arrays that they want.
LOADED = ("elementwise/t", "elementwise/o", "rechunk/m")
BEFORE = [{"id": "t", "op": "input", "name": "t"}, {"id": "o", "op": "input", "name": "o"}, {"id": "m", "op": "input", "name": "m"},
          {"id": "c", "op": "greater", "args": ["t", 0]}, {"id": "d", "op": "less", "args": ["t", 5]}]


def blocks_of(text: str) -> Iterator[tuple[str, str]]:
    """Yields each block between ``` lines with its language."""
    yield from re.findall(r"^```(\w*)\n(.*?)^```", text, re.S | re.M)


def commands_of(text: str) -> Iterator[tuple[str, str]]:
    """Yields each command with what it must print."""
    for language, block in blocks_of(text):
        for part in re.split(r"^\$ ", block, flags=re.M)[1:] if language == "" else []:
            command, _, printed = part.partition("\n")
            yield command, printed.strip()


def spans_of(text: str) -> Iterator[str]:
    """Yields each piece of a sentence that is a whole command."""
    outside = re.sub(r"^```.*?^```", "", text, flags=re.S | re.M)
    for span in re.findall(r"`([^`\n]+)`", outside):
        if re.match(r"(\./cubed|tools/zarr|rm|python3|examples/\S+\.sh) \S", span) and not re.search(r"(^|[ /=])[A-Z]+\b|\.\.|--help", span):
            yield span


class Page:
    """A page of the documents and the folder in which its commands run."""

    def __init__(self, file: str, given: argparse.Namespace) -> None:
        self.file, self.python, self.program = file, given.python, given.program
        self.count = 0
        self.wrong: list[str] = []
        self.left_out: list[str] = []
        self.printed: list[tuple[str, str, str]] = []
        with open(file, encoding="utf-8") as text:
            self.text = text.read()

    def run(self) -> None:
        with tempfile.TemporaryDirectory(prefix="cubed-transcripts-") as folder:
            self.folder = folder
            lay_out(folder, self.program, self.python)
            self.environment = dict(os.environ, PATH=f"{folder}/bin:{os.environ['PATH']}", PYTHONPATH=f"{folder}/python", PYTHONDONTWRITEBYTECODE="1",
                                    CENGMOAT_CUBED=f"{folder}/program/cubed")
            self.run_commands()
            self.run_python()
            self.run_examples()
            commands = [command for command, _ in commands_of(self.text)]
            self.wrong += [f"{self.file}: `{span}` isn't run" for span in spans_of(self.text) if not any(span in command for command in commands)]

    def lacks(self, code: str) -> list[str]:
        """The modules of this code that aren't there."""
        names = re.findall(r"[\w.]+", " ".join(re.findall(r"^import (.*)", code, re.M)))
        if code.startswith("# needs "):
            names += code.partition("\n")[0].split()[2:]
        return [name for name in names if subprocess.run([self.python, "-c", f"import {name}"], cwd=self.folder, env=self.environment, capture_output=True, check=False).returncode]

    def run_commands(self) -> None:
        status = 0
        for command, printed in commands_of(self.text):
            word, _, name = command.partition(" ")
            path = os.path.join(self.folder, name)
            if word == "cat" and not os.path.exists(path):
                with open(path, "w", encoding="utf-8") as told:
                    told.write(printed + "\n")
            if word == "python3" and os.path.isfile(path):
                with open(path, encoding="utf-8") as told:
                    lacking = self.lacks(told.read())
                if lacking:
                    self.left_out.append(f"{self.file}: $ {command} and what follows, since {' and '.join(lacking)} can't be imported")
                    return
            ended = subprocess.run(["bash", "-c", f"(exit {status}); {command}"], cwd=self.folder, env=self.environment,
                                   stdout=subprocess.PIPE, stderr=subprocess.STDOUT, stdin=subprocess.DEVNULL, text=True, check=False)
            self.count, status = self.count + 1, ended.returncode
            if ended.stdout.strip() != printed:
                self.wrong.append(f"{self.file}: $ {command}\n{ended.stdout.strip()}\nand must print\n{printed}")
                self.printed.append((command, printed, ended.stdout.strip()))

    def write(self) -> None:
        """Puts what was printed into the page."""
        for command, told, printed in self.printed:
            old, new = (f"$ {command}\n" + (f"{text}\n" if text else "") for text in (told, printed))
            self.text = self.text.replace(old, new, 1)
        if self.printed:
            with open(self.file, "w", encoding="utf-8") as text:
                text.write(self.text)

    def run_python(self) -> None:
        for language, block in blocks_of(self.text):
            if language != "python" or not (block.startswith("# needs ") or re.search(r"^import cengmoat", block, re.M)):
                continue
            lacking = self.lacks(block)
            if lacking:
                self.left_out.append(f"{self.file}: a block of Python, since {' and '.join(lacking)} can't be imported")
                continue
            ended = subprocess.run([self.python, "-c", block], cwd=self.folder, env=self.environment, stdout=subprocess.PIPE, stderr=subprocess.STDOUT, text=True, check=False)
            self.count += 1
            if ended.returncode:
                self.wrong.append(f"{self.file}: a block of Python\n{ended.stdout}")

    def run_examples(self) -> None:
        """Asks for the plan of each operator's example in a table whose first column is `op`."""
        inside = False
        for line in self.text.split("\n"):
            cells = [cell.strip() for cell in line.split("|")]
            inside = line.startswith("| op |") or inside and line.startswith("|")
            if not inside or len(cells) != 8 or not cells[6].startswith("`{"):
                continue
            names, example = re.findall(r"`([^`]+)`", cells[1]), cells[6].strip("`")
            for name in names:
                self.run_example(name, example.replace(f'"op":"{names[0]}"', f'"op":"{name}"'))

    def run_example(self, name: str, example: str) -> None:
        if not os.path.exists(f"{self.folder}/given/m"):
            for file in LOADED:
                self.call(["load"], f"{TOP}/examples/{file}.json")
        node = json.loads(example)
        with open(f"{self.folder}/example.json", "w", encoding="utf-8") as text:
            json.dump({"nodes": BEFORE + [node], "out": node["id"], "store_as": "example"}, text)
        ended = self.call(["plan"], f"{self.folder}/example.json")
        self.count += 1
        if ended.returncode or node["op"] != name:
            self.wrong.append(f"{self.file}: the example of {name}: {example}\n{ended.stdout.strip()}")

    def call(self, words: list[str], path: str) -> subprocess.CompletedProcess[str]:
        with open(path, encoding="utf-8") as text:
            return subprocess.run([f"{self.folder}/program/cubed", f"{self.folder}/given", *words], stdin=text, stdout=subprocess.PIPE, stderr=subprocess.STDOUT, text=True, check=False)


def lay_out(folder: str, program: str, python: str) -> None:
    """Makes the folder what an archive of the program is, with `python3` as the one that is given."""
    for name in ("examples", "docs", "python"):
        if os.path.isdir(f"{TOP}/{name}"):
            shutil.copytree(f"{TOP}/{name}", f"{folder}/{name}")
    for name in ("program", "bin"):
        os.mkdir(f"{folder}/{name}")
    shipped.put_scripts(folder)
    shutil.copy(program, f"{folder}/program/cubed")
    with open(f"{folder}/bin/python3", "w", encoding="ascii") as file:
        file.write(f'#!/bin/sh\nexec "{python}" "$@"\n')
    os.chmod(f"{folder}/bin/python3", 0o755)


def with_numpy() -> str:
    """A Python that has NumPy, or this one."""
    for python in (sys.executable, "/usr/bin/python3"):
        if os.path.exists(python) and subprocess.run([python, "-c", "import numpy"], capture_output=True, check=False).returncode == 0:
            return python
    return sys.executable


def main() -> int:
    words = argparse.ArgumentParser(description=__doc__, formatter_class=argparse.RawDescriptionHelpFormatter)
    words.add_argument("--program", default=f"{TOP}/crates/cu_bin/out/cu_bin")
    words.add_argument("--python", default=with_numpy())
    words.add_argument("--write", action="store_true")
    words.add_argument("files", nargs="*", default=[f"{TOP}/README.md", *sorted(glob.glob(f"{TOP}/docs/*.md"))])
    given = words.parse_args()
    pages = [Page(file, given) for file in given.files]
    for page in pages:
        page.run()
        if given.write:
            page.write()
    wrong = [it for page in pages for it in page.wrong]
    for line in wrong + [f"left out: {it}" for page in pages for it in page.left_out]:
        print(line, end="\n\n")
    print(f"{sum(page.count for page in pages)} commands and examples, {len(wrong)} print other than is said")
    return 1 if wrong else 0


if __name__ == "__main__":
    sys.exit(main())
