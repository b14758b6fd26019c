"""What measures share: their options, rounds in which the ways take turns, and texts of expressions."""
from __future__ import annotations

import argparse
import json
import os
import sys
import tempfile
from typing import Any, Callable, Iterable, Iterator, Optional, TypeVar

from stored import PROGRAM  # stored.py, in this folder

Key = TypeVar("Key")
MEMORY = "/dev/shm"


def in_memory() -> str:
    """The folder in memory, or the one for temporary files where there is none."""
    return MEMORY if os.path.isdir(MEMORY) else tempfile.gettempdir()


def words_of(doc: Optional[str], runs: int = 5, place: Optional[str] = None, python: str = "",
             program: Optional[Callable[[str], str]] = None) -> argparse.ArgumentParser:
    """The options of a measure: --program, --dir, which may be given several times where no place is said, --runs, and --python, where
    the modules are said that it must have."""
    words = argparse.ArgumentParser(description=doc, formatter_class=argparse.RawDescriptionHelpFormatter)
    words.add_argument("--program", default=PROGRAM, type=program or str, help="the built program")
    if place is None:
        words.add_argument("--dir", action="append", help="a folder to measure in, as often as wanted")
    else:
        words.add_argument("--dir", default=place, help="the folder to measure in")
    words.add_argument("--runs", type=int, default=runs, help="how many rounds")
    if python:
        words.add_argument("--python", default=sys.executable, help=f"the Python that has {python}")
    return words


def turns(ways: Iterable[Key], rounds: int) -> Iterator[Key]:
    """The ways of each round, in one order and then in the other, since what comes first has the colder caches."""
    told = list(ways)
    for number in range(rounds):
        yield from told[::1 if number % 2 == 0 else -1]


def node(name: str, op: str, /, *args: Any, **members: Any) -> dict[str, Any]:
    """A node of an expression."""
    return {"id": name, "op": op, **({"args": list(args)} if args else {}), **members}


def over(inputs: Iterable[str], *nodes: dict[str, Any]) -> str:
    """The text of an expression over stored arrays, each by its own name, that stores its last node under `y`."""
    given = [node(name, "input", name=name) for name in inputs]
    return json.dumps({"nodes": [*given, *nodes], "out": nodes[-1]["id"], "store_as": "y"})
