"""How many tasks of a plan are done, by the chunks that are there; and whether a run is at work,
where that can be found out.

The operations of a plan, their tasks and the chunks that these store are those of compare/rules.py.
No chunk is read.
"""
from __future__ import annotations

import contextlib
import json
import os
import re
import stat
import sys
from typing import Any, Callable, Optional

import locks
from said import Failed
from stdin_text import name_of_text
from zarr_store import METADATA_BYTES, RECORD_BYTES, Stored, bytes_in

sys.path.append(os.path.join(os.path.dirname(os.path.realpath(__file__)), "..", "compare"))
import rules  # rules.py, in compare

PROGRAMS = ("cu_bin", "cubed")
AT_WORK = ("run", "resume", "demo", "load", "begin", "part")
# The most bytes of a process's words that are looked at.
MOST_WORDS = 1 << 16
# The number of --fusion for each version of a plan that a record may have.
VERSIONS = {2: 1, 3: 2}


class Operation:
    """An operation of a plan: its number, its kind, its step, and the folders of the arrays that it
    writes.
    """

    def __init__(self, number: int, step: Any, folders: list[str]) -> None:
        self.number, self.kind, self.tasks = number, step.kind, step.tasks()
        self.step, self.folders = step, folders

    def done(self) -> int:
        """How many of its tasks have stored all of their chunks."""
        held = [coordinates_in(folder, len(array[1]))
                for folder, array in zip(self.folders, self.step.arrays)]
        if not all(held):
            return 0
        if self.kind == "copy":
            return sum(all(where in held[at] for at, where in self.step.written(place))
                       for place in self.step.places())
        grid = self.step.grid()
        return sum(all(at < count for at, count in zip(place, grid))
                   for place in set.intersection(*held))


class Tasks:
    """The operations of the plan that makes an array in a folder."""

    def __init__(self, folder: str, plan: Any) -> None:
        self.operations: list[Operation]
        self.name, self.operations = plan.expr["store_as"], []
        for k, steps in plan.steps.items():
            for at, step in enumerate(steps):
                folders = [os.path.join(folder, plan.prefixes[k, at, which])
                           for which in range(len(step.arrays))]
                self.operations.append(Operation(len(self.operations), step, folders))
        self.count = sum(it.tasks for it in self.operations)

    def done(self) -> list[int]:
        """How many tasks of each operation are done."""
        return [it.done() for it in self.operations]


def coordinates_in(folder: str, rank: int) -> set[tuple[int, ...]]:
    """The coordinates of the chunk files of an array of made chunks, of which no other file is one.
    """
    found: set[tuple[int, ...]] = set()
    top = os.path.join(folder, "c")
    if rank == 0:
        return {()} if is_file(top) else found
    waiting: list[tuple[str, tuple[int, ...]]] = [(top, ())]
    while waiting:
        at, place = waiting.pop()
        with contextlib.suppress(OSError):
            for entry in os.scandir(at):
                if not entry.name.isdecimal() or not entry.name.isascii() or len(entry.name) > 6:
                    continue
                here = (*place, int(entry.name))
                if len(here) < rank:
                    waiting.append((entry.path, here))
                elif not entry.is_dir():
                    found.add(here)
    return found


def is_file(path: str) -> bool:
    try:
        return stat.S_ISREG(os.stat(path).st_mode)
    except OSError:
        return False


def of_text(folder: str, data: bytes, allowed: int = rules.DEFAULT, reserved: int = 0, split_every: int = rules.SPLIT_EVERY,
            fusion: int = 1, *, held: Optional[Callable[[str], Optional[bytes]]] = None) -> Optional[Tasks]:
    """The tasks of the plan of a text over a folder, or nothing where it has none."""
    def held_here(key: str) -> Optional[bytes]:
        try:
            return bytes_in(os.path.join(folder, key), METADATA_BYTES)
        except (OSError, Failed):
            return None
    try:
        return Tasks(folder, rules.counted_plan(data, held or held_here, allowed, reserved,
                                                split_every, fusion))
    except (rules.Refused, ValueError, KeyError, TypeError, IndexError, AttributeError,
            RecursionError):
        return None


def of_record(stored: Stored) -> Optional[Tasks]:
    """The tasks of the plan whose record is stored for an array, or nothing where the record isn't
    there or isn't one.
    """
    try:
        record = json.loads(bytes_in(stored.record, RECORD_BYTES).decode("utf-8"))
        metas = {f"{name}/zarr.json": json.dumps(value).encode()
                 for name, value in record["inputs"].items()}
        data = json.dumps(record["expr"], ensure_ascii=False, separators=(",", ":")).encode("utf-8")
        numbers: list[int] = [record[name] for name in ("allowed", "reserved", "split_every", "cubed")]
    except (OSError, Failed, ValueError, KeyError, TypeError, AttributeError, RecursionError):
        return None
    if not all(type(number) is int and 0 <= number <= 2**40
               for number in numbers) or not 2 <= numbers[2] <= 64 or numbers[3] not in VERSIONS:
        return None
    allowed, reserved, split_every, version = numbers
    found = of_text(stored.folder, data, allowed, reserved, split_every, VERSIONS[version], held=metas.get)
    return found if found and found.name == stored.name else None


# Whether a run is at work

def words_of(process: str) -> list[bytes]:
    """The words of a process, or none where it has ended or isn't shown."""
    try:
        with open(f"/proc/{process}/cmdline", "rb") as file:
            return file.read(MOST_WORDS).split(b"\0")[:-1]
    except OSError:
        return []


def name_at(process: str, words: list[bytes]) -> Any:
    """The name of the array that a process of the program makes, or nothing where it can't be found
    out.
    """
    if words[2] == b"demo":
        return "demo_y"
    path = f"/proc/{process}/fd/0"
    try:
        if not stat.S_ISREG(os.stat(path).st_mode):
            return None
        return name_of_text(bytes_in(path, rules.MOST_TEXT))
    except (OSError, Failed):
        return None


def at_work_in(folder: str) -> dict[int, Any]:
    """The processes of the program that are at work in a folder of this machine: the name that each
    makes, or nothing, by its number.
    """
    found: dict[int, Any] = {}
    try:
        own, processes = os.stat(folder), [entry for entry in os.listdir("/proc")
                                           if entry.isdecimal()]
    except OSError:
        return found
    for process in processes:
        words = words_of(process)
        if len(words) < 3 or os.path.basename(os.fsdecode(words[0])) not in PROGRAMS or words[2].decode("ascii", "replace") not in AT_WORK:
            continue
        with contextlib.suppress(OSError):
            if os.path.samestat(own, os.stat(os.path.join(f"/proc/{process}/cwd/",
                                                          os.fsdecode(words[1])))):
                found[int(process)] = name_at(process, words)
    return found


def is_at_work(folder: str, name: str, processes: dict[int, Any]) -> bool:
    """Whether a run of an array is at work for sure: its lock is held, or a process makes it."""
    return locks.is_held(folder, name) or name in processes.values()


def is_chunk_of_plan(name: str) -> bool:
    """Whether this is the name of a chunk in between, below the folder of a plan."""
    return re.match(r"(0|[1-9][0-9]{0,5})/c(/(0|[1-9][0-9]{0,4})){0,6}\Z", name) is not None
