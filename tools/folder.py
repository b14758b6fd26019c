#!/usr/bin/env python3
"""The commands `status` and `remove` of the script cubed: what lies in a folder of arrays, and
removing an array with its plan.

usage:
  cubed DIR status [NAME]
  cubed DIR remove NAME [--input] [--dry-run]

They go by names, metadata and files alone. Neither reads a chunk, and neither needs the program.
"""
from __future__ import annotations

import contextlib
import functools
import os
import signal
import sys
from typing import Any, Optional

import locks
from tasks import Tasks, at_work_in, is_at_work, is_chunk_of_plan, of_record
from zarr_store import (CHUNK, GROUP, METADATA, NO_METADATA, STOPPED, State, Stored, Unread, files_under, is_name, names_in, sizes_text)
from said import Failed, shown, usage_if_asked

NO_ARRAY = "no array"
# How many files of each kind are named.
NAMED = 5


class Wrong(Exception):
    """The words are wrong."""


def counted(number: int, noun: str) -> str:
    return f"{number} {noun}{'' if number == 1 else 's'}"


class Found:
    """What lies under the name of an array: its files by kind, its layout where the program reads
    it, and its state.
    """

    def __init__(self, stored: Stored, processes: Optional[dict[int, Any]] = None) -> None:
        self.stored, self.processes = stored, processes or {}
        self.layout = self.unread = None
        self.is_link, self.is_plan_link = os.path.islink(stored.path), os.path.islink(stored.plan)
        # The folder of all plans may be a link too, and something of this one lie behind it.
        self.is_far_plan = (os.path.islink(os.path.dirname(stored.plan))
                            and os.path.lexists(stored.plan))
        self.has_array = os.path.isdir(stored.path)
        if self.has_array:
            try:
                self.layout = stored.layout()
            except (Unread, OSError) as unread:
                self.unread = str(unread)
        files, self.links = files_under(stored.path) if self.has_files() else ([], [])
        # What a run makes has metadata of version 3 alone.
        self.metadata = [name for name in (METADATA[:1] if stored.has_record() else METADATA)
                         if name in files]
        self.chunks = [name for name in files if self.is_chunk(name)]
        self.stopped = [name for name in files if self.is_stopped(name)]
        kinds = {*self.metadata, *self.chunks, *self.stopped}
        self.others = [name for name in files if name not in kinds] + self.links
        files, links = files_under(stored.plan)
        self.between = [name for name in files if is_chunk_of_plan(name)]
        self.between_stopped = [name for name in files if is_left_of_plan(name)]
        kinds = {"plan.json", *self.between, *self.between_stopped}
        self.plan_others = [name for name in files if name not in kinds] + links

    def is_chunk(self, name: str) -> bool:
        """Whether a file of the array's folder has the name of one of its chunks, or of one that
        the program writes where the grid isn't known.
        """
        if self.layout is not None:
            return self.layout.coordinate(name) is not None
        return CHUNK.match(name) is not None

    def is_stopped(self, name: str) -> bool:
        """Whether a file has the name that a write of metadata or of a chunk leaves when it is
        stopped.
        """
        left = STOPPED.match(name)
        return left is not None and (left[1] in METADATA or self.is_chunk(left[1]))

    def has_files(self) -> bool:
        """Whether files of an array lie here, and no others' arrays: neither in what a link leads
        to nor in a group.
        """
        if self.is_link or not self.has_array or self.unread == GROUP:
            return False
        try:
            names = os.listdir(self.stored.path)
        except OSError:
            return False
        if ".zgroup" in names:
            return False
        return any(name in METADATA or name == "c" or self.is_stopped(name) for name in names)

    @functools.cached_property
    def state_of_chunks(self) -> State:
        """Which of its chunks are whole, missing, or of another length."""
        assert self.layout is not None
        return self.stored.state(self.layout)

    @functools.cached_property
    def tasks(self) -> Optional[Tasks]:
        """The tasks of the plan that makes it, or nothing."""
        return of_record(self.stored)

    @functools.cached_property
    def is_unfinished(self) -> bool:
        return self.stored.has_record() and (self.layout is None
                                             or bool(self.state_of_chunks.missing))

    @property
    def has_own_record(self) -> bool:
        """Whether the record lies in the folder itself, and not behind a link."""
        return self.stored.has_record() and not self.is_plan_link

    @property
    def is_whole(self) -> bool:
        """Whether all of its chunks are files of their length."""
        return self.layout is not None and self.state_of_chunks.whole == self.layout.chunk_count

    def state(self) -> str:
        """One phrase, and what to do where something is to be done."""
        if self.is_unfinished:
            return f"unfinished: {self.progress()}" + ("" if self.layout else f"; {self.no_layout()}")
        if self.layout is None:
            return self.state_unread()
        wrong = len(self.state_of_chunks.wrong)
        told = f"; {counted(wrong, 'damaged chunk')}" if wrong else ""
        if self.stored.has_record():
            return f"result of a run{told}"
        return ("array; a chunk without a file is the fill value" if self.state_of_chunks.missing
                else "array") + told

    def progress(self) -> str:
        """How far a run is, and whether it is at work where that is known."""
        done = ""
        if self.tasks:
            done = f"{sum(self.tasks.done())} of {counted(self.tasks.count, 'task')} done; "
        if is_at_work(self.stored.folder, self.stored.name, self.processes):
            return done + "a run is at work"
        return done + "a run was stopped, or is at work"

    def no_layout(self) -> str:
        return "no metadata" if self.unread in (None, NO_METADATA) else f"not read: {self.unread}"

    @property
    def is_left(self) -> bool:
        """Whether it is what a write of tools/zarr left when it was stopped, whose metadata would
        have come last.
        """
        return STOPPED.match(self.stored.name) is not None and not self.metadata

    @property
    def is_nothing(self) -> bool:
        """Whether nothing of an array or of a plan lies here."""
        return self.state() == NO_ARRAY and not self.rest()

    def state_unread(self) -> str:
        if self.is_left:
            return "left by a write that was stopped"
        if self.is_link and not self.has_array:
            return "a link that leads to no folder"
        if self.unread in (None, NO_METADATA):
            return self.state_of_left() if self.chunks or self.stopped else NO_ARRAY
        return f"not read: {self.unread}"

    def state_of_left(self) -> str:
        """What chunks without metadata are."""
        if locks.is_held(self.stored.folder, self.stored.name):
            return "no zarr.json; a load is at work"
        return "no zarr.json; a load that was stopped leaves this: load it again"

    def rest(self) -> list[str]:
        """What lies there beside the array."""
        rest = [counted(len(self.between), "chunk") + " in between"] if self.between else []
        stopped = len(self.stopped) + len(self.between_stopped)
        return rest + ([counted(stopped, "file") + " of stopped writes"] if stopped else [])

    def row(self) -> list[str]:
        layout = self.layout
        whole = f"{self.state_of_chunks.whole} of {layout.chunk_count}" if layout else "-"
        told = [layout.dtype, sizes_text(layout.shape),
                sizes_text(layout.chunk)] if layout else ["-"] * 3
        return [self.stored.name, *told, whole, "; ".join([self.state()] + self.rest())]


def is_left_of_plan(name: str) -> bool:
    """Whether a file below the folder of a plan has the name that a stopped write of the record or
    of a chunk leaves.
    """
    left = STOPPED.match(name)
    return left is not None and (left[1] == "plan.json" or is_chunk_of_plan(left[1]))


def bytes_of(folder: str, names: list[str]) -> str:
    """The bytes of these files, and how many they are."""
    total = 0
    for name in names:
        with contextlib.suppress(OSError):
            total += os.lstat(os.path.join(folder, name)).st_size
    return f"{total} bytes in {counted(len(names), 'file')}"


def show_table(rows: list[list[str]]) -> None:
    rows = [["NAME", "TYPE", "SHAPE", "CHUNK", "STORED", "STATE"], *rows]
    widths = [max(len(row[at]) for row in rows) for at in range(5)]
    for row in rows:
        print("  ".join([text.ljust(width) for text, width in zip(row, widths)] + [row[5]]))


def status(folder: str, words: list[str]) -> int:
    """Lists the arrays of a folder, or one of them with what its files take."""
    if len(words) > 1 or any(word.startswith("-") for word in words):
        raise Wrong("usage: cubed DIR status [NAME]")
    if not os.path.isdir(folder):
        raise Failed(f"{folder} is no folder")
    processes = at_work_in(folder)
    if not words:
        all_found = [Found(Stored(folder, name), processes) for name in names_in(folder)]
        show_table([it.row() for it in all_found if not it.is_nothing])
        return 0
    found = named(folder, words[0], processes)
    stored = found.stored
    show_table([found.row()])
    print(f"the array: {bytes_of(stored.path, found.metadata + found.chunks + found.stopped)}")
    if stored.has_record() or found.between:
        plan = found.between + found.between_stopped + (["plan.json"] if stored.has_record()
                                                        else [])
        print(f"its plan and what lies in between: {bytes_of(stored.plan, plan)}")
    if found.is_unfinished and found.tasks and len(found.tasks.operations) > 1:
        show_operations(found.tasks)
    if found.layout:
        show_chunks(found)
    return 1 if found.is_unfinished or found.layout and found.state_of_chunks.wrong else 0


def show_operations(tasks: Tasks) -> None:
    """Of each operation that isn't done how many of its tasks are; of those behind one another the
    first ones.
    """
    done = tasks.done()
    left = [(it, count) for it, count in zip(tasks.operations, done) if count < it.tasks]
    for it, count in left[:NAMED]:
        print(f"op {it.number} {it.kind}: {count} of {counted(it.tasks, 'task')} done")
    if len(left) > NAMED:
        print(f"and {counted(len(left) - NAMED, 'further operation')} not done")


def show_chunks(found: Found) -> None:
    """The first chunks that have no file, those whose files are wrong, and what to do about these.
    """
    state = found.state_of_chunks
    for key in list(state.wrong)[:NAMED]:
        print(f"{key} {state.wrong[key]}")
    if len(state.wrong) > NAMED:
        print(f"and {counted(len(state.wrong) - NAMED, 'further chunk')} so")
    if state.wrong and found.stored.has_record():
        print("resume takes each file that is there for done: check finds a wrong one; remove it, and resume makes it again")
    elif state.wrong:
        print("each command that reads such a chunk ends with error 13 or 16: write it again")
    missing = state.missing
    if missing:
        print(f"without a file: {', '.join(missing[:NAMED])}{f' and {len(missing) - NAMED} more' if len(missing) > NAMED else ''}")


def named(folder: str, name: str, processes: Optional[dict[int, Any]] = None) -> Found:
    if not is_name(name):
        raise Wrong(f"{shown(name)!r} isn't a name: 1 to 32 letters, digits, _, - and ., the first a letter or a digit")
    found = Found(Stored(folder, name), processes)
    if found.is_nothing:
        raise Failed(f"{folder} has no array {name}, and no plan of one")
    return found


def remove(folder: str, words: list[str]) -> int:
    """Removes an array and its plan: the metadata first, so that no reader takes the rest for an
    array, and the record last.
    """
    flags = {word for word in words if word.startswith("-")}
    names = [word for word in words if not word.startswith("-")]
    if len(names) != 1 or not flags <= {"--input", "--dry-run"}:
        raise Wrong("usage: cubed DIR remove NAME [--input] [--dry-run]")
    # The first look makes no lock for what is refused; the second one is that by which it goes.
    found = removable(folder, names[0], "--input" in flags)
    if "--dry-run" in flags:
        refuse_locked(found.stored)
        show_removal(found)
        return 0
    with locks.held(folder, found.stored.name):
        found = removable(folder, names[0], "--input" in flags)
        show_removal(found)
        remove_all(found)
    return 0


def removable(folder: str, name: str, is_asked: bool) -> Found:
    """What lies under a name, if it may go."""
    found = named(folder, name, at_work_in(folder))
    refuse_removal(found, is_asked)
    return found


def show_removal(found: Found) -> None:
    print(going(found), flush=True)
    for name in kept(found):
        print(f"stays, since it is no part of the array: {shown(name, 400)}")


def refuse_locked(stored: Stored) -> None:
    if locks.is_held(stored.folder, stored.name):
        holder = locks.who_holds(stored.folder, stored.name)
        raise Failed(f"{stored.name} is being computed or stored by {holder}: wait until it has ended")


def refuse_removal(found: Found, is_asked: bool) -> None:
    stored = found.stored
    if stored.name in found.processes.values():
        raise Failed(f"{stored.name} isn't removed: a run is at work that makes it; wait until it has ended, or end it")
    if found.is_far_plan:
        raise Failed(f"{stored.name} isn't removed: _cubed is a link, and nothing behind a link is removed; remove "
                     f"{shown(stored.plan, 400)} by another program, and call again")
    if found.unread == GROUP or os.path.exists(os.path.join(stored.path, ".zgroup")):
        raise Failed(f"{stored.name} is a group; it isn't removed here")
    if found.has_array and not stored.has_record() and not found.is_left and not is_asked:
        raise Failed(f"{stored.name} has no record of a plan, so no run made it; say --input to remove it all the same")
    if found.metadata and found.layout is None and not stored.has_record() and not found.is_link:
        raise Failed(f"{stored.name} isn't removed, since its chunks can't be told from other files: {found.unread}")


def going(found: Found) -> str:
    """What goes, in one line."""
    if found.is_link:
        parts = [f"the link to {shown(os.readlink(found.stored.path), 400)}, and nothing of what it leads to"]
    else:
        parts = [name for name in found.metadata] + ([counted(len(found.chunks), "chunk")]
                                                     if found.chunks else [])
    if found.is_plan_link:
        parts.append(f"the link _cubed/{found.stored.name} to {shown(os.readlink(found.stored.plan), 400)}, and nothing of what it leads to")
    parts += found.rest() + (["the record of its plan"] if found.has_own_record else [])
    return f"{found.stored.name}: {', '.join(parts) or 'empty folders'}"


def kept(found: Found) -> list[str]:
    own = [os.path.join(found.stored.name, name) for name in found.others]
    return own + [os.path.join("_cubed", found.stored.name, name) for name in found.plan_others]


def remove_all(found: Found) -> None:
    stored, top = found.stored, found.stored.folder
    own = found.metadata + found.chunks + found.stopped
    unlink_below(top, [stored.name] if found.is_link else [f"{stored.name}/{it}" for it in own])
    remove_folders(top, stored.name)
    plan = f"_cubed/{stored.name}"
    own = (found.between + found.between_stopped
           + (["plan.json"] if found.has_own_record else []))
    unlink_below(top, [plan] if found.is_plan_link else [f"{plan}/{it}" for it in own])
    remove_folders(top, plan)


def unlink_below(top: str, names: list[str]) -> None:
    """Removes these files below a folder, in their order. No link below it is followed, whenever it
    was put there.
    """
    at, here = None, None
    try:
        for name in names:
            folder, _, last = name.rpartition("/")
            if here is None or folder != at:
                if here is not None:
                    os.close(here)
                at, here = folder, None
                here = folder_of(top, folder)
            with contextlib.suppress(FileNotFoundError):
                unlink(last, here)
    finally:
        if here is not None:
            os.close(here)


def folder_of(top: str, folder: str) -> int:
    """The descriptor of a folder below another one, which alone may be a link."""
    kind = os.O_RDONLY | os.O_DIRECTORY | os.O_CLOEXEC
    found = os.open(top, kind)
    for part in filter(None, folder.split("/")):
        try:
            below = os.open(part, kind | os.O_NOFOLLOW, dir_fd=found)
        finally:
            os.close(found)
        found = below
    return found


def unlink(name: str, folder: int) -> None:
    os.unlink(name, dir_fd=folder)


def remove_folders(top: str, folder: str) -> None:
    """Removes a folder below another one, and those below it, where they are empty."""
    above, _, last = folder.rpartition("/")
    with contextlib.suppress(OSError):
        here = folder_of(top, above)
        try:
            for _, folders, _, at in os.fwalk(last, topdown=False, dir_fd=here):
                for name in folders:
                    with contextlib.suppress(OSError):
                        os.rmdir(name, dir_fd=at)
            os.rmdir(last, dir_fd=here)
        finally:
            os.close(here)


def main(words: list[str]) -> int:
    try:
        folder, command, *rest = words
        return {"status": status, "remove": remove}[command](folder, rest)
    except (ValueError, KeyError):
        print(__doc__.strip(), file=sys.stderr)
        return 2
    except Wrong as wrong:
        print(f"cubed: {wrong}", file=sys.stderr)
        return 2
    except (Failed, OSError) as failed:
        print(f"cubed: {shown(failed, 1000)}", file=sys.stderr)
        return 1
    except KeyboardInterrupt:
        print("cubed: broken off; the same command goes on where it was", file=sys.stderr)
        return 130


if __name__ == "__main__":
    usage_if_asked(__doc__)
    signal.signal(signal.SIGTERM, lambda *_: (_ for _ in ()).throw(KeyboardInterrupt()))
    sys.exit(main(sys.argv[1:]))
