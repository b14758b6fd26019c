"""The text that a call of the program reads from standard input, and the locks of the names that it
stores under.
"""
from __future__ import annotations

import contextlib
import json
import os
import re
import stat

TYPE_CHECKING = False
if TYPE_CHECKING:
    from typing import Optional

NAME = re.compile(r"[A-Za-z0-9][A-Za-z0-9_.-]{0,31}\Z")
MOST_TEXT = 1 << 20
TAKES_TEXT = ("run", "resume", "drop", "plan", "check", "load", "begin", "part")
# The commands that compute an array, which several processes may do, and those that store or remove
# one at once.
SHARING, ALONE = ("run", "resume", "begin", "part"), ("load", "drop")
# What the command demo stores, and whether it stores that alone.
OF_DEMO = (("demo_a", True), ("demo_b", True), ("demo_y", False))


def name_of_text(data: bytes) -> object:
    """The name under which a text stores its array, or nothing."""
    try:
        value = json.loads(data.decode("utf-8"))
        return value.get("store_as", value.get("name"))
    except (ValueError, AttributeError, RecursionError):
        return None


def locks_of(command: str, text: Optional[bytes]) -> list[tuple[str, bool]]:
    """The names whose locks a call holds as long as the program works, and whether it holds each
    alone.
    """
    if command == "demo":
        return list(OF_DEMO)
    if command not in (*SHARING, *ALONE) or not text or len(text) > MOST_TEXT:
        return []
    name = name_of_text(text)
    return [(name, command in ALONE)] if isinstance(name, str) and NAME.match(name) else []


def taken() -> Optional[bytes]:
    """Reads the text from standard input, and leaves it there for the program: a file is read once
    more, and what came otherwise is handed on. What can't be read is left for the program to say so.
    """
    try:
        is_file = stat.S_ISREG(os.fstat(0).st_mode)
        start = os.lseek(0, 0, os.SEEK_CUR) if is_file else 0
        blocks, left = [], MOST_TEXT + 2
        while left and (block := os.read(0, left)):
            blocks.append(block)
            left -= len(block)
    except OSError:
        return None
    text = b"".join(blocks)
    if is_file:
        os.lseek(0, start, os.SEEK_SET)
    else:
        hand_on(text)
    return text


def hand_on(text: bytes) -> None:
    """Makes standard input one from which a text is read: a file without a name or, where there may
    be none of that size, a pipe that another process fills.
    """
    with contextlib.suppress(OSError, AttributeError):
        made = os.memfd_create("text")
        if os.write(made, text) == len(text):
            os.lseek(made, 0, os.SEEK_SET)
            os.dup2(made, 0)
            os.close(made)
            return
    read_end, write_end = os.pipe()
    if os.fork() == 0:
        os.dup2(read_end, 0)
        os.close(read_end)
        fill(write_end, text)
    os.dup2(read_end, 0)
    os.close(read_end)
    os.close(write_end)


def fill(write_end: int, text: bytes) -> None:
    """Fills a pipe, and ends this process."""
    try:
        os.close(0)
        while text:
            text = text[os.write(write_end, text):]
    finally:
        os._exit(0)
