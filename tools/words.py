#!/usr/bin/env python3
"""Whether the words of a call are ones that the program accepts, and which of them isn't. The
program itself reads them by the same rules.

usage: tools/words.py DIR COMMAND WORDS..     prints the answer and what is wrong on standard error, and ends with 2; else with 0

`--progress N` is the script's own, and the program doesn't get it.
"""
from __future__ import annotations

import difflib
import re
import sys
from typing import Iterable, Optional

from options import COMMANDS, OPTIONS, OTHERS, options_of
from said import shown, usage_if_asked
from stdin_text import NAME

# What stands behind an option's name alone.
POSITIONAL = {"print": "the name of an array", "demo": "a size from 1 to 2048"}
# Options that a command must have: they have no number where they aren't given.
REQUIRED = {"part": [name for name, row in OPTIONS.items() if row.default is None]}
NUMBER = re.compile(r"\+?[0-9]+\Z", re.ASCII)
UNITS = {"": 1, "k": 10**3, "m": 10**6, "g": 10**9, "t": 10**12, "ki": 2**10, "mi": 2**20,
         "gi": 2**30, "ti": 2**40}
SIZE = re.compile(r"([0-9]{1,15})(?:[.]([0-9]{1,6}))? ?([kmgt]i?|)b?\Z", re.IGNORECASE | re.ASCII)


class Wrong(Exception):
    """A word isn't accepted: the code of the answer, and what is wrong."""

    def __init__(self, code: int, told: str) -> None:
        super().__init__(told)
        self.code, self.told = code, told


def near(word: str, names: Iterable[str]) -> str:
    """What to say of the names that a wrong one is near to."""
    found = difflib.get_close_matches(word.lower(), list(names), 3, 0.6) if len(word) < 100 else []
    return f" (near: {', '.join(found)})" if found else ""


def bytes_text(text: str) -> str:
    """A size such as 64MiB in bytes, or nothing."""
    found = SIZE.match(text)
    if not found or not found[3] and not found[2] and text.isdigit():
        return ""
    scale, digits = UNITS[found[3].lower()], found[2] or ""
    return f" ({int(found[1] + digits) * scale // 10**len(digits)} bytes)"


def value_of(text: str) -> int:
    """The number that a word of digits is. One that is above every range has fewer digits here."""
    return int(text.lstrip("+0")[:30] or "0")


def is_text(word: str) -> bool:
    try:
        word.encode("utf-8")
    except UnicodeEncodeError:
        return False
    return True


def parts(words: list[str]) -> tuple[list[tuple[str, Optional[str]]], list[str]]:
    """The pairs of an option and its value, and the other words, in their order."""
    end = words.index("--") if "--" in words else len(words)
    given: list[tuple[str, Optional[str]]] = []
    others, rest = [], iter(words[:end])
    for word in rest:
        if word == "-" or not word.startswith("-"):
            others.append(word)
        elif not word.startswith("--"):
            raise Wrong(2,
                        f"{shown(word)} isn't an option: an option is written whole, as --workers 4")
        elif "=" in word:
            name, _, value = word[2:].partition("=")
            given.append((name, value))
        else:
            given.append((word[2:], next(rest, None)))
    return given, others + words[end + 1:]


def number(name: str, value: Optional[str], least: int, most: int) -> int:
    """The number that an option has."""
    told = f"--{name} takes a whole number from {least} to {most}"
    if value is None:
        raise Wrong(2, f"{told}, and none stands behind it")
    if not NUMBER.match(value):
        raise Wrong(2, f"{told}, and {shown(value) or 'nothing'} isn't one{bytes_text(value)}")
    if not least <= value_of(value) <= most:
        raise Wrong(2, f"{told}, and not {shown(value)}")
    return value_of(value)


def options(command: str, given: list[tuple[str, Optional[str]]]) -> dict[str, int]:
    """The numbers of the options of a command, by their names."""
    found = {}
    own = list(options_of(command))
    for name, value in given:
        if name not in OPTIONS:
            raise Wrong(2, f"there is no option --{shown(name)}{near(name, own)}")
        if name not in own:
            raise Wrong(2,
                        f"{command} has no option --{name}; it has {', '.join(f'--{it}' for it in own)}")
        if name in found:
            raise Wrong(2, f"--{name} stands twice")
        found[name] = number(name, value, OPTIONS[name].least, OPTIONS[name].most)
    for name in REQUIRED.get(command, ()):
        if name not in found:
            raise Wrong(2, f"{command} wants --{name}")
    return found


def read(folder: str, command: Optional[str] = None, *words: str) -> tuple[dict[str, int], list[str]]:
    """The options and the other words of a call, or what is wrong with it."""
    if not all(map(is_text, filter(None, (folder, command, *words)))):
        raise Wrong(1 if command is None or not is_text(command) else 2, "a word isn't UTF-8")
    if command not in COMMANDS:
        if folder in COMMANDS:
            raise Wrong(1, f"the folder comes first: cubed DIR {folder}")
        told = "no command is given" if command is None else f"{shown(command) or 'an empty word'} isn't a command"
        raise Wrong(1,
                    f"{told}{near(command or '', [*COMMANDS, *OTHERS])}; the commands are {', '.join([*COMMANDS, *OTHERS])}")
    given, others = parts(list(words))
    found = options(command, given)
    wanted = POSITIONAL.get(command)
    if len(others) != (wanted is not None):
        extra = others[1:] if wanted else others
        raise Wrong(2, f"{command} takes no word {shown(extra[0])!r} here" if extra
                    else f"{command} wants {wanted}")
    if command == "demo":
        number_of_demo(others[0])
    if command == "print" and not NAME.match(others[0]):
        raise Wrong(3,
                    f"{shown(others[0])!r} isn't a name: 1 to 32 letters, digits, _, - and ., the first a letter or a digit")
    return found, others


def number_of_demo(word: str) -> None:
    if not NUMBER.match(word) or not 1 <= value_of(word) <= 2048:
        raise Wrong(2, f"demo wants {POSITIONAL['demo']}, and not {shown(word)!r}")


def without_progress(words: list[str]) -> list[str]:
    """The words without the script's own option."""
    end = words.index("--") if "--" in words else len(words)
    kept, rest = [], iter(words[:end])
    for word in rest:
        if word == "--progress":
            next(rest, None)
        elif not word.startswith("--progress="):
            kept.append(word)
            if word.startswith("--") and "=" not in word:
                kept += [value for value in [next(rest, None)] if value is not None]
    return kept + words[end:]


def told_of(words: list[str]) -> Optional[Wrong]:
    """The code and what is wrong with the words of a call, or nothing."""
    try:
        read(*words[:1] or [""], *words[1:])
    except Wrong as wrong:
        return wrong
    return None


def main(words: list[str]) -> int:
    wrong = told_of(words)
    if wrong:
        print(f"error 2 code={wrong.code}\ncubed: {wrong.told}", file=sys.stderr)
        return 2
    return 0


if __name__ == "__main__":
    usage_if_asked(__doc__)
    sys.exit(main(sys.argv[1:]))
