"""What a script says: a text of a file as it may be printed, and the failure with which it ends."""
from __future__ import annotations

import sys


class Failed(Exception):
    """Something can't be read, written or done, and why."""


def shown(value: object, most: int = 80) -> str:
    """A text of a file as it may be printed: on one line, of characters that a terminal shows."""
    text = str(value)
    text = text if len(text) <= most else f"{text[:most]}.."
    return "".join(letter if letter.isprintable() else ascii(letter)[1:-1] for letter in text)


def usage_if_asked(text: str | None, most: int | None = None) -> None:
    """Prints what a script is for and ends, where one of its first words asks for that: it isn't taken
    for a file's name then. Behind `--` none asks.
    """
    words = sys.argv[1:][:most]
    if any(word in ("-h", "--help") for word in words[:words.index("--") if "--" in words else None]):
        print((text or "").strip())
        sys.exit(0)
