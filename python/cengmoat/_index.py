"""What an index in brackets means: integers, slices, new axes and an ellipsis."""
from __future__ import annotations

import operator
from dataclasses import dataclass
from typing import Any, Optional

import numpy as np

from ._ranges import plain_key
from ._shapes import Shape

MOST = 2**63 - 1


@dataclass(frozen=True)
class Taken:
    """What an entry takes of an axis: `count` elements from `start` on, `step` apart; one alone where it is an integer."""

    start: int
    step: int
    count: int
    is_one: bool = False
    is_whole: bool = False


@dataclass(frozen=True)
class Index:
    """An index of an array, entry by entry.

    Attributes
    ----------
    entries : tuple
        The entries as they were written, each a Taken with its text for the program, or None for a new axis.
    """

    entries: tuple[Optional[Taken], ...]
    written: tuple[Any, ...]

    @property
    def is_whole(self) -> bool:
        """Whether the index takes all elements as they are."""
        return all(entry is not None and entry.is_whole for entry in self.entries)

    @property
    def axes(self) -> tuple[Taken, ...]:
        """What is taken of each axis."""
        return tuple(entry for entry in self.entries if entry is not None)

    @property
    def shape(self) -> Shape:
        """The shape of the result."""
        return tuple(1 if entry is None else entry.count for entry in self.entries if entry is None or not entry.is_one)

    def chunks(self, chunks: Shape) -> Shape:
        """Return the chunk shape of the result of an array in these chunks."""
        found, at = [], 0
        for entry in self.entries:
            if entry is None:
                found.append(1)
                continue
            if not entry.is_one:
                found.append(min(chunks[at], max(1, entry.count)))
            at += 1
        return tuple(found)


def _end(value: Any, what: str) -> Optional[int]:
    """Return an end or a step of a slice, cut to what can be written."""
    if value is None:
        return None
    try:
        return max(-MOST - 1, min(MOST, operator.index(value)))
    except TypeError:
        raise TypeError(f"{what} of a slice is an integer or None, and not {value!r}") from None


def _slice(entry: slice, size: int) -> tuple[Taken, dict[str, int]]:
    start, stop, step = (_end(getattr(entry, name), name) for name in ("start", "stop", "step"))
    if step == 0:
        raise ValueError("the step of a slice isn't 0")
    first, last, by = slice(start, stop, step).indices(size)
    count = len(range(first, last, by))
    written = {name: value for name, value in (("start", start), ("stop", stop), ("step", step)) if value is not None}
    return Taken(first, by, count, is_whole=count == size and by == 1), written


def _integer(at: int, size: int, axis: int) -> Taken:
    if not -size <= at < size:
        raise IndexError(f"index {at} is out of axis {axis}, which has {size} elements")
    return Taken(at % size, 1, 1, is_one=True)


def _read_entry(entry: Any) -> tuple[str, Any]:
    """Return what an entry is, and of an integer its value, or refuse it."""
    if entry is None:
        return "new", None
    if entry is Ellipsis:
        return "...", None
    if isinstance(entry, slice):
        return "slice", entry
    if isinstance(entry, (bool, np.bool_)) or (hasattr(entry, "dtype") and getattr(entry, "dtype") == bool):
        raise NotImplementedError("the program has no indexing by truth values, since the shape would depend on them: see where")
    try:
        return "integer", operator.index(entry)
    except TypeError:
        raise IndexError(f"{entry!r} is no index: an index has integers, slices, None and ...") from None


def read_index(key: Any, shape: Shape) -> Index:
    """Return the index that a key in brackets says of an array of a shape.

    Raises
    ------
    IndexError
        Where there are too many entries or two ellipses, an integer is out of its axis, or an entry is of another kind.
    ValueError
        Where the step of a slice is 0.
    NotImplementedError
        For arrays of integers or of truth values, but where they take what a slice takes.
    """
    keys = [_read_entry(entry) for entry in plain_key(key, shape)]
    kinds = [kind for kind, _ in keys]
    if kinds.count("...") > 1:
        raise IndexError("an index has one ellipsis at most")
    taken = len(kinds) - kinds.count("new") - kinds.count("...")
    if taken > len(shape):
        raise IndexError(f"{taken} entries for {len(shape)} axes are too many")
    if "..." not in kinds:
        keys.append(("...", None))
    entries: list[Optional[Taken]] = []
    written: list[Any] = []
    axis = 0
    for kind, value in keys:
        if kind == "new":
            entries.append(None)
            written.append("new")
        elif kind == "...":
            for _ in range(len(shape) - taken):
                entries.append(Taken(0, 1, shape[axis], is_whole=True))
                axis += 1
            written.append("...")
        elif kind == "slice":
            found, text = _slice(value, shape[axis])
            entries.append(found)
            written.append(text)
            axis += 1
        else:
            entries.append(_integer(value, shape[axis], axis))
            written.append(value)
            axis += 1
    return Index(tuple(entries), tuple(written))
