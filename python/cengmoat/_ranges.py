"""Index arrays: those that take places at equal distances are slices, and others are refused with the line to write."""
from __future__ import annotations

from typing import Any, NoReturn, Optional, Sequence

import numpy as np

from ._dtypes import NDArray
from ._lines import line_of_caller
from ._shapes import Shape

# How many slices a refusal writes out.
_MOST_WRITTEN = 4


def is_index_array(entry: Any) -> bool:
    """Return whether an entry of an index is a list or an array of one axis or more."""
    return isinstance(entry, list) or bool(getattr(entry, "ndim", 0))


def as_places(entry: Any, size: int, axis: int) -> NDArray:
    """Return the places that an index array takes, counted from 0.

    Raises
    ------
    IndexError
        Where it has neither integers nor truth values, a place isn't one of the axis, or there isn't one truth value for each place.
    NotImplementedError
        Where it is lazy, or an array of truth values of several axes.
    """
    if hasattr(entry, "node") and hasattr(entry, "dtype"):
        kind = "truth values, since the shape would depend on them: see where" if entry.dtype == bool else "lazy arrays: x[places.compute()]"
        raise NotImplementedError(f"the program has no indexing by {kind}")
    try:
        values = np.asarray(entry)
    except ValueError as error:
        raise IndexError(f"an index array isn't read: {error}") from None
    if values.dtype.kind == "b":
        if values.ndim != 1:
            raise NotImplementedError("the program has no indexing by truth values, since the shape would depend on them: see where")
        if len(values) != size:
            raise IndexError(f"{len(values)} truth values for axis {axis}, which has {size} elements")
        return np.flatnonzero(values)
    if values.size == 0:
        return values.astype("int64")
    if values.dtype.kind not in "iu":
        raise IndexError(f"an index array has integers or truth values, and not {values.dtype}")
    least, most = int(values.min()), int(values.max())
    if least < -size or most >= size:
        raise IndexError(f"index {least if least < -size else most} is out of axis {axis}, which has {size} elements")
    places = values.astype("int64")
    return np.where(places < 0, places + size, places)


def as_slice(places: NDArray) -> Optional[slice]:
    """Return the slice that takes these places in their order, or None where there is none."""
    flat = places.ravel()
    if flat.size == 0:
        return slice(0, 0)
    first = int(flat[0])
    if flat.size == 1:
        return slice(first, first + 1)
    step = int(flat[1]) - first
    if step == 0 or not np.array_equal(flat, first + step * np.arange(flat.size)):
        return None
    last = int(flat[-1])
    stop = last + (1 if step > 0 else -1)
    return slice(first, None if stop < 0 else stop, step)


def written_slices(places: NDArray) -> str:
    """Return slices that together take these places, as they are written in Python; of many the first ones."""
    parts: list[str] = []
    at, flat = 0, places.ravel()
    while at < flat.size and len(parts) < _MOST_WRITTEN:
        count = 1
        while at + count < flat.size and flat[at + count] == flat[at] + count:
            count += 1
        parts.append(f"x[{flat[at]}:{flat[at] + count}]")
        at += count
    return ", ".join(parts) + (", .." if at < flat.size else "")


def refuse_places(places: Optional[NDArray] = None) -> NoReturn:
    """Refuse an index array that is no slice, by NotImplementedError, with the line to write."""
    line = line_of_caller() or (f"xp.concat([{written_slices(places)}]) along that axis" if places is not None and places.ndim == 1 else
                                "x[np.ix_(..)] with ranges, or points one by one, as in xp.stack([x[0, 1], x[2, 0]])")
    raise NotImplementedError("the program has no indexing by arrays of integers, but where they are at equal distances, as a slice."
                              f" Nothing was computed. Write {line}")


def _axes(entries: Sequence[Any], ndim: int) -> list[int]:
    """Return the axis of each entry; those behind an ellipsis are counted from the last."""
    found, at = [], 0
    rest = sum(entry is not None and entry is not Ellipsis for entry in entries)
    for entry in entries:
        found.append(at)
        if entry is Ellipsis:
            at += ndim - rest
        elif entry is not None:
            at += 1
    return found


def plain_key(key: Any, shape: Shape) -> tuple[Any, ...]:
    """Return a key in brackets with slices in place of the index arrays, with which it means the same to NumPy.

    Raises
    ------
    IndexError, NotImplementedError
        As of `as_places`; also for arrays that are no slices, and for points.
    """
    entries = key if isinstance(key, tuple) else (key,)
    arrays = [at for at, entry in enumerate(entries) if is_index_array(entry)]
    if not arrays:
        return entries
    axes = _axes(entries, len(shape))
    if any(axes[at] >= len(shape) for at in arrays):
        raise IndexError(f"{len(entries)} entries for {len(shape)} axes are too many")
    found = {at: as_places(entries[at], shape[axes[at]], axes[at]) for at in arrays}
    # (beside an array an integer is one too, and their axes lie together only where nothing lies between them)
    joint = [at for at, entry in enumerate(entries) if at in found or not (entry is None or entry is Ellipsis or isinstance(entry, slice))]
    if joint[-1] - joint[0] + 1 != len(joint):
        refuse_places()
    if len(arrays) == 1 and found[arrays[0]].ndim == 1:
        part = as_slice(found[arrays[0]])
        if part is None:
            refuse_places(found[arrays[0]])
        return (*entries[:arrays[0]], part, *entries[arrays[0] + 1:])
    return (*entries[:joint[0]], *_mesh([found.get(at, entries[at]) for at in joint]), *entries[joint[-1] + 1:])


def _mesh(parts: Sequence[Any]) -> list[Any]:
    """Return slices and integers in place of arrays each of which goes along an axis of its own, as those of numpy.ix_ do."""
    ndim = max(getattr(part, "ndim", 0) for part in parts)
    found: list[Any] = []
    axis = 0
    for part in parts:
        sizes = (1,) * (ndim - part.ndim) + part.shape if isinstance(part, np.ndarray) else (1,) * ndim
        own = [at for at, size in enumerate(sizes) if size != 1]
        if ndim < 2 or len(own) > 1 or own and own[0] < axis:
            refuse_places()
        if not own:
            found.append(int(part.ravel()[0]) if isinstance(part, np.ndarray) else part)
            continue
        taken = as_slice(part)
        if taken is None:
            refuse_places()
        found += [*[None] * (own[0] - axis), taken]
        axis = own[0] + 1
    return found + [None] * (ndim - axis)
