"""Sums, means, greatest and least over a window that runs along an axis, as slices of prefix sums and as maxima of slices."""
from __future__ import annotations

from typing import Callable

from ._array import Array
from ._dtypes import UINT64
from ._extremes import plain_extreme

MOST_PLACES = 64


def check_window(window: int, least: int) -> None:
    """Refuse a window that isn't from 1 to 64 places, or a least count that isn't from 1 to it, with a ValueError."""
    if not 1 <= window <= MOST_PLACES:
        raise ValueError(f"rolling: a window has from 1 to {MOST_PLACES} places, and not {window}: x.cumsum(axis) gives the sums of longer ones,"
                         " as in c[n:] - c[:-n]")
    if not 1 <= least <= window:
        raise ValueError(f"rolling: min_periods is from 1 to the {window} places of the window, and not {least}")


def _wide(x: Array) -> Array:
    """Return the numbers as int64, those of uint64 as they are; truth values are counted."""
    return x if x.dtype == UINT64 else x.astype("int64")


def _cut(x: Array, axis: int, start: int, stop: int) -> Array:
    return x[(*[slice(None)] * axis, slice(start, stop))]


def _joined(parts: list[Array], axis: int) -> Array:
    from . import array_api as xp
    parts = [it for it in parts if it.shape[axis]]
    return parts[0] if len(parts) == 1 else xp.concat(parts, axis=axis)


def _filled(x: Array, axis: int, count: int, value: int) -> Array:
    """Return `count` places of one value along an axis, of the type and the other sizes of an array."""
    from . import array_api as xp
    return xp.full((*x.shape[:axis], count, *x.shape[axis + 1:]), value, dtype=x.dtype, chunks=x.chunksize)


def _along(x: Array, axis: int, start: int, stop: int) -> Array:
    """Return the numbers from start to before stop along an axis of an array, of size 1 along its other axes."""
    from . import array_api as xp
    found = xp.arange(start, stop, dtype=x.dtype)
    return found.reshape(tuple(stop - start if at == axis else 1 for at in range(x.ndim)))


def _sums(x: Array, axis: int, window: int, least: int, divided: Callable[[Array, int, int], Array], fill_value: int) -> Array:
    """Return the sums of windows, each part as `divided` gives it: it is told the places of the first window of a part, and of the last."""
    count = x.shape[axis]
    sums = _wide(x.cumsum(axis))
    empty, whole = min(least - 1, count), min(window, count)
    parts = [_filled(sums, axis, empty, fill_value)]
    if whole > empty:
        parts.append(divided(_cut(sums, axis, empty, whole), empty + 1, whole))
    if count > window:
        parts.append(divided(_cut(sums, axis, window, count) - _cut(sums, axis, 0, count - window), window, window))
    return _joined(parts, axis)


def rolling_sum(x: Array, axis: int, window: int, least: int, fill_value: int) -> Array:
    """Return the sum of each place and the `window` - 1 before it; of the first ones, of those that are there, if they are `least` or more."""
    return _sums(x, axis, window, least, lambda sums, first, last: sums, fill_value)


def rolling_mean(x: Array, axis: int, window: int, least: int, fill_value: int, scale: int = 1) -> Array:
    """Return the sums times `scale` by the count of their places, rounded down."""
    def divided(sums: Array, first: int, last: int) -> Array:
        scaled = sums if scale == 1 else sums * scale
        return scaled // (last if first == last else _along(sums, axis, first, last + 1))

    return _sums(x, axis, window, least, divided, fill_value)


def _doubled(x: Array, axis: int, window: int, extreme: Callable[[Array, Array], Array]) -> Array:
    """Return the extremes over whole windows, in steps that double: one place for each window, so fewer than the array has."""
    found, places = x, 1
    while places < window:
        by = min(places, window - places)
        count = found.shape[axis]
        found, places = extreme(_cut(found, axis, by, count), _cut(found, axis, 0, count - by)), places + by
    return found


def _up_to(x: Array, axis: int, extreme: Callable[[Array, Array], Array]) -> Array:
    """Return the extremes from the first place to each, in steps that double."""
    by, count = 1, x.shape[axis]
    while by < count:
        behind = extreme(_cut(x, axis, by, count), _cut(x, axis, 0, count - by))
        x, by = _joined([_cut(x, axis, 0, by), behind], axis), 2 * by
    return x


def rolling_extreme(op: str, x: Array, axis: int, window: int, least: int, fill_value: int) -> Array:
    """Return the greatest (`maximum`) or the least (`minimum`) of each place and the `window` - 1 before it; as `rolling_sum`."""
    def extreme(one: Array, other: Array) -> Array:
        # (stored numbers are folded, those that stand for missing values too)
        return Array(plain_extreme(op, [one.node, other.node]))

    # (the type grows behind the steps, so that these move no more bytes than there are)
    numbers = x.astype("int8") if x.dtype.kind == "b" else x
    count = x.shape[axis]
    empty, whole = min(least - 1, count), min(window - 1, count)
    parts = [_filled(_wide(numbers), axis, empty, fill_value)]
    if whole > empty:
        parts.append(_wide(_cut(_up_to(_cut(numbers, axis, 0, whole), axis, extreme), axis, empty, whole)))
    if count >= window:
        parts.append(_wide(_doubled(numbers, axis, window, extreme)))
    return _joined(parts, axis)
