"""Methods of NumPy's arrays that lazy arrays haven't: each says at the call what to write in its place, and computes nothing."""
from __future__ import annotations

from typing import Any, Callable, NoReturn, Optional

from ._lines import LINES, line_of_caller

_FLOATS = "the program has integers of 8 to 64 bits and truth values, and no floats"
_VALUES = "the shape would depend on values"
_ORDER = "a result would need all chunks along the axis at once"

# Why a function isn't there, and what to write; {call} is the function with the array computed first.
WAYS = {
    "mean": (_FLOATS, "x.sum(axis) // n is the mean rounded down; {call} is exact over what fits in memory"),
    "average": (_FLOATS, "(x * weights).sum(axis) // weights.sum() is rounded down; {call}"),
    "std": (_FLOATS, "x.to_dask().std(axis); {call}; or the sums of x and of x * x, of which NumPy makes it"),
    "var": (_FLOATS, "x.to_dask().var(axis); {call}; or the sums of x and of x * x, of which NumPy makes it"),
    "median": (_ORDER, "{call}"),
    "percentile": (_ORDER, "{call}"),
    "quantile": (_ORDER, "{call}"),
    "sort": (_ORDER, "{call}"),
    "argsort": (_ORDER, "{call}"),
    "cumsum": ("the program has no sum up to each place", "{call}"),
    "cumprod": ("the program has no product up to each place", "{call}"),
    "repeat": ("the program has no repeat", "xp.broadcast_to(x[..., None], ..) and reshape repeat along a new last axis; {call}"),
    "nonzero": (_VALUES, "{call}; (x != 0).sum() counts"),
    "compress": (_VALUES, "xp.where(condition, x, 0) keeps the shape; {call}"),
    "unique": (_VALUES, "{call}"),
    "searchsorted": ("the program has no searchsorted", "{call}"),
    "diagonal": ("the program has no diagonal", "(x * xp.eye(n, dtype=x.dtype)).sum(axis=1) is that of a square matrix; {call}"),
    "trace": ("the program has no trace", "(x * xp.eye(n, dtype=x.dtype)).sum() is that of a square matrix; {call}"),
    "ptp": ("the program has no ptp", "x.max(axis) - x.min(axis)"),
}
# Those of them that are methods of NumPy's arrays, or of what users of xarray and pandas look for.
METHODS = ("mean", "std", "var", "median", "quantile", "sort", "argsort", "cumprod", "repeat", "nonzero", "compress",
           "searchsorted", "diagonal", "trace", "ptp")


def refuse(name: str, is_method: bool = False) -> NoReturn:
    """Refuse a function of NumPy by NotImplementedError, with what to write in its place."""
    why, instead = WAYS.get(name, ("", "{call}"))
    call = f"x.compute().{name}(..)" if is_method and name not in ("median", "quantile") else f"numpy.{name}(x.compute(), ..)"
    head = f"there is no lazy {name}" + (f", since {why}" if why.startswith(("a result", "the shape", _FLOATS)) else f": {why}" if why else "")
    raise NotImplementedError(f"{head}. Nothing was computed. Write {line_of_caller() or instead.format(call=call)}")


def _method(name: str) -> Callable[..., NoReturn]:
    def refused(self: object, *args: Any, **kwargs: Any) -> NoReturn:
        refuse(name, True)

    refused.__name__ = refused.__qualname__ = name
    refused.__doc__ = f"Refuse, by NotImplementedError, with what to write in place of {name}."
    return refused


def function(name: str) -> Optional[Callable[..., NoReturn]]:
    """Return the function of NumPy that is refused under a name, or None where there is none."""
    if name not in WAYS:
        return None

    def refused(*args: Any, **kwargs: Any) -> NoReturn:
        refuse(name)

    return refused


class Points:
    """Refuses each index, by NotImplementedError."""

    def __getitem__(self, key: Any) -> NoReturn:
        raise NotImplementedError("the program has no indexing by points. Nothing was computed. Write them one by one, as in"
                                  " xarray.concat([x.isel(time=i, place=j) for i, j in points], \"point\"), or xp.stack([x[i, j] for i, j in points])")


class Refused:
    """The methods that are refused."""

    __slots__ = ()

    @property
    def vindex(self) -> Points:
        """What refuses places that go together as points, which xarray asks for here."""
        return Points()

    def map_blocks(self, *args: Any, **options: Any) -> NoReturn:
        """Refuse, by NotImplementedError, a function of the chunks, since it would run outside of the program."""
        line = line_of_caller() or LINES["parallel", "map_blocks"]
        raise NotImplementedError(f"there is no map_blocks of lazy arrays. Nothing was computed. Write {line}")

    def __setitem__(self, key: Any, value: Any) -> NoReturn:
        raise TypeError("a lazy array isn't changed, and nothing was computed. Write x.where(cond, fill) of xarray, or xp.where(cond, x, fill):"
                        " that is an array with other elements where cond doesn't hold")

    mean, std, var, median, quantile, sort, argsort, cumprod = (_method(name) for name in METHODS[:8])
    repeat, nonzero, compress, searchsorted, diagonal, trace, ptp = (_method(name) for name in METHODS[8:])
