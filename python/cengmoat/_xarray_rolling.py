"""Running sums of xarray's arrays over lazy ones: `x.cengmoat.rolling(time=7).sum()`."""
from __future__ import annotations

from typing import Any, Callable, Mapping, Optional

import xarray

from . import _rolling as rolling
from ._array import Array
from ._dtypes import as_int


class Rolling:
    """A window that runs along one axis: each place with those before it.

    A result has the length of the array, and type int64; uint64 where the array has it. Where fewer than `min_periods` places are there,
    which xarray would show as NaN, it has `fill_value`.
    """

    def __init__(self, array: Any, windows: Mapping[Any, int], min_periods: Optional[int], fill_value: int) -> None:
        if len(windows) != 1:
            raise ValueError(f"rolling: one axis with the places of its window is wanted, as in rolling(time=7), and not {dict(windows)}")
        [(self.dim, window)] = windows.items()
        if self.dim not in array.dims:
            raise ValueError(f"rolling: {self.dim!r} isn't an axis of the array, which has {', '.join(map(str, array.dims))}")
        self.array, self.axis = array, array.get_axis_num(self.dim)
        self.window = as_int(window, "rolling: a window")
        self.least = self.window if min_periods is None else as_int(min_periods, "min_periods")
        self.fill_value = as_int(fill_value, "fill_value")
        rolling.check_window(self.window, self.least)

    def _made(self, function: Callable[..., Array], *more: Any) -> Any:
        found = function(self.array.data, self.axis, self.window, self.least, self.fill_value, *more)
        return xarray.DataArray(found, coords=self.array.coords, dims=self.array.dims, name=self.array.name)

    def sum(self) -> Any:
        """Return the sums."""
        return self._made(rolling.rolling_sum)

    def mean(self, scale: int = 1) -> Any:
        """Return the sums times `scale` by the count of their places, rounded down."""
        return self._made(rolling.rolling_mean, as_int(scale, "scale"))

    def max(self) -> Any:
        """Return the greatest of each window."""
        return self._made(lambda *args: rolling.rolling_extreme("maximum", *args))

    def min(self) -> Any:
        """Return the least of each window."""
        return self._made(lambda *args: rolling.rolling_extreme("minimum", *args))


def rolled(array: Any, dim: Optional[Mapping[Any, int]], min_periods: Optional[int], center: bool, fill_value: int,
           windows: Mapping[str, int]) -> Rolling:
    """Return the window that a call of `rolling` says."""
    if center:
        raise NotImplementedError("rolling: a window ends at its place. Nothing was computed. Write .shift(time=-(n // 2), fill_value=0) behind it,"
                                  " which moves its results to the middle")
    return Rolling(array, {**(dim or {}), **windows}, min_periods, fill_value)
