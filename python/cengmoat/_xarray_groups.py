"""Groups of xarray's arrays over lazy ones, by labels: `x.cengmoat.groupby("time.month").sum()`, `x.cengmoat.resample(time="5D").max()`.

Labels are numbered in memory, and one function of the program folds all groups in one pass, so that the nodes of an expression don't grow
with the count of groups.
"""
from __future__ import annotations

from typing import Any, Callable, Mapping, NoReturn, Optional, Union

import numpy as np
import xarray

from . import _groups as groups, array_api as xp
from ._array import Array
from ._dtypes import NDArray, as_int
from ._lines import ANOMALY


class Groups:
    """The groups of an array along one axis.

    Parameters
    ----------
    array : xarray.DataArray
        Of a lazy array.
    labels : xarray.DataArray
        A label of any kind for each place of the axis.
    name : str
        The name of the axis of groups in a result.
    """

    def __init__(self, array: Any, labels: Any, name: str) -> None:
        self.array, self.name = array, name
        [self.dim] = labels.dims
        # (what isn't a number, as NaN, is in no group)
        known = ~np.asarray(labels.isnull())
        self.values: Any
        self.values, numbers = np.unique(np.asarray(labels)[known], return_inverse=True)
        self.numbers = np.full(len(labels), -1, "int64")
        self.numbers[known] = numbers

    @property
    def counts(self) -> NDArray:
        """How many places of the axis are in each group."""
        return np.bincount(self.numbers[self.numbers >= 0], minlength=max(1, len(self.values)))

    def _along(self, values: NDArray) -> NDArray:
        """Return one value for each group along the axis, of size 1 along the others."""
        at = self.array.get_axis_num(self.dim)
        return values.reshape(tuple(-1 if axis == at else 1 for axis in range(self.array.ndim)))

    def _fold(self, function: Callable[[Any, Any, int, int], Array], data: Array, numbers: Optional[NDArray] = None) -> Array:
        at = self.array.get_axis_num(self.dim)
        return function(data, self.numbers if numbers is None else numbers, at, max(1, len(self.values)))

    def _made(self, found: Array) -> Any:
        """Return a result with the axis of groups in the place of the axis."""
        dims = tuple(self.name if dim == self.dim else dim for dim in self.array.dims)
        coords = {name: its for name, its in self.array.coords.items() if self.dim not in its.dims}
        return xarray.DataArray(found, dims=dims, coords={**coords, self.name: self.values}, name=self.array.name)

    def _filled(self, found: Array, fill_value: int) -> Array:
        """Return a fold with one value for each group that has no element; there is such a group in bins of time alone."""
        has_some = self.counts > 0
        return found if has_some.all() else xp.where(xp.asarray(self._along(has_some)), found, fill_value)

    @property
    def _numbers(self) -> Array:
        """The array's elements; truth values as 0 and 1."""
        data: Array = self.array.data
        return data.astype("int8") if data.dtype.kind == "b" else data

    @property
    def _truths(self) -> Array:
        """Whether each element isn't 0, as 0 and 1."""
        data: Array = self.array.data
        return (data if data.dtype.kind == "b" else data != 0).astype("int8")

    def sum(self) -> Any:
        """Return the sum of each group, int64 or uint64."""
        return self._made(self._fold(groups.groupby_sum, self._numbers))

    def min(self, fill_value: int = 0) -> Any:
        """Return the least of each group, and `fill_value` of one without elements."""
        return self._made(self._filled(self._fold(groups.groupby_min, self.array.data), fill_value))

    def max(self, fill_value: int = 0) -> Any:
        """Return the greatest of each group, and `fill_value` of one without elements."""
        return self._made(self._filled(self._fold(groups.groupby_max, self.array.data), fill_value))

    def count(self) -> Any:
        """Return how many elements each group has."""
        return self._made(self._fold(groups.groupby_count, self.array.data))

    def mean(self, scale: int = 1, fill_value: int = 0) -> Any:
        """Return the sum of each group times `scale` by its count, rounded down: `mean(scale=10)` is in tenths. As `max`."""
        by = as_int(scale, "scale")
        sums = self._fold(groups.groupby_sum, self._numbers)
        counts = self._along(np.maximum(self.counts, 1).astype(sums.dtype))
        return self._made(self._filled((sums if by == 1 else sums * by) // counts, fill_value))

    def any(self) -> Any:
        """Return whether an element of each group isn't 0; of none it is false."""
        return self._made(self._fold(groups.groupby_max, self._truths) > 0)

    def all(self) -> Any:
        """Return whether no element of each group is 0; of none it is true."""
        return self._made(self._fold(groups.groupby_min, self._truths) != 0)

    def first(self, fill_value: int = 0) -> Any:
        """Return the first element of each group along the axis. As `max`."""
        firsts = np.full(len(self.numbers), -1, "int64")
        numbers, places = np.unique(self.numbers, return_index=True)
        firsts[places[numbers >= 0]] = numbers[numbers >= 0]
        found = self._fold(groups.groupby_min, self._numbers, firsts)
        if self.array.dtype.kind == "b":
            found = (found != 0) & xp.asarray(self._along(self.counts > 0))
            return self._made(found)
        return self._made(self._filled(found, fill_value))

    def _refused(self, other: Any) -> NoReturn:
        raise NotImplementedError("minus and plus of groups take elements by labels, which the program hasn't. Nothing was computed."
                                  f" Write {ANOMALY} over clim = x.cengmoat.groupby(\"time.month\").mean()")

    __add__ = __radd__ = __sub__ = __rsub__ = _refused


class Bins(Groups):
    """The bins of time of an array, in their order, also those without an element."""

    def __init__(self, array: Any, dim: Any, values: Any, counts: NDArray) -> None:
        self.array, self.dim, self.name, self.values = array, dim, dim, values
        self.numbers = np.repeat(np.arange(len(counts), dtype="int64"), counts)


def grouped(array: Any, group: Union[str, Any]) -> Groups:
    """Return the groups by a coordinate, or by labels along one axis."""
    labels = array[group] if isinstance(group, str) else group
    if not isinstance(labels, xarray.DataArray) or labels.ndim != 1 or labels.dims[0] not in array.dims:
        raise ValueError("groupby: labels are an array of xarray along one axis of the array, or the name of one")
    name = group.rpartition(".")[2] if isinstance(group, str) else str(labels.name or "group")
    return Groups(array, labels, name)


def resampled(array: Any, rules: Mapping[Any, str], options: Mapping[str, Any]) -> Bins:
    """Return the bins of time that pandas makes by a rule."""
    import pandas
    if len(rules) != 1:
        raise ValueError(f"resample: one axis with its rule is wanted, as in resample(time=\"5D\"), and not {dict(rules)}")
    [(dim, rule)] = rules.items()
    index = array.indexes.get(dim)
    if not isinstance(index, pandas.DatetimeIndex):
        raise TypeError(f"resample: {dim!r} has no times of NumPy: x.cengmoat.groupby(labels) takes labels of any kind")
    if not index.is_monotonic_increasing or not len(index):
        raise ValueError(f"resample: the times of {dim!r} are wanted in order, and one at least: x.cengmoat.groupby takes them in any")
    said = {name: value for name, value in options.items() if value is not None}
    counts = pandas.Series(1, index=index).resample(rule, **said).sum()
    return Bins(array, dim, counts.index, counts.to_numpy("int64"))
