"""Work of xarray's arrays over lazy ones: `import cengmoat.xarray` gives them the accessor `x.cengmoat`.

`groupby`, `resample` and `rolling` give what xarray's own give, by functions that fold all groups in one pass; `decode` gives floats.
"""
from __future__ import annotations

from typing import Any, Mapping, Optional, Union

import xarray

from ._array import Array
from ._xarray_decode import decoded
from ._xarray_groups import Bins, Groups, grouped, resampled
from ._xarray_open import open_dataset
from ._xarray_rolling import Rolling, rolled
from ._xarray_write import DatasetAccessor, Path, write_array_of

__all__ = ["Accessor", "Bins", "DatasetAccessor", "Groups", "Rolling", "open_dataset"]

_register: Any = xarray.register_dataarray_accessor


@_register("cengmoat")
class Accessor:
    """What lazy arrays add to those of xarray."""

    def __init__(self, array: Any) -> None:
        self.array = array

    def _lazy(self, call: str, instead: str) -> Any:
        """Return the array, or refuse one that isn't lazy, with a TypeError."""
        if not isinstance(self.array.variable._data, Array):
            raise TypeError(f"x.cengmoat.{call} is of lazy arrays: {instead}")
        return self.array

    def groupby(self, group: Union[str, Any]) -> Groups:
        """Return the groups by a coordinate, as "time.month", or by an array of labels along one axis.

        Raises
        ------
        TypeError
            Where the array isn't lazy.
        ValueError
            Where the labels haven't exactly one axis, one of the array.
        """
        return grouped(self._lazy("groupby", "x.groupby is xarray's own"), group)

    def resample(self, indexer: Optional[Mapping[Any, str]] = None, *, closed: Optional[str] = None, label: Optional[str] = None,
                 origin: Any = "start_day", offset: Any = None, **rules: str) -> Bins:
        """Return the bins of time along an axis by a rule of pandas, as resample(time="5D"). The other parameters are those of pandas.

        Raises
        ------
        TypeError
            Where the array isn't lazy, or the axis has no times.
        ValueError
            Where there isn't one axis, its times aren't in order, or pandas doesn't know the rule.
        """
        array = self._lazy("resample", "x.resample is xarray's own")
        return resampled(array, {**(indexer or {}), **rules}, {"closed": closed, "label": label, "origin": origin, "offset": offset})

    def rolling(self, dim: Optional[Mapping[Any, int]] = None, min_periods: Optional[int] = None, center: bool = False, *,
                fill_value: int = 0, **windows: int) -> Rolling:
        """Return a window that runs along an axis, as rolling(time=7): of each place and those before it.

        Parameters
        ----------
        dim : mapping, optional
            The axis with the places of its window, from 1 to 64; or as a keyword.
        min_periods : int, optional
            How many places must be there; else all of the window.
        center : bool
            False: a window ends at its place.
        fill_value : int
            What a result has where fewer are there.

        Raises
        ------
        TypeError, ValueError
            Where the array isn't lazy, or a number isn't in its range.
        """
        return rolled(self._lazy("rolling", "x.rolling is xarray's own"), dim, min_periods, center, fill_value, windows)

    def decode(self) -> Any:
        """Return the numbers as floats, scaled and masked by their attributes: an array of xarray over one of Dask, in the same chunks.

        Raises
        ------
        TypeError
            Where the array isn't lazy.
        ImportError
            Where Dask isn't installed.
        """
        return decoded(self._lazy("decode", "xarray.decode_cf decodes others"))

    def is_missing(self) -> Any:
        """Return whether each element stands for nothing; see `Array.is_missing`."""
        return xarray.DataArray(self.array.data.is_missing(), self.array.coords, self.array.dims, self.array.name, {})

    def fill_missing(self, value: int) -> Any:
        """Return the array with a number in place of what is missing; see `Array.fill_missing`."""
        return self.array.copy(data=self.array.data.fill_missing(value))

    def to_zarr(self, path: Path, name: Optional[str] = None, *, zarr_format: Optional[int] = None, progress: Optional[bool] = None) -> None:
        """Compute the array by one run and write it to a folder with its coordinates, so that `xarray.open_zarr(path)` opens it.

        As `DatasetAccessor.to_zarr`, of one array; `name` is the array's, else the one that it has.
        """
        write_array_of(self.array, path, name, zarr_format, progress)
