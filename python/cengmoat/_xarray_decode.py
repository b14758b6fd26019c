"""Packed numbers of a lazy array as floats: by xarray, over an array of Dask."""
from __future__ import annotations

from typing import Any

import xarray


def decoded(array: Any) -> Any:
    """Return a DataArray of floats over an array of Dask, scaled and masked by the attributes that say how the numbers are packed."""
    # (xarray drops attributes in a reduction, and a lazy array keeps those that are still true)
    attributes = {**array.data.attrs, **array.attrs}
    make: Any = xarray.Variable
    variable = make(array.dims, array.data.to_dask(), attributes)
    dataset = xarray.Dataset({"values": variable})
    found = xarray.decode_cf(dataset, mask_and_scale=True, decode_times=False, decode_coords=False, concat_characters=False)["values"]
    if found.dtype.kind != "f":
        found = found.astype("float64")
    return xarray.DataArray(found.variable, coords=array.coords, name=array.name)
