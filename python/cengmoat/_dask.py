"""An array of Dask over a lazy one, for what floats alone can do. Its chunks are NumPy's arrays, so it doesn't keep this package's type."""
from __future__ import annotations

import importlib
from typing import TYPE_CHECKING, Any

import numpy as np

from ._collection import token_of
from ._dtypes import NDArray

if TYPE_CHECKING:
    from ._array import Array


class _Source:
    """What Dask takes its chunks from: of a stored array they are read, and of an expression computed."""

    def __init__(self, array: Array) -> None:
        self.array, self.dtype, self.shape, self.ndim = array, array.dtype, array.shape, array.ndim

    def __getitem__(self, key: Any) -> NDArray:
        its = self.array.node.stored_as
        if its is None:
            return self.array[key].compute(progress=False)
        from ._running import read_node
        return read_node(its, key)


def to_dask(array: Array) -> Any:
    """Return an array of Dask with the chunks of a lazy array.

    Raises
    ------
    ImportError
        Where Dask isn't installed.
    """
    try:
        dask: Any = importlib.import_module("dask.array")
    except ImportError:
        raise ImportError("to_dask gives an array of Dask, which isn't installed: x.compute() gives one of NumPy") from None
    meta = np.empty((0,) * array.ndim, array.dtype)
    return dask.from_array(_Source(array), chunks=array.chunks, name=f"cengmoat-chunks-{token_of(array.node)}", asarray=True, meta=meta)
