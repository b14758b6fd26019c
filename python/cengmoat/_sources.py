"""In which chunks an array of another library is stored: in its own, where the program takes them."""
from __future__ import annotations

from typing import Any, Optional

from ._dtypes import DType
from ._shapes import MOST_CHUNK_BYTES, MOST_CHUNKS, ChunksLike, Shape, numblocks, product


def _side(chunk: Any) -> int:
    """Return the chunk size of an axis: Dask and xarray give the sizes of all chunks, of which the greatest counts."""
    return max((int(it) for it in chunk), default=1) if isinstance(chunk, (tuple, list)) else int(chunk)


def _given(data: Any) -> Any:
    found = getattr(data, "chunks", None)
    if found is None and type(data).__module__.startswith("xarray."):
        # (an array of xarray that isn't one of Dask says how the file that it is read from is cut)
        encoding = getattr(data, "encoding", {})
        found = encoding.get("chunks") or encoding.get("chunksizes")
    return found


def own_chunks(data: Any, shape: Shape, dtype: DType) -> Optional[ChunksLike]:
    """Return the chunk shape of an array of Zarr, Dask or xarray; None where it has none, or one above the program's limits."""
    found = _given(data)
    if not isinstance(found, (tuple, list)) or len(found) != len(shape):
        return None
    try:
        sides = tuple(max(1, min(_side(chunk), size)) for chunk, size in zip(found, shape))
    except (TypeError, ValueError):
        return None
    is_small = product(sides) * dtype.itemsize <= MOST_CHUNK_BYTES
    return sides if is_small and product(max(1, count) for count in numblocks(shape, sides)) <= MOST_CHUNKS else None
