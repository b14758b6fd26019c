"""The protocol of Dask's collections, by which xarray's `compute`, `load` and `persist`, and `dask.compute`, ask for an array's elements.

The graph of a lazy array has one task: its own `compute`. Nothing of Dask is needed, unless it is Dask that asks.
"""
from __future__ import annotations

import hashlib
import sys
from typing import Any, Mapping, Optional, Sequence

from ._dtypes import NDArray
from ._lines import with_line
from ._nodes import Graph, Node

# xarray hands collections that it writes to dask.array.store, which takes Dask's own arrays alone; other arrays it writes by parts.
_WRITER = ("xarray.backends.common", "add")
# xarray's map_blocks asks for the keys of all chunks, and there is one key.
_BLOCKS = "parallel"
# How many calls lie between it and this module.
_DEPTH = 6


def _is_written() -> bool:
    """Return whether it is xarray's writer that asks."""
    frame: Any = sys._getframe(1)
    for _ in range(_DEPTH):
        frame = frame.f_back
        if frame is None:
            return False
        if (frame.f_globals.get("__name__"), frame.f_code.co_name) == _WRITER:
            return True
    return False


def token_of(node: Node) -> str:
    """Return a text that is the same for the same expression over the same folder."""
    graph = Graph(node)
    digest = hashlib.sha256(repr((graph.text("x"), [it.folder for it in graph.nodes])).encode())
    for it in graph.nodes:
        if it.data is not None:
            digest.update(it.data.tobytes())
    return digest.hexdigest()[:32]


def _first(results: Sequence[NDArray]) -> NDArray:
    return results[0]


def _kept(graph: Mapping[str, NDArray], key: str, rename: Optional[Mapping[str, str]] = None) -> NDArray:
    return graph[(rename or {}).get(key, key)]


class Collection:
    """A collection of Dask with one key. Where its elements are kept, they are an array of NumPy."""

    __slots__ = ()
    node: Node

    def __dask_tokenize__(self) -> str:
        return token_of(self.node)

    def __dask_keys__(self) -> list[str]:
        above: Any = sys._getframe(1).f_back
        module = "" if above is None else str(above.f_globals.get("__name__"))
        if module.startswith("xarray.") and module.endswith(f".{_BLOCKS}"):
            raise NotImplementedError(with_line("there is no map_blocks of lazy arrays"))
        return [f"cengmoat-{token_of(self.node)}"]

    def __dask_graph__(self) -> Optional[dict[str, Any]]:
        return None if _is_written() else {self.__dask_keys__()[0]: (type(self).compute, self)}  # type: ignore[attr-defined]

    @staticmethod
    def __dask_optimize__(graph: Any, keys: Any, **options: Any) -> Any:
        return graph

    @staticmethod
    def __dask_scheduler__(graph: Any, keys: Any, **options: Any) -> Any:
        from dask.local import get_sync
        return get_sync(graph, keys)

    def __dask_postcompute__(self) -> tuple[Any, tuple[()]]:
        return _first, ()

    def __dask_postpersist__(self) -> tuple[Any, tuple[str]]:
        return _kept, (self.__dask_keys__()[0],)
