"""The arrays of a folder that can be read, and why the others can't."""
from __future__ import annotations

from typing import TYPE_CHECKING, Any, ItemsView, Iterator, Optional, ValuesView

from .errors import CengmoatError

if TYPE_CHECKING:
    from ._array import Array
    from ._store import Store


def readable(store: Store) -> Iterator[tuple[str, Optional[Array], str]]:
    """Go over the arrays of a folder: the name, the lazy array, and why it can't be read, which is empty where it can."""
    for name in store.names():
        try:
            yield name, store.array(name), ""
        except CengmoatError as error:
            yield name, None, str(error).partition("\n")[0]


class ReadableItems(ItemsView[str, Any]):
    """The names with their lazy arrays."""

    _mapping: Store

    def __iter__(self) -> Iterator[tuple[str, Array]]:
        return ((name, array) for name, array, _ in readable(self._mapping) if array is not None)

    def __len__(self) -> int:
        return sum(array is not None for _, array, _ in readable(self._mapping))


class ReadableValues(ValuesView[Any]):
    """The lazy arrays."""

    _mapping: Store

    def __iter__(self) -> Iterator[Array]:
        return (array for _, array, _ in readable(self._mapping) if array is not None)

    def __len__(self) -> int:
        return sum(array is not None for _, array, _ in readable(self._mapping))
