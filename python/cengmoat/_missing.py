"""Missing values: numbers that `_FillValue` says stand for nothing stay so where elements are chosen or bounded."""
from __future__ import annotations

from functools import reduce
from typing import Optional, Sequence

from . import _build as build, _views as views
from ._dtypes import BOOL, Literal
from ._labels import labels_of
from ._nodes import Node, in_order
from ._packing import missing_of

_COMPARISONS = ("equal", "not_equal", "less", "less_equal", "greater", "greater_equal")


def missing_in(node: Node) -> tuple[int, ...]:
    """Return the numbers that stand for what is missing in a node's array."""
    return () if node.dtype == BOOL else missing_of(labels_of(node)[1], node.dtype)


def _mask(node: Node, values: Sequence[int]) -> Node:
    return reduce(lambda one, other: build.elementwise("logical_or", [one, other]), [build.elementwise("equal", [node, value]) for value in values])


def is_missing(node: Node) -> Node:
    """Return the node of whether each element stands for nothing."""
    values = missing_in(node)
    if values:
        return _mask(node, values)
    found = views.full(node.shape, False, BOOL, node.chunks)
    found.store = node.store
    return found


def fill_missing(node: Node, value: Literal) -> Node:
    """Return the node of an array with a number in place of what is missing; errors as of ``where``."""
    values = missing_in(node)
    return build.where(_mask(node, values), value, node) if values else node


def kept_missing(found: Node, sources: Sequence[Node], condition: Optional[Node] = None) -> Node:
    """Return a node with what is missing in a source missing there too.

    Parameters
    ----------
    found : Node
        The result.
    sources : sequence of Node
        The arrays of whose elements it is made.
    condition : Node, optional
        By which elements are chosen. Where it compares an array with its number for what is missing, that is chosen as it says.
    """
    known = missing_in(found)
    for source in sources:
        values = [value for value in missing_in(source) if value in known]
        if values and not (condition is not None and _asks(condition, values)):
            found = build.where(_mask(source, values), values[0] if len(values) == 1 else source, found)
    return found


def _asks(condition: Node, values: Sequence[int]) -> bool:
    """Return whether a condition compares with one of these numbers an array in which it stands for what is missing."""
    for it in in_order(condition):
        asked = [arg for arg in it.args if not isinstance(arg, (Node, bool)) and arg in values] if it.op in _COMPARISONS else []
        if any(value in missing_in(arg) for value in asked for arg in it.arrays):
            return True
    return False
