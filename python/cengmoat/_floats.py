"""Comparisons of integers with a float: as exact ones with an integer. No number is ever rounded to a float."""
from __future__ import annotations

import math
from fractions import Fraction
from typing import Any, Optional, Union

import numpy as np

from . import _build as build
from ._dtypes import BOOL, greatest, least
from ._nodes import Node

TURNED = {"less": "greater", "less_equal": "greater_equal", "greater": "less", "greater_equal": "less_equal", "equal": "equal",
          "not_equal": "not_equal"}


def as_float(value: Any) -> Any:
    """Return a float of Python or NumPy that is finite, also one in an array without an axis; None for anything else."""
    if isinstance(value, np.ndarray) and value.ndim == 0:
        value = value[()]
    return value if isinstance(value, (float, np.floating)) and bool(np.isfinite(value)) else None


def _bound(op: str, value: Union[float, "np.floating[Any]"]) -> tuple[str, int, bool]:
    """Return the comparison with an integer that holds where that with a float does; and whether it holds, or else fails, of each integer,
    where there is no such integer."""
    exact = Fraction(*value.as_integer_ratio())
    if op in ("equal", "not_equal"):
        return op, math.floor(exact), exact.denominator != 1
    if op in ("less", "less_equal"):
        return "less_equal", math.ceil(exact) - 1 if op == "less" else math.floor(exact), False
    return "greater_equal", math.floor(exact) + 1 if op == "greater" else math.ceil(exact), False


def _compared(op: str, source: Node, value: Union[float, "np.floating[Any]"]) -> Node:
    its, number, is_never = _bound(op, value)
    low, high = least(source.dtype), greatest(source.dtype)
    if low <= number <= high and not is_never:
        return build.elementwise(its, [source, number])
    # (of all numbers of the type the same: it is said by the least of them)
    holds = {"less_equal": number > high, "greater_equal": number < low}.get(its, its == "not_equal")
    return build.elementwise("greater_equal" if holds else "less", [source, low])


def compared(op: str, left: Any, right: Any) -> Optional[Node]:
    """Return the node of a comparison of an array of integers with a finite float, or None where it isn't one."""
    if op not in TURNED:
        return None
    for source, value, its in ((left, right, op), (right, left, TURNED[op])):
        number = as_float(value)
        if number is not None and isinstance(source, Node) and source.dtype != BOOL:
            return _compared(its, source, number)
    return None
