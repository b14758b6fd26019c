"""What attributes say of an array's numbers, and which of them stay true of a result: how numbers are packed, which of them stand for
a missing value, and in which unit they are."""
from __future__ import annotations

from typing import Any, Mapping, Optional, Sequence

import numpy as np

from ._dtypes import DType, greatest, least
from ._nodes import Node

Attributes = dict[str, Any]

# What says how numbers are packed or which of them stand for nothing: of other numbers it would be wrong.
MISSING = ("_FillValue", "missing_value")
SCALE = ("scale_factor", "add_offset", "_Unsigned")
PACKING = (*MISSING, *SCALE, "valid_min", "valid_max", "valid_range", "actual_range", "flag_values", "flag_masks", "flag_meanings")
# What says of what the numbers are.
MEANING = ("units", "calendar", "long_name", "standard_name")
# Of these each element of a result is one of an argument's, or the written number that meets it.
VIEWS = ("rechunk", "index", "permute_dims", "reshape", "expand_dims", "squeeze", "flip", "roll", "broadcast_to", "concat", "stack", "tril", "triu")
ELEMENTS = (*VIEWS, "positive", "where", "maximum", "minimum", "clip", "min", "max")
PLACES = ("argmin", "argmax")


def agreed(parts: Sequence[Attributes]) -> Attributes:
    """Return the attributes of some arrays, but for those on which they differ."""
    found: Attributes = {}
    for name in dict.fromkeys(name for part in parts for name in part):
        values = [part[name] for part in parts if name in part]
        if all(value == values[0] for value in values):
            found[name] = values[0]
    return found


def _without(attributes: Attributes, *names: str) -> Attributes:
    return {name: value for name, value in attributes.items() if name not in names}


def _scale(attributes: Attributes) -> list[Any]:
    """Return what a stored number is multiplied by and what is added, whether it is unsigned, and the unit."""
    return [attributes.get(name, default) for name, default in (("scale_factor", 1), ("add_offset", 0), ("_Unsigned", None), ("units", None))]


def _is_alike(parts: Sequence[Attributes]) -> bool:
    """Return whether equal numbers of some arrays mean the same: they have one scale, one unit, and not two values for what is missing."""
    missing = all(name in agreed(parts) for name in MISSING if any(name in part for part in parts))
    return missing and all(_scale(part) == _scale(parts[0]) for part in parts)


def _is_copy(node: Node) -> bool:
    """Return whether each element is one of an argument's."""
    if node.op == "astype":
        return np.can_cast(node.arrays[0].dtype, node.dtype)
    return node.op in ELEMENTS


def attributes_of(node: Node, args: Sequence[Optional[Attributes]]) -> Optional[Attributes]:
    """Return the attributes of a node, from those of its arguments that are arrays; None where no stored array is in it, so that its
    numbers are in whichever scale they meet."""
    if node.meta is not None:
        return {name: value for name, value in node.meta.attributes.items() if not node.meta.is_truth or name != "dtype"}
    if node.stored_as is not None:
        return args[0]
    pairs = [(arg, its) for arg, its in zip(node.arrays, args) if its is not None]
    if not pairs:
        return None
    # (truth values and places aren't the numbers of which the attributes speak)
    if node.op in PLACES or node.dtype.kind == "b" and any(arg.dtype.kind != "b" for arg, _ in pairs):
        return {}
    if node.op == "where" and isinstance(node.args[0], Node):
        # (the condition says nothing of the numbers)
        pairs = [(arg, its) for arg, its in zip(node.arrays[1:], args[1:]) if its is not None]
        if not pairs:
            return {}
    parts = [its for _, its in pairs]
    whole = agreed(parts if node.op in VIEWS else [its for arg, its in pairs if len(arg.shape) >= len(node.shape)])
    if _is_copy(node) and _is_alike(parts) and not (node.op == "astype" and "_Unsigned" in whole):
        return {**whole, **{name: value for name, value in agreed(parts).items() if name in (*PACKING, *MEANING)}}
    if node.op == "subtract" and len(parts) == 2 and _is_alike(parts):
        # (the offset falls out of a difference, and the number for what is missing isn't one any more)
        return _without(whole, *(name for name in PACKING if name != "scale_factor"))
    return _without(whole, *PACKING, *MEANING)


def missing_of(attributes: Mapping[str, Any], dtype: DType) -> tuple[int, ...]:
    """Return the numbers that stand for what is missing, as `_FillValue` and `missing_value` say; one that the type hasn't is none."""
    found: list[int] = []
    for value in (attributes.get(name) for name in MISSING) if dtype.kind != "b" else ():
        if isinstance(value, float) and value.is_integer():
            value = int(value)
        if isinstance(value, int) and not isinstance(value, bool) and value not in found and least(dtype) <= value <= greatest(dtype):
            found.append(value)
    return tuple(found)
