"""Names of axes and attributes, as they come from the stored arrays through an expression to its result."""
from __future__ import annotations

from typing import Any, Callable, Optional, Sequence

from ._nodes import Node, in_order
from ._packing import Attributes, attributes_of
from ._shapes import Shape

Names = tuple[Optional[str], ...]

_KEPT = ("astype", "cumulative_sum", "rechunk", "flip", "roll", "tril", "triu")
_REDUCTIONS = ("sum", "prod", "min", "max", "any", "all", "argmin", "argmax")


def _agreed(names: Sequence[Optional[str]]) -> Optional[str]:
    """Return the one name among some, or None where there is none or they differ."""
    found = {name for name in names if name is not None}
    return found.pop() if len(found) == 1 else None


def _broadcast(shape: Shape, args: Sequence[tuple[Shape, Names]]) -> Names:
    """Return the names of a broadcast result: on each axis those of the arguments that aren't stretched there."""
    found = []
    for at, size in enumerate(shape):
        places = [(at - len(shape) + len(its), its, names) for its, names in args]
        found.append(_agreed([names[place] for place, its, names in places if place >= 0 and its[place] == size]))
    return tuple(found)


def _indexed(node: Node, names: Names) -> Names:
    found: list[Optional[str]] = []
    entries = node.members["index"]
    taken = sum(entry not in ("new", "...") for entry in entries)
    rest = iter(names)
    for entry in entries:
        if entry == "new":
            found.append(None)
        elif entry == "...":
            found += [next(rest) for _ in range(len(names) - taken)]
        elif isinstance(entry, dict):
            found.append(next(rest))
        else:
            next(rest)
    return (*found, *rest)


def _reduced(node: Node, names: Names) -> Names:
    axis = node.members.get("axes", node.members.get("axis"))
    over = range(len(names)) if axis is None else axis if isinstance(axis, list) else [axis]
    return names if node.members["keepdims"] else tuple(name for at, name in enumerate(names) if at not in over)


def _reshaped(node: Node, arg: Node, names: Names) -> Names:
    """Keep the axes at both ends that a reshape leaves as they are."""
    same = 0
    while same < min(len(node.shape), len(names)) and node.shape[same] == arg.shape[same]:
        same += 1
    behind = 0
    while behind < min(len(node.shape), len(names)) - same and node.shape[-1 - behind] == arg.shape[-1 - behind]:
        behind += 1
    between: Names = (None,) * (len(node.shape) - same - behind)
    return (*names[:same], *between, *names[len(names) - behind:])


def _squeezed(node: Node, names: Names) -> Names:
    return tuple(name for at, name in enumerate(names) if at not in node.members["axes"])


def _multiplied(node: Node, args: Sequence[tuple[Shape, Names]]) -> Names:
    (left, its), (right, others) = args
    rows, cols = its[-2:-1] if len(left) > 1 else (), others[-1:] if len(right) > 1 else ()
    heads = len(node.shape) - len(rows) - len(cols)
    return (*_broadcast(node.shape[:heads], [(left[:-2], its[:-2]), (right[:-2], others[:-2])]), *rows, *cols)


def _names(node: Node, args: Sequence[tuple[Shape, Names]]) -> Names:
    """Return the names of the axes of a node, from those of its arguments."""
    if node.meta is not None:
        return node.meta.dimensions or (None,) * len(node.shape)
    if not args:
        return (None,) * len(node.shape)
    names = args[0][1]
    at: Any = node.members.get("axis")
    special: dict[str, Callable[[], Names]] = {
        "index": lambda: _indexed(node, names), "permute_dims": lambda: tuple(names[axis] for axis in node.members["axes"]),
        "expand_dims": lambda: (*names[:at], None, *names[at:]), "squeeze": lambda: _squeezed(node, names),
        "reshape": lambda: _reshaped(node, node.arrays[0], names), "matmul": lambda: _multiplied(node, args),
        "concat": lambda: tuple(_agreed([its[axis] for _, its in args]) for axis in range(len(names))),
        "groupby_sum": lambda: (*names[:at], None, *names[at + 1:]), "groupby_min": lambda: (*names[:at], None, *names[at + 1:]),
        "stack": lambda: (*(both := _broadcast(node.arrays[0].shape, args))[:at], None, *both[at:]),
    }
    if node.op in _KEPT:
        return names
    if node.op in _REDUCTIONS:
        return _reduced(node, names)
    return special[node.op]() if node.op in special else _broadcast(node.shape, args)


def labels_of(node: Node) -> tuple[Names, Attributes]:
    """Return the names of the axes of a node's array, and its attributes."""
    names: dict[int, Names] = {}
    attributes: dict[int, Optional[Attributes]] = {}
    for it in in_order(node):
        names[id(it)] = _names(it, [(arg.shape, names[id(arg)]) for arg in it.arrays])
        attributes[id(it)] = attributes_of(it, [attributes[id(arg)] for arg in it.arrays])
    return names[id(node)], attributes[id(node)] or {}
