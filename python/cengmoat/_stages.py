"""Which chunks a copy into other chunks stores on its way: by the program's rule, for the bytes that a plan shows."""
from __future__ import annotations

from typing import NamedTuple, Sequence

from ._nodes import Node
from ._shapes import Shape, numblocks, product


def _consolidated(chunk: Shape, shape: Shape, limit: Shape, item: int, most: int) -> Shape:
    """Return the largest region, from the last axis on, of whole chunks up to a limit that fits in so many bytes."""
    found = list(chunk)
    for at in reversed(range(len(chunk))):
        if found[at] >= shape[at] or found[at] >= limit[at]:
            continue
        others = item * product(side for place, side in enumerate(found) if place != at)
        if limit[at] >= shape[at] and others * shape[at] <= most:
            found[at] = shape[at]
        else:
            found[at] *= max(1, min(shape[at], limit[at], most // others) // found[at])
    return tuple(found)


def copied_chunks(shape: Shape, source: Shape, target: Shape, item: int, most: int) -> list[Shape]:
    """Return the chunk shapes of the arrays that a copy stores: one, or two by way of smaller chunks between.

    Parameters
    ----------
    shape, source, target : tuple of int
        The shape of the array, and the chunk shapes before and after.
    item : int
        The bytes of an element.
    most : int
        The bytes of a region: half of what is allowed less what is reserved.
    """
    sizes = tuple(max(1, size) for size in shape)
    cut, wanted = (tuple(min(side, size) for side, size in zip(sides, sizes)) for sides in (source, target))
    write = _consolidated(wanted, sizes, sizes, item, most)
    limit = tuple(ours if ours > its else its for ours, its in zip(write, cut))
    read = list(_consolidated(cut, sizes, limit, item, most))
    for at, size in enumerate(sizes):
        if read[at] < size and write[at] < read[at]:
            read[at] -= read[at] % write[at]
    if tuple(read) == write:
        return [target]
    return [tuple(min(pair) for pair in zip(read, write)), target]


def _aligned(node: Node, arg: Node) -> Shape:
    """Return the chunks in which a function wants an argument: the result's where it isn't stretched."""
    added = len(node.shape) - len(arg.shape)
    return tuple(node.chunks[added + at] if size == node.shape[added + at] else arg.chunks[at] for at, size in enumerate(arg.shape))


def _matrices(node: Node) -> list[tuple[Node, Shape]]:
    """Return the operands of a product with the chunks in which it wants them."""
    left, right = node.arrays
    inner = left.chunks[-1]
    heads = len(node.shape) - (len(left.shape) > 1) - (len(right.shape) > 1)

    def head(arg: Node) -> Shape:
        own = max(0, len(arg.shape) - 2)
        return tuple(node.chunks[heads - own + at] if arg.shape[at] == node.shape[heads - own + at] else arg.chunks[at] for at in range(own))

    tail = (inner, right.chunks[-1]) if len(right.shape) > 1 else (inner,)
    return [(left, (*head(left), *left.chunks[-2:])), (right, (*head(right), *tail))]


def wanted_chunks(node: Node) -> list[tuple[Node, Shape]]:
    """Return the arguments that a node copies into other chunks first, with those chunks, in order."""
    if node.op == "rechunk":
        return [(node.arrays[0], node.chunks)]
    if node.op in ("input", "data"):
        return [(node, node.chunks)]
    if node.op in ("groupby_sum", "groupby_min"):
        source, labels = node.arrays
        pairs = [(source, source.chunks), (labels, (source.chunks[node.members["axis"]],))]
    else:
        pairs = _matrices(node) if node.op == "matmul" else [(arg, _aligned(node, arg)) for arg in node.arrays]
    return [(arg, chunks) for arg, chunks in pairs if chunks != arg.chunks]


class Stage(NamedTuple):
    """A copy that a plan has for a node: the argument that is copied, the chunks that it stores, and whether it is the first and the last
    copy of that argument."""

    arg: Node
    chunks: Shape
    is_first: bool
    is_last: bool


def left_stages(node: Node, most: int, stored: Sequence[int]) -> list[Stage]:
    """Return the copies for a node that a plan has, in order. Those that are joined with another one are left out.

    Parameters
    ----------
    node : Node
        The node.
    most : int
        The bytes of a region.
    stored : sequence of int
        The chunks that each copy of the plan stores.
    """
    found: list[Stage] = []
    wanted = wanted_chunks(node)
    for number, (arg, chunks) in enumerate(wanted):
        stages = copied_chunks(arg.shape, arg.chunks, chunks, arg.dtype.itemsize, most)
        # (each argument behind this one has at least one copy)
        left = stored[len(found):len(stored) - (len(wanted) - number - 1)][:2]
        counts = [product(numblocks(arg.shape, it)) for it in stages]
        ends = [at for at in range(len(stages)) if list(left[:len(stages) - at]) == counts[at:]]
        # (the last one of a rechunk is left out where it is joined with a copy that reads it)
        some = range(ends[0], len(stages)) if ends else range(len(left))
        found += [Stage(arg, stages[at], at == some[0], at == len(stages) - 1) for at in some]
    return found
