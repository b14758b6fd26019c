"""Nodes of views, of arrays that are made from nothing, and of changes of chunks, with their types, shapes and chunks."""
from __future__ import annotations

from functools import reduce
from typing import Any, Sequence

import numpy as np

from ._build import astype, make_node
from ._dtypes import BOOL, DType, Literal, as_int, check_literal, greatest, least, promote
from ._index import read_index
from ._nodes import Node
from ._shapes import MOST_CHUNK_BYTES, ChunksLike, Shape, as_chunks, as_shape, broadcast, chosen_chunks, one_axis, product, some_axes

MOST_JOINED = 8


def full(shape: Shape, value: Literal, dtype: DType, chunks: ChunksLike) -> Node:
    """Return the node of an array that has one value everywhere.

    Raises
    ------
    TypeError, ValueError
        Where the value isn't one of the type, or the chunks don't fit the shape or the limits.
    """
    check_literal(value, dtype, "full")
    sides = as_chunks(chunks, shape, dtype)
    return make_node("full", (), dtype, shape, sides, {"shape": list(shape), "dtype": dtype.name, "value": value, "chunk": list(sides)})


def arange(start: int, stop: int, step: int, dtype: DType, chunks: ChunksLike) -> Node:
    """Return the node of the numbers from start, before stop, step apart.

    Raises
    ------
    TypeError
        Where the type is bool.
    ValueError
        Where the step is 0, or the first or the last number isn't one of the type.
    """
    if dtype == BOOL:
        raise TypeError("arange makes integers, and not bool")
    if step == 0:
        raise ValueError("arange: the step isn't 0")
    if any(not -2**63 <= value < 2**63 for value in (start, stop, step)):
        raise ValueError(f"arange: start, stop and step are from -2^63 to 2^63-1, and not {start}, {stop}, {step}")
    numbers = range(start, stop, step)
    # (len() ends at the machine's words)
    count = max(0, -(-(stop - start) // step))
    if count and not (least(dtype) <= start <= greatest(dtype) and least(dtype) <= numbers[-1] <= greatest(dtype)):
        raise ValueError(f"arange: {start} or {numbers[-1]} isn't in the range of {dtype}")
    sides = as_chunks(chunks, (count,), dtype)
    return make_node("arange", (), dtype, (count,), sides, {"start": start, "stop": stop, "step": step, "dtype": dtype.name, "chunk": list(sides)})


def eye(rows: int, cols: int, k: int, dtype: DType, chunks: ChunksLike) -> Node:
    """Return the node of the matrix that is 1 on its k-th diagonal and 0 elsewhere."""
    if rows < 0 or cols < 0:
        raise ValueError(f"eye: {rows} rows and {cols} columns: a size isn't negative")
    if dtype == BOOL:
        return astype(eye(rows, cols, k, np.dtype("int8"), chunks), BOOL)
    sides = as_chunks(chunks, (rows, cols), dtype)
    return make_node("eye", (), dtype, (rows, cols), sides, {"rows": rows, "cols": cols, "k": _diagonal(k), "dtype": dtype.name, "chunk": list(sides)})


def _diagonal(k: Any) -> int:
    """Return a diagonal's number; all behind the widest array are the same."""
    return max(-2**62, min(2**62, as_int(k, "k")))


def triangle(op: str, source: Node, k: Any) -> Node:
    """Return the node of `tril` or `triu`; a ValueError where the array has fewer than two axes."""
    if len(source.shape) < 2:
        raise ValueError(f"{op} takes arrays of two axes or more, and not of shape {source.shape}")
    return make_node(op, (source,), source.dtype, source.shape, source.chunks, {"k": _diagonal(k)})


def index(source: Node, key: Any) -> Node:
    """Return the node of an index in brackets, or the array itself where the index takes all of it."""
    found = read_index(key, source.shape)
    chunks = found.chunks(source.chunks)
    if found.is_whole and chunks == source.chunks:
        return source
    return make_node("index", (source,), source.dtype, found.shape, chunks, {"index": list(found.written)})


def _common(op: str, sources: Sequence[Node]) -> DType:
    if not sources:
        raise ValueError(f"{op} takes one array or more, and not none")
    return reduce(promote, (source.dtype for source in sources))


def _with_side(source: Node, axis: int, side: int) -> Node:
    """Return an array with another chunk size along an axis, or as it is where a chunk would be above the limit."""
    sides = (*source.chunks[:axis], side, *source.chunks[axis + 1:])
    return rechunk(source, sides) if product(sides) * source.dtype.itemsize <= MOST_CHUNK_BYTES else source


def concat(sources: Sequence[Node], axis: int) -> Node:
    """Return the node of arrays one behind the other along an axis. More than eight are joined in groups.

    The chunks are those of the first array, along the axis those of the longest: a slice of one element in front makes no chunks of one.

    Raises
    ------
    TypeError
        Where they have no common type.
    ValueError
        Where there are none, or their shapes differ off the axis.
    IndexError
        Where they haven't the axis.
    """
    dtype = _common("concat", sources)
    at = one_axis(axis, len(sources[0].shape), "concat: axis")
    rest = [(len(source.shape), source.shape[:at], source.shape[at + 1:]) for source in sources]
    if any(it != rest[0] for it in rest):
        raise ValueError(f"concat: the shapes {', '.join(str(source.shape) for source in sources)} differ off axis {at}")
    while len(sources) > MOST_JOINED:
        sources = [concat(sources[first:first + MOST_JOINED], at) for first in range(0, len(sources), MOST_JOINED)]
    # (the program takes the chunks of the first one)
    first = _with_side(sources[0], at, max(sources, key=lambda source: source.shape[at]).chunks[at])
    shape = (*first.shape[:at], sum(source.shape[at] for source in sources), *first.shape[at + 1:])
    return make_node("concat", [first, *sources[1:]], dtype, shape, first.chunks, {"axis": at})


def stack(sources: Sequence[Node], axis: int) -> Node:
    """Return the node of arrays side by side along a new axis; errors as of ``concat``."""
    dtype = _common("stack", sources)
    first = sources[0]
    at = one_axis(axis, len(first.shape) + 1, "stack: axis")
    if any(source.shape != first.shape for source in sources):
        raise ValueError(f"stack: the shapes {', '.join(str(source.shape) for source in sources)} differ")
    if len(sources) > MOST_JOINED:
        return concat([stack(sources[begin:begin + MOST_JOINED], at) for begin in range(0, len(sources), MOST_JOINED)], at)
    shape = (*first.shape[:at], len(sources), *first.shape[at:])
    return make_node("stack", sources, dtype, shape, (*first.chunks[:at], 1, *first.chunks[at:]), {"axis": at})


def permute_dims(source: Node, axes: Any) -> Node:
    """Return the node of an array with its axes in another order; a ValueError where not each stands once."""
    order = some_axes(tuple(axes), len(source.shape), "axes")
    if len(order) != len(source.shape):
        raise ValueError(f"axes {tuple(axes)}: each of {len(source.shape)} axes stands once")
    if order == tuple(range(len(order))):
        return source
    shape, chunks = (tuple(sizes[at] for at in order) for sizes in (source.shape, source.chunks))
    return make_node("permute_dims", (source,), source.dtype, shape, chunks, {"axes": list(order)})


def reshape(source: Node, shape: Any) -> Node:
    """Return the node of the same elements, row by row, in another shape, of which one size may be -1.

    Raises
    ------
    TypeError
        Where a size isn't an integer.
    ValueError
        Where the count of elements differs, or there is no one size for -1.
    """
    asked = tuple(shape) if isinstance(shape, (tuple, list)) else (shape,)
    sizes = [as_int(size, "a size of shape") for size in asked]
    count, free = product(source.shape), [at for at, size in enumerate(sizes) if size == -1]
    others = product(size for size in sizes if size != -1)
    if len(free) == 1 and others > 0 and count % others == 0:
        sizes[free[0]] = count // others
    if any(size < 0 for size in sizes) or product(sizes) != count:
        raise ValueError(f"an array of shape {source.shape} has no shape {asked}: it has {count} elements")
    if tuple(sizes) == source.shape:
        return source
    room, chunks = product(source.chunks), [1] * len(sizes)
    for at in reversed(range(len(sizes))):
        chunks[at] = min(max(1, sizes[at]), max(1, room))
        room //= chunks[at]
    return make_node("reshape", (source,), source.dtype, tuple(sizes), tuple(chunks), {"shape": sizes})


def expand_dims(source: Node, axis: Any) -> Node:
    """Return the node of an array with an axis of size 1 put in; an IndexError where there is no such place."""
    at = one_axis(axis, len(source.shape) + 1)
    shape, chunks = ((*sizes[:at], 1, *sizes[at:]) for sizes in (source.shape, source.chunks))
    return make_node("expand_dims", (source,), source.dtype, shape, chunks, {"axis": at})


def squeeze(source: Node, axis: Any) -> Node:
    """Return the node of an array with axes of size 1 taken out; a ValueError where one has another size."""
    axes = some_axes(axis, len(source.shape))
    for at in axes:
        if source.shape[at] != 1:
            raise ValueError(f"squeeze: axis {at} has size {source.shape[at]}, and not 1")
    if not axes:
        return source
    shape, chunks = (tuple(size for at, size in enumerate(sizes) if at not in axes) for sizes in (source.shape, source.chunks))
    return make_node("squeeze", (source,), source.dtype, shape, chunks, {"axes": list(axes)})


def flip(source: Node, axis: Any) -> Node:
    """Return the node of an array in the opposite order along axes; None means all."""
    axes = some_axes(axis, len(source.shape))
    return make_node("flip", (source,), source.dtype, source.shape, source.chunks, {"axes": list(axes)}) if axes else source


def roll(source: Node, shift: Any, axis: Any) -> Node:
    """Return the node of an array whose elements are moved round along axes, of the whole array where there is none.

    Raises
    ------
    TypeError, IndexError
        Where a shift or an axis isn't an integer, or the array hasn't the axis.
    ValueError
        Where there isn't one shift for each axis.
    """
    shifts = [as_int(by, "shift") for by in (shift if isinstance(shift, (tuple, list)) else (shift,))]
    if axis is None:
        if len(shifts) != 1:
            raise ValueError(f"roll: {len(shifts)} shifts, and no axis")
        flat = reshape(source, (-1,)) if len(source.shape) != 1 else source
        return reshape(roll(flat, shifts[0], 0), source.shape)
    axes = [one_axis(at, len(source.shape)) for at in (axis if isinstance(axis, (tuple, list)) else (axis,))]
    if len(shifts) == 1:
        shifts *= len(axes)
    if len(shifts) != len(axes):
        raise ValueError(f"roll: {len(shifts)} shifts for {len(axes)} axes")
    moves = {at: sum(by for by, its in zip(shifts, axes) if its == at) % max(1, source.shape[at]) for at in axes}
    if not any(moves.values()):
        return source
    return make_node("roll", (source,), source.dtype, source.shape, source.chunks, {"shifts": list(moves.values()), "axes": list(moves)})


def broadcast_to(source: Node, shape: Any, chunks: ChunksLike = None) -> Node:
    """Return the node of an array that is stretched to a shape.

    The chunks are those of the array where it isn't stretched, and elsewhere such that a chunk has at most about 16 MiB.

    Raises
    ------
    ValueError
        Where the array doesn't broadcast to the shape.
    """
    wanted = as_shape(shape)
    if len(wanted) < len(source.shape) or broadcast([source.shape, wanted], "broadcast_to") != wanted:
        raise ValueError(f"broadcast_to: the shape {source.shape} doesn't broadcast to {wanted}")
    if wanted == source.shape:
        return source if chunks is None else rechunk(source, chunks)
    added = len(wanted) - len(source.shape)
    kept = [None if at < added or source.shape[at - added] != size else source.chunks[at - added] for at, size in enumerate(wanted)]
    sides = as_chunks(chunks, wanted, source.dtype, chosen_chunks(wanted, source.dtype, kept))
    return make_node("broadcast_to", (source,), source.dtype, wanted, sides, {"shape": list(wanted), "chunk": list(sides)})


def rechunk(source: Node, chunks: ChunksLike) -> Node:
    """Return the node of the same array in other chunks, or the array itself where it has them."""
    sides = as_chunks(chunks, source.shape, source.dtype, source.chunks)
    if sides == source.chunks:
        return source
    return make_node("rechunk", (source,), source.dtype, source.shape, sides, {"chunk": list(sides)})
