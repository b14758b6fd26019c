"""Nodes of elementwise functions, reductions and products, with their types, shapes and chunks."""
from __future__ import annotations

from functools import reduce
from typing import Any, Mapping, Optional, Sequence, Union

import numpy as np

from ._dtypes import BOOL, INT64, UINT64, DType, Literal, check_literal, promote
from ._nodes import Node
from ._shapes import Shape, broadcast, broadcast_chunks, check_limits, one_axis, product, some_axes

INTEGERS, LOGICAL, ANY = "integers", "truth values", "any type"
# What each function accepts, and whether it gives truth values.
BINARY = {
    **dict.fromkeys(("add", "subtract", "multiply", "floor_divide", "remainder", "bitwise_left_shift", "bitwise_right_shift", "maximum",
                     "minimum"), (INTEGERS, False)),
    **dict.fromkeys(("bitwise_and", "bitwise_or", "bitwise_xor"), (ANY, False)),
    **dict.fromkeys(("equal", "not_equal"), (ANY, True)),
    **dict.fromkeys(("less", "less_equal", "greater", "greater_equal"), (INTEGERS, True)),
    **dict.fromkeys(("logical_and", "logical_or", "logical_xor"), (LOGICAL, True)),
}
UNARY = {
    **dict.fromkeys(("negative", "positive", "abs", "square", "sign"), (INTEGERS, False)),
    "bitwise_invert": (ANY, False),
    "logical_not": (LOGICAL, True),
}
REDUCTIONS = {"sum": INTEGERS, "prod": INTEGERS, "min": INTEGERS, "max": INTEGERS, "any": ANY, "all": ANY}
Argument = Union[Node, Literal]


def _accept(op: str, kind: str, dtype: DType) -> None:
    """Refuse a type that a function doesn't accept, with a TypeError."""
    if kind == INTEGERS and dtype == BOOL:
        raise TypeError(f"{op} takes integers, and not bool: convert with astype")
    if kind == LOGICAL and dtype != BOOL:
        raise TypeError(f"{op} takes truth values, and not {dtype}: not_equal to 0 makes truth values")


def check_integers(op: str, source: Node) -> None:
    """Refuse truth values, with a TypeError."""
    _accept(op, INTEGERS, source.dtype)


def make_node(op: str, args: Sequence[Argument], dtype: DType, shape: Shape, chunks: Shape,
              members: Optional[Mapping[str, Any]] = None) -> Node:
    """Return a node within the limits."""
    check_limits(shape, chunks, dtype, op)
    return Node(op, args, members or {}, dtype, shape, chunks)


def elementwise(op: str, args: Sequence[Argument]) -> Node:
    """Return the node of a function of one or two arguments.

    Raises
    ------
    TypeError
        Where the arguments have no common type, the function doesn't accept it, or a number meets a truth value.
    ValueError
        Where the shapes don't broadcast, a written number is out of range, or the result is above the limits.
    """
    kind, gives_bool = BINARY[op] if len(args) == 2 else UNARY[op]
    arrays = [arg for arg in args if isinstance(arg, Node)]
    dtype = reduce(promote, (arg.dtype for arg in arrays))
    _accept(op, kind, dtype)
    for arg in args:
        if not isinstance(arg, Node):
            check_literal(arg, dtype, op)
    shape = broadcast([arg.shape for arg in arrays], op)
    chunks = broadcast_chunks(shape, [(arg.shape, arg.chunks) for arg in arrays])
    return make_node(op, args, BOOL if gives_bool else dtype, shape, chunks)


def where(condition: Node, chosen: Argument, other: Argument) -> Node:
    """Return the node that takes elements of the second array where the condition holds, and of the third elsewhere.

    Raises
    ------
    TypeError, ValueError
        As ``elementwise``; also where the condition isn't of truth values.
    """
    _accept("where", LOGICAL, condition.dtype)
    args = (condition, chosen, other)
    arrays = [arg for arg in args if isinstance(arg, Node)]
    dtype = reduce(promote, (arg.dtype for arg in arrays[1:]))
    for arg in args:
        if not isinstance(arg, Node):
            check_literal(arg, dtype, "where")
    shape = broadcast([arg.shape for arg in arrays], "where")
    return make_node("where", args, dtype, shape, broadcast_chunks(shape, [(arg.shape, arg.chunks) for arg in arrays]))


def astype(source: Node, dtype: DType) -> Node:
    """Return the node of an array in another type; each number is wrapped to it, and to bool 0 is false and all else true."""
    if source.dtype == dtype:
        return source
    return make_node("astype", (source,), dtype, source.shape, source.chunks, {"dtype": dtype.name})


def _without(sizes: Shape, axes: Sequence[int], keepdims: bool) -> Shape:
    """Return sizes with those of reduced axes taken out, or 1 where they are kept."""
    return tuple(1 if at in axes else size for at, size in enumerate(sizes) if keepdims or at not in axes)


def _reduced(op: str, source: Node, over: tuple[int, ...], keepdims: bool, dtype: DType, **members: Any) -> Node:
    shape, chunks = (_without(sizes, over, keepdims) for sizes in (source.shape, source.chunks))
    return make_node(op, (source,), dtype, shape, chunks, {**members, "keepdims": keepdims})


def _keepdims(keepdims: Any) -> bool:
    if not isinstance(keepdims, (bool, np.bool_)):
        raise TypeError(f"keepdims is True or False, and not {keepdims!r}")
    return bool(keepdims)


def _need_elements(op: str, source: Node, axes: Sequence[int]) -> None:
    if product(source.shape[at] for at in axes) == 0:
        raise ValueError(f"{op} of an axis without elements: shape {source.shape}")


def reduction(op: str, source: Node, axis: Any, keepdims: bool) -> Node:
    """Return the node of a sum, product, least, greatest, any or all over axes.

    Raises
    ------
    TypeError
        Where the type isn't accepted, or an axis isn't an integer.
    IndexError
        Where the array hasn't an axis.
    ValueError
        Where an axis stands twice, or the least or greatest of no elements is asked for.
    """
    keepdims = _keepdims(keepdims)
    _accept(op, REDUCTIONS[op], source.dtype)
    axes = some_axes(axis, len(source.shape))
    if op in ("min", "max"):
        _need_elements(op, source, axes)
    if op in ("sum", "prod"):
        dtype = UINT64 if source.dtype.kind == "u" else INT64
    else:
        dtype = source.dtype if op in ("min", "max") else BOOL
    return _reduced(op, source, axes, keepdims, dtype, axes=None if axis is None else list(axes))


def search(op: str, source: Node, axis: Optional[int], keepdims: bool) -> Node:
    """Return the node of the first places of the least or greatest, along an axis or in the whole array.

    Raises
    ------
    TypeError, IndexError, ValueError
        As ``reduction``.
    """
    keepdims = _keepdims(keepdims)
    _accept(op, INTEGERS, source.dtype)
    at = None if axis is None else one_axis(axis, len(source.shape))
    axes = tuple(range(len(source.shape))) if at is None else (at,)
    _need_elements(op, source, axes)
    return _reduced(op, source, axes, keepdims, INT64, axis=at)


def matmul(left: Node, right: Node) -> Node:
    """Return the node of a product of matrices.

    Raises
    ------
    TypeError
        Where the types aren't integers with a common type.
    ValueError
        Where an operand has no axis, the inner sizes differ, the axes before don't broadcast, or the result has six axes.
    """
    for it in (left, right):
        _accept("matmul", INTEGERS, it.dtype)
        if not it.shape:
            raise ValueError("matmul takes arrays of one axis or more, and not of none")
    dtype = promote(left.dtype, right.dtype)
    one, other = ((1, *left.shape) if len(left.shape) == 1 else left.shape), ((*right.shape, 1) if len(right.shape) == 1 else right.shape)
    its, others = ((1, *left.chunks) if len(left.shape) == 1 else left.chunks), ((*right.chunks, 1) if len(right.shape) == 1 else right.chunks)
    if one[-1] != other[-2]:
        raise ValueError(f"matmul: the inner sizes {one[-1]} and {other[-2]} of the shapes {left.shape} and {right.shape} differ")
    heads = broadcast([one[:-2], other[:-2]], "matmul")
    sides = broadcast_chunks(heads, [(one[:-2], its[:-2]), (other[:-2], others[:-2])])
    rows, cols = ((one[-2],) if len(left.shape) > 1 else ()), ((other[-1],) if len(right.shape) > 1 else ())
    shape = (*heads, *rows, *cols)
    chunks = (*sides, *its[-2:-1][:len(rows)], *others[-1:][:len(cols)])
    if len(shape) > 5:
        raise ValueError(f"matmul: {len(shape)} axes, and a product has at most five")
    return make_node("matmul", (left, right), dtype, shape, chunks)
