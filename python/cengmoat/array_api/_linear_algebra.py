"""Products of matrices and of vectors, exact and wrapped once."""
from __future__ import annotations

from typing import Sequence, Union

from .. import _build as build, _views as views
from .._array import Array
from .._dtypes import BOOL, promote
from .._shapes import one_axis, product
from ._common import node_of


def matmul(x1: Array, x2: Array, /) -> Array:
    """Return the product of matrices, or of stacks of them.

    Parameters
    ----------
    x1, x2 : Array
        Of shapes (..., n, k) and (..., k, m); one axis alone is a row on the left, a column on the right.

    Raises
    ------
    TypeError
        Where the types aren't integers with a common type.
    ValueError
        Where the shapes don't fit, or an array has no axis.
    """
    return Array(build.matmul(node_of(x1, "x1"), node_of(x2, "x2")))


def matrix_transpose(x: Array, /) -> Array:
    """Return an array with its last two axes exchanged; a ValueError where there are fewer."""
    return Array(node_of(x)).mT


def tensordot(x1: Array, x2: Array, /, *, axes: Union[int, tuple[Sequence[int], Sequence[int]]] = 2) -> Array:
    """Return the sum of products over pairs of axes.

    Parameters
    ----------
    x1, x2 : Array
        Arrays of integers.
    axes : int or pair of sequences of int
        How many last axes of `x1` and first ones of `x2`, or which axes of each.

    Raises
    ------
    TypeError
        Where the types aren't integers with a common type.
    ValueError
        Where the sizes of a pair differ, or there aren't as many axes.
    """
    left, right = node_of(x1, "x1"), node_of(x2, "x2")
    if isinstance(axes, int):
        if not 0 <= axes <= min(len(left.shape), len(right.shape)):
            raise ValueError(f"axes {axes}: the arrays have {len(left.shape)} and {len(right.shape)} axes")
        ours, others = list(range(len(left.shape) - axes, len(left.shape))), list(range(axes))
    else:
        if len(axes) != 2:
            raise ValueError(f"axes {axes}: the axes of each of two arrays are wanted")
        ours, others = ([one_axis(at, len(node.shape), "axes") for at in ((given,) if isinstance(given, int) else given)]
                        for given, node in zip(axes, (left, right)))
    if len(ours) != len(others) or any(left.shape[one] != right.shape[other] for one, other in zip(ours, others)):
        raise ValueError(f"axes {axes}: the sizes of the shapes {left.shape} and {right.shape} differ")
    rows = [at for at in range(len(left.shape)) if at not in ours]
    cols = [at for at in range(len(right.shape)) if at not in others]
    inner = product(left.shape[at] for at in ours)
    heads, tails = tuple(left.shape[at] for at in rows), tuple(right.shape[at] for at in cols)
    one = views.reshape(views.permute_dims(left, (*rows, *ours)), (product(heads), inner))
    other = views.reshape(views.permute_dims(right, (*others, *cols)), (inner, product(tails)))
    return Array(views.reshape(build.matmul(one, other), (*heads, *tails)))


def vecdot(x1: Array, x2: Array, /, *, axis: int = -1) -> Array:
    """Return the sum of products along one axis, in the promoted type.

    Raises
    ------
    TypeError
        Where the types aren't integers with a common type.
    IndexError
        Where an array hasn't the axis.
    ValueError
        Where the sizes along the axis differ, or the shapes don't broadcast.
    """
    left, right = node_of(x1, "x1"), node_of(x2, "x2")
    if BOOL in (left.dtype, right.dtype):
        raise TypeError("vecdot takes integers, and not bool: convert with astype")
    ndim = max(len(left.shape), len(right.shape))
    sizes = [((1,) * (ndim - len(node.shape)) + node.shape)[one_axis(axis, ndim)] for node in (left, right)]
    if sizes[0] != sizes[1]:
        raise ValueError(f"vecdot: the sizes {sizes[0]} and {sizes[1]} along axis {axis} differ")
    products = build.elementwise("multiply", [left, right])
    total = build.reduction("sum", products, axis, False)
    return Array(build.astype(total, promote(left.dtype, right.dtype)))
