"""The operators of lazy arrays, with numbers and arrays in memory on either side."""
from __future__ import annotations

import numbers
from typing import Any, Optional, TypeVar

import numpy as np

from . import _build as build, _views as views
from ._dtypes import DType, Literal, NDArray, as_dtype, as_literal, check_unmasked, is_written
from ._floats import compared
from ._nodes import Node
from ._shapes import Shape, check_limits, chosen_chunks

Self = TypeVar("Self", bound="Operators")


def memory_node(data: NDArray, chunks: Optional[Shape] = None) -> Node:
    """Return the node of an array in memory, which is stored beside the others while an expression over it runs.

    Raises
    ------
    TypeError, NotImplementedError
        Where its type isn't one of the program's.
    """
    check_unmasked(data)
    dtype = as_dtype(data.dtype)
    sides = chosen_chunks(data.shape, dtype) if chunks is None else chunks
    check_limits(data.shape, sides, dtype, "asarray")
    kept = np.array(data, dtype, copy=True)
    kept.flags.writeable = False
    return Node.in_memory(kept, sides)


def scalar_node(value: Literal, dtype: DType) -> Node:
    """Return the node of an array without an axis that has one value of a type."""
    return views.full((), value, dtype, None)


def operand(value: Any) -> Any:
    """Return an operand as a node or a written number, or NotImplemented where it is neither.

    Raises
    ------
    TypeError
        For a number that isn't whole, a list, a text or None: Python would take `x == [1, 2]` for False where both sides know nothing of it.
    """
    if isinstance(value, Operators):
        return value.node
    if is_written(value):
        return as_literal(value)
    check_unmasked(value)
    if isinstance(value, np.ndarray):
        return as_literal(value[()]) if value.ndim == 0 else memory_node(value)
    if type(value).__module__.partition(".")[0] == "dask":
        raise TypeError("an array of Dask and a lazy one of Cengmoat don't go together: convert one. store.save(name, array, chunks) stores Dask's;"
                        " x.compute() computes the other")
    if isinstance(value, (list, tuple, range)):
        raise TypeError(f"a {type(value).__name__} is no operand of a lazy array: xp.asarray makes an array of it, as in x == xp.asarray([1, 2])")
    if value is None or isinstance(value, (numbers.Number, np.inexact, str, bytes)):
        as_literal(value)
    return NotImplemented


def of_float(op: str, left: Any, right: Any) -> Optional[Node]:
    """Return the node of a comparison of a lazy array of integers with a finite float, or None where it isn't one."""
    return compared(op, *(it.node if isinstance(it, Operators) else it for it in (left, right)))


def _binary(op: str, left: Any, right: Any) -> Any:
    """Return the array of a function of two operands, or NotImplemented where one isn't known here."""
    kind = type(left) if isinstance(left, Operators) else type(right)
    found = of_float(op, left, right)
    if found is not None:
        return kind(found)
    args = [operand(left), operand(right)]
    if any(arg is NotImplemented for arg in args):
        return NotImplemented
    return kind(build.elementwise(op, args))


def _lacks(op: str) -> Any:
    raise NotImplementedError(f"the program has no {op}, since it has no floats: it has integers of 8 to 64 bits and truth values")


def _product(left: Any, right: Any) -> Any:
    args = [operand(left), operand(right)]
    if any(arg is NotImplemented for arg in args):
        return NotImplemented
    if not all(isinstance(arg, Node) for arg in args):
        raise ValueError("matmul takes arrays, and not numbers")
    kind = type(left) if isinstance(left, Operators) else type(right)
    return kind(build.matmul(args[0], args[1]))


class Operators:
    """The operators of an array whose expression is `node`."""

    __slots__ = ("node",)
    __hash__ = None  # type: ignore[assignment]

    node: Node

    def __init__(self, node: Node) -> None:
        self.node = node

    def __array_ufunc__(self, ufunc: np.ufunc, method: str, *inputs: Any, **options: Any) -> Any:
        """Return what a ufunc of NumPy gives: a lazy array, or a refusal that says what to write."""
        from ._numpy import call_ufunc
        return call_ufunc(ufunc, method, inputs, options)

    def __array_function__(self, function: Any, types: Any, args: Any, options: Any) -> Any:
        """Return what a function of NumPy gives: a lazy array, or a refusal that says what to write."""
        from ._numpy import call_function
        return call_function(function, args, dict(options))

    @property
    def _data(self) -> NDArray:
        """What numpy.ma asks of an array that it computes with; a TypeError, so that nothing is computed and no mask is lost."""
        raise TypeError("numpy.ma computes with arrays in memory: say which value stands for what is masked, as in"
                        " numpy.ma.filled(x, value), or compute the lazy array first, as in numpy.ma.add(m, x.compute())")

    def __add__(self: Self, other: Any) -> Self:
        return _binary("add", self, other)

    def __radd__(self: Self, other: Any) -> Self:
        return _binary("add", other, self)

    def __sub__(self: Self, other: Any) -> Self:
        return _binary("subtract", self, other)

    def __rsub__(self: Self, other: Any) -> Self:
        return _binary("subtract", other, self)

    def __mul__(self: Self, other: Any) -> Self:
        return _binary("multiply", self, other)

    def __rmul__(self: Self, other: Any) -> Self:
        return _binary("multiply", other, self)

    def __floordiv__(self: Self, other: Any) -> Self:
        return _binary("floor_divide", self, other)

    def __rfloordiv__(self: Self, other: Any) -> Self:
        return _binary("floor_divide", other, self)

    def __mod__(self: Self, other: Any) -> Self:
        return _binary("remainder", self, other)

    def __rmod__(self: Self, other: Any) -> Self:
        return _binary("remainder", other, self)

    def __divmod__(self: Self, other: Any) -> tuple[Self, Self]:
        return self // other, self % other

    def __rdivmod__(self: Self, other: Any) -> tuple[Self, Self]:
        return other // self, other % self

    def __and__(self: Self, other: Any) -> Self:
        return _binary("bitwise_and", self, other)

    def __rand__(self: Self, other: Any) -> Self:
        return _binary("bitwise_and", other, self)

    def __or__(self: Self, other: Any) -> Self:
        return _binary("bitwise_or", self, other)

    def __ror__(self: Self, other: Any) -> Self:
        return _binary("bitwise_or", other, self)

    def __xor__(self: Self, other: Any) -> Self:
        return _binary("bitwise_xor", self, other)

    def __rxor__(self: Self, other: Any) -> Self:
        return _binary("bitwise_xor", other, self)

    def __lshift__(self: Self, other: Any) -> Self:
        return _binary("bitwise_left_shift", self, other)

    def __rlshift__(self: Self, other: Any) -> Self:
        return _binary("bitwise_left_shift", other, self)

    def __rshift__(self: Self, other: Any) -> Self:
        return _binary("bitwise_right_shift", self, other)

    def __rrshift__(self: Self, other: Any) -> Self:
        return _binary("bitwise_right_shift", other, self)

    def __eq__(self: Self, other: Any) -> Self:  # type: ignore[override]
        return _binary("equal", self, other)

    def __ne__(self: Self, other: Any) -> Self:  # type: ignore[override]
        return _binary("not_equal", self, other)

    def __lt__(self: Self, other: Any) -> Self:
        return _binary("less", self, other)

    def __le__(self: Self, other: Any) -> Self:
        return _binary("less_equal", self, other)

    def __gt__(self: Self, other: Any) -> Self:
        return _binary("greater", self, other)

    def __ge__(self: Self, other: Any) -> Self:
        return _binary("greater_equal", self, other)

    def __matmul__(self: Self, other: Any) -> Self:
        return _product(self, other)

    def __rmatmul__(self: Self, other: Any) -> Self:
        return _product(other, self)

    def __neg__(self: Self) -> Self:
        return type(self)(build.elementwise("negative", [self.node]))

    def __pos__(self: Self) -> Self:
        return type(self)(build.elementwise("positive", [self.node]))

    def __abs__(self: Self) -> Self:
        return type(self)(build.elementwise("abs", [self.node]))

    def __invert__(self: Self) -> Self:
        return type(self)(build.elementwise("bitwise_invert", [self.node]))

    def __truediv__(self: Self, other: Any) -> Self:
        return _lacks("true division")

    def __rtruediv__(self: Self, other: Any) -> Self:
        return _lacks("true division")

    def __pow__(self: Self, other: Any) -> Self:
        return _lacks("pow")

    def __rpow__(self: Self, other: Any) -> Self:
        return _lacks("pow")
