"""The standard's elementwise functions. Each element of a result comes from the elements of the arguments at the same index."""
from __future__ import annotations

from typing import Any, Optional

from .. import _build as build, _extremes as extremes, _views as views
from .._array import Array
from .._dtypes import BOOL
from .._nodes import Node
from .._operators import of_float
from ._common import FLOATS, Argument, lacks, node_of, node_or_literal


def _one(op: str, x: Any) -> Array:
    """Return the array of a function of one argument."""
    return Array(build.elementwise(op, [node_of(x)]))


def _two(op: str, x1: Any, x2: Any) -> Array:
    """Return the array of a function of two arguments, one of which at least is an array."""
    found = of_float(op, x1, x2)
    if found is not None:
        return Array(found)
    args = [node_or_literal(x1, "x1"), node_or_literal(x2, "x2")]
    if not any(isinstance(arg, Node) for arg in args):
        raise TypeError(f"{op} takes an array, and not numbers alone: asarray makes one")
    return Array(build.elementwise(op, args))


def _extreme(op: str, x1: Any, x2: Any) -> Array:
    args = [node_or_literal(x1, "x1"), node_or_literal(x2, "x2")]
    if not any(isinstance(arg, Node) for arg in args):
        raise TypeError(f"{op} takes an array, and not numbers alone: asarray makes one")
    return Array(extremes.extreme(op, args))


def _same(op: str, x: Any) -> Array:
    """Return an array of integers as it is."""
    node = node_of(x)
    if node.dtype == BOOL:
        raise TypeError(f"{op} takes integers, and not bool: convert with astype")
    return Array(node)


def _everywhere(op: str, x: Any, value: bool) -> Array:
    """Return an array of one truth value, of the shape and chunks of an array of integers."""
    node = _same(op, x).node
    return Array(views.full(node.shape, value, BOOL, node.chunks))


def abs(x: Array, /) -> Array:
    """Return the absolute value, wrapped once."""
    return _one("abs", x)


def acos(x: Array, /) -> Array:
    """Refuse: there are no floats."""
    lacks("acos", FLOATS)


def acosh(x: Array, /) -> Array:
    """Refuse: there are no floats."""
    lacks("acosh", FLOATS)


def add(x1: Argument, x2: Argument, /) -> Array:
    """Return the sum x1 + x2, wrapped once."""
    return _two("add", x1, x2)


def asin(x: Array, /) -> Array:
    """Refuse: there are no floats."""
    lacks("asin", FLOATS)


def asinh(x: Array, /) -> Array:
    """Refuse: there are no floats."""
    lacks("asinh", FLOATS)


def atan(x: Array, /) -> Array:
    """Refuse: there are no floats."""
    lacks("atan", FLOATS)


def atan2(x1: Argument, x2: Argument, /) -> Array:
    """Refuse: there are no floats."""
    lacks("atan2", FLOATS)


def atanh(x: Array, /) -> Array:
    """Refuse: there are no floats."""
    lacks("atanh", FLOATS)


def bitwise_and(x1: Argument, x2: Argument, /) -> Array:
    """Return the bits that both have."""
    return _two("bitwise_and", x1, x2)


def bitwise_invert(x: Array, /) -> Array:
    """Return the bits inverted."""
    return _one("bitwise_invert", x)


def bitwise_left_shift(x1: Argument, x2: Argument, /) -> Array:
    """Return x1 shifted left by x2 bits, and 0 where x2 is negative or the width or more."""
    return _two("bitwise_left_shift", x1, x2)


def bitwise_or(x1: Argument, x2: Argument, /) -> Array:
    """Return the bits that one or both have."""
    return _two("bitwise_or", x1, x2)


def bitwise_right_shift(x1: Argument, x2: Argument, /) -> Array:
    """Return x1 shifted right by x2 bits; where x2 is negative or the width or more, -1 of a negative number, else 0."""
    return _two("bitwise_right_shift", x1, x2)


def bitwise_xor(x1: Argument, x2: Argument, /) -> Array:
    """Return the bits that one alone has."""
    return _two("bitwise_xor", x1, x2)


def ceil(x: Array, /) -> Array:
    """Return the least whole number at least x, which of an integer is the integer."""
    return _same("ceil", x)


def clip(x: Array, /, min: Optional[Argument] = None, max: Optional[Argument] = None) -> Array:
    """Return the lesser of max and the greater of min and x; None is no bound. (Of the standard 2023.12.)"""
    bounds = [None if bound is None else node_or_literal(bound, name) for name, bound in (("min", min), ("max", max))]
    return Array(extremes.clip(node_of(x), *bounds))


def conj(x: Array, /) -> Array:
    """Refuse: there are no floats."""
    lacks("conj", FLOATS)


def cos(x: Array, /) -> Array:
    """Refuse: there are no floats."""
    lacks("cos", FLOATS)


def cosh(x: Array, /) -> Array:
    """Refuse: there are no floats."""
    lacks("cosh", FLOATS)


def divide(x1: Argument, x2: Argument, /) -> Array:
    """Refuse: there are no floats."""
    lacks("divide", FLOATS)


def equal(x1: Argument, x2: Argument, /) -> Array:
    """Return whether x1 is x2."""
    return _two("equal", x1, x2)


def exp(x: Array, /) -> Array:
    """Refuse: there are no floats."""
    lacks("exp", FLOATS)


def expm1(x: Array, /) -> Array:
    """Refuse: there are no floats."""
    lacks("expm1", FLOATS)


def floor(x: Array, /) -> Array:
    """Return the greatest whole number at most x, which of an integer is the integer."""
    return _same("floor", x)


def floor_divide(x1: Argument, x2: Argument, /) -> Array:
    """Return the greatest whole number at most x1 / x2, and 0 where x2 is 0."""
    return _two("floor_divide", x1, x2)


def greater(x1: Argument, x2: Argument, /) -> Array:
    """Return whether x1 is greater than x2."""
    return _two("greater", x1, x2)


def greater_equal(x1: Argument, x2: Argument, /) -> Array:
    """Return whether x1 is at least x2."""
    return _two("greater_equal", x1, x2)


def imag(x: Array, /) -> Array:
    """Refuse: there are no floats."""
    lacks("imag", FLOATS)


def isfinite(x: Array, /) -> Array:
    """Return True everywhere, since integers are finite numbers."""
    return _everywhere("isfinite", x, True)


def isinf(x: Array, /) -> Array:
    """Return False everywhere, since integers are finite numbers."""
    return _everywhere("isinf", x, False)


def isnan(x: Array, /) -> Array:
    """Return False everywhere, since integers are finite numbers."""
    return _everywhere("isnan", x, False)


def less(x1: Argument, x2: Argument, /) -> Array:
    """Return whether x1 is less than x2."""
    return _two("less", x1, x2)


def less_equal(x1: Argument, x2: Argument, /) -> Array:
    """Return whether x1 is at most x2."""
    return _two("less_equal", x1, x2)


def log(x: Array, /) -> Array:
    """Refuse: there are no floats."""
    lacks("log", FLOATS)


def log10(x: Array, /) -> Array:
    """Refuse: there are no floats."""
    lacks("log10", FLOATS)


def log1p(x: Array, /) -> Array:
    """Refuse: there are no floats."""
    lacks("log1p", FLOATS)


def log2(x: Array, /) -> Array:
    """Refuse: there are no floats."""
    lacks("log2", FLOATS)


def logaddexp(x1: Argument, x2: Argument, /) -> Array:
    """Refuse: there are no floats."""
    lacks("logaddexp", FLOATS)


def logical_and(x1: Argument, x2: Argument, /) -> Array:
    """Return whether both are true."""
    return _two("logical_and", x1, x2)


def logical_not(x: Array, /) -> Array:
    """Return whether x is false."""
    return _one("logical_not", x)


def logical_or(x1: Argument, x2: Argument, /) -> Array:
    """Return whether one or both are true."""
    return _two("logical_or", x1, x2)


def logical_xor(x1: Argument, x2: Argument, /) -> Array:
    """Return whether one alone is true."""
    return _two("logical_xor", x1, x2)


def maximum(x1: Argument, x2: Argument, /) -> Array:
    """Return the greater of x1 and x2. (Of the standard 2023.12.)"""
    return _extreme("maximum", x1, x2)


def minimum(x1: Argument, x2: Argument, /) -> Array:
    """Return the lesser of x1 and x2. (Of the standard 2023.12.)"""
    return _extreme("minimum", x1, x2)


def multiply(x1: Argument, x2: Argument, /) -> Array:
    """Return the product x1 * x2, wrapped once."""
    return _two("multiply", x1, x2)


def negative(x: Array, /) -> Array:
    """Return the number with the other sign, wrapped once."""
    return _one("negative", x)


def not_equal(x1: Argument, x2: Argument, /) -> Array:
    """Return whether x1 isn't x2."""
    return _two("not_equal", x1, x2)


def positive(x: Array, /) -> Array:
    """Return the same number."""
    return _one("positive", x)


def pow(x1: Argument, x2: Argument, /) -> Array:
    """Refuse: there are no floats."""
    lacks("pow", FLOATS)


def real(x: Array, /) -> Array:
    """Refuse: there are no floats."""
    lacks("real", FLOATS)


def remainder(x1: Argument, x2: Argument, /) -> Array:
    """Return what is left of x1 by x2, with the sign of x2, and 0 where x2 is 0."""
    return _two("remainder", x1, x2)


def round(x: Array, /) -> Array:
    """Return the nearest whole number, which of an integer is the integer."""
    return _same("round", x)


def sign(x: Array, /) -> Array:
    """Return -1, 0 or 1 by the sign."""
    return _one("sign", x)


def sin(x: Array, /) -> Array:
    """Refuse: there are no floats."""
    lacks("sin", FLOATS)


def sinh(x: Array, /) -> Array:
    """Refuse: there are no floats."""
    lacks("sinh", FLOATS)


def sqrt(x: Array, /) -> Array:
    """Refuse: there are no floats."""
    lacks("sqrt", FLOATS)


def square(x: Array, /) -> Array:
    """Return the square, wrapped once."""
    return _one("square", x)


def subtract(x1: Argument, x2: Argument, /) -> Array:
    """Return the difference x1 - x2, wrapped once."""
    return _two("subtract", x1, x2)


def tan(x: Array, /) -> Array:
    """Refuse: there are no floats."""
    lacks("tan", FLOATS)


def tanh(x: Array, /) -> Array:
    """Refuse: there are no floats."""
    lacks("tanh", FLOATS)


def trunc(x: Array, /) -> Array:
    """Return the whole number nearest to x towards 0, which of an integer is the integer."""
    return _same("trunc", x)
