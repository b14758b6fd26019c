"""The element types of the program, their promotion, and numbers that are written in an expression."""
from __future__ import annotations

import operator
from typing import TYPE_CHECKING, Any, Union

import numpy as np

from ._lines import with_line

if TYPE_CHECKING:
    from numpy.typing import NDArray as _NDArray
    DType = np.dtype[Any]
    NDArray = _NDArray[Any]
else:
    DType, NDArray = np.dtype, np.ndarray

NAMES = ("bool", "int8", "int16", "int32", "int64", "uint8", "uint16", "uint32", "uint64")
BOOL = np.dtype("bool")
INT64 = np.dtype("int64")
UINT64 = np.dtype("uint64")
INTEGERS = tuple(np.dtype(name) for name in NAMES[1:])
ALL = (BOOL, *INTEGERS)

# A number that is written as an argument.
Literal = Union[bool, int]


def as_dtype(value: Any) -> DType:
    """Return the element type that a name, a NumPy type or a type object says.

    Raises
    ------
    NotImplementedError
        Where it is a type that the standard has and the program lacks: a float or a complex type.
    TypeError
        Where it is no such type.
    """
    try:
        dtype = np.dtype(value)
    except TypeError:
        dtype = None
    # (NumPy reads None as float64)
    if dtype is None or value is None:
        raise TypeError(f"{value!r} isn't an element type: it is one of {', '.join(NAMES)}")
    if dtype.kind in "fc":
        raise NotImplementedError(with_line(f"the program has no {dtype.name}: it has integers of 8 to 64 bits and truth values"))
    if dtype.name not in NAMES:
        raise TypeError(f"{dtype} isn't an element type of the program: it has {', '.join(NAMES)}")
    return dtype.newbyteorder("=")


def check_unmasked(value: Any) -> None:
    """Refuse an array whose elements may be masked, with a TypeError: no stored array has a mask."""
    if isinstance(value, np.ma.MaskedArray):
        raise TypeError("an array of numpy.ma has a mask, which a stored array hasn't: say which value stands for what is masked,"
                        " as in numpy.ma.filled(x, value)")


def promote(left: DType, right: DType) -> DType:
    """Return the least integer type that holds both types.

    Raises
    ------
    TypeError
        Of bool and an integer type, and of uint64 and a signed one, which have none.
    """
    if left == right:
        return left
    if BOOL in (left, right):
        other = right if left == BOOL else left
        raise TypeError(f"bool and {other} have no common type: convert one with astype")
    found = np.promote_types(left, right)
    if found.kind == "f":
        raise TypeError(f"{left} and {right} have no common type: convert one with astype")
    return found


def least(dtype: DType) -> int:
    """Return a type's least number."""
    return 0 if dtype == BOOL else int(np.iinfo(dtype).min)


def greatest(dtype: DType) -> int:
    """Return a type's greatest number."""
    return 1 if dtype == BOOL else int(np.iinfo(dtype).max)


def is_written(value: Any) -> bool:
    """Return whether a value may be written as an argument: an integer or a truth value, of Python or NumPy."""
    return isinstance(value, (bool, int, np.bool_, np.integer))


def as_literal(value: Any) -> Literal:
    """Return an integer or a truth value as Python's own.

    Raises
    ------
    TypeError
        Where it is neither, as a float.
    """
    if isinstance(value, (bool, np.bool_)):
        return bool(value)
    if isinstance(value, (int, np.integer)):
        return int(value)
    raise TypeError(f"{value!r} is neither an integer nor a truth value, and the program has nothing else")


def check_literal(value: Literal, dtype: DType, what: str) -> Literal:
    """Return a written number that meets an array of a type.

    Raises
    ------
    TypeError
        Where it is a truth value and the type is an integer type, or the other way round.
    ValueError
        Where it isn't a number of the type.
    """
    if isinstance(value, bool) != (dtype == BOOL):
        kind = "a truth value" if isinstance(value, bool) else "an integer"
        raise TypeError(f"{what}: {value!r} is {kind}, and it meets {dtype}: convert the array with astype")
    if not least(dtype) <= int(value) <= greatest(dtype):
        raise ValueError(f"{what}: {value} isn't in the range of {dtype}, which is from {least(dtype)} to {greatest(dtype)}:"
                         " convert the array to a wider type with astype")
    return value


def as_int(value: Any, what: str) -> int:
    """Return an integer of Python or NumPy as Python's own; a truth value, a float or anything else is a TypeError."""
    if isinstance(value, (bool, np.bool_)):
        raise TypeError(f"{what} is an integer, and not {value!r}")
    try:
        return operator.index(value)
    except TypeError:
        raise TypeError(f"{what} is an integer, and not {value!r}") from None
