"""What the functions of the namespace share: arguments as nodes, and the refusal of what the program lacks."""
from __future__ import annotations

from typing import Any, NoReturn, Union

import numpy as np

from .._array import Array
from .._dtypes import DType, Literal, NDArray, as_dtype, as_literal
from .._lines import with_line
from .._nodes import Node
from .._operators import memory_node, operand, scalar_node

Axes = Union[int, tuple[int, ...], None]
Argument = Union[Array, NDArray, Literal]
FLOATS = "it has no floats, but integers of 8 to 64 bits and truth values"
VALUES = "the shape would depend on values"


def lacks(name: str, why: str) -> NoReturn:
    """Refuse a function of the standard that the program hasn't, in one sentence."""
    raise NotImplementedError(with_line(f"the program has no {name}: {why}"))


def node_of(x: Any, what: str = "x") -> Node:
    """Return the node of an array.

    Raises
    ------
    TypeError
        Where it is neither a lazy array nor one of NumPy's.
    """
    if isinstance(x, Array):
        return x.node
    if isinstance(x, np.ndarray):
        return memory_node(x) if x.ndim else scalar_node(as_literal(x[()]), as_dtype(x.dtype))
    raise TypeError(f"{what} is an array, and not {type(x).__name__}: asarray makes one")


def node_or_literal(x: Any, what: str) -> Any:
    """Return an argument as a node or a written number, or refuse it with a TypeError."""
    found = operand(x)
    if found is NotImplemented:
        raise TypeError(f"{what} is an array or a number, and not {type(x).__name__}: asarray makes an array")
    return found


def check_device(device: Any) -> None:
    """Refuse a device but the one that there is, with a ValueError."""
    if device is not None and device != "cpu":
        raise ValueError(f"there is the device 'cpu' alone, and not {device!r}")


def made_dtype(dtype: Any, call: str) -> DType:
    """Return the type of a made array whose default in the standard is a float.

    Raises
    ------
    NotImplementedError
        Where none is given, or it is a float's.
    """
    if dtype is None:
        lacks("float64", f"the standard's default is one; say a type, as in {call}")
    return as_dtype(dtype)


def dtype_or(dtype: Any, default: DType) -> DType:
    """Return a type that is given, or the default."""
    return default if dtype is None else as_dtype(dtype)
