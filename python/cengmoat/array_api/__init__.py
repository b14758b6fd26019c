"""The namespace of the Python array API standard 2022.12, over lazy arrays of integers and truth values.

Functions have the standard's names and signatures, `maximum`, `minimum`, `clip` and `cumulative_sum` those of 2023.12; those
that make an array also take `chunks`. What the standard has and the program lacks raises NotImplementedError at the call.
"""
from ._constants import (
    e, inf, nan, newaxis, pi,
)
from ._creation import (
    arange, asarray, empty, empty_like, eye, from_dlpack, full, full_like, linspace, meshgrid, ones, ones_like, tril,
    triu, zeros, zeros_like,
)
from ._data_types import (
    astype, bool, broadcast_arrays, broadcast_to, can_cast, complex128, complex64, finfo, float32, float64, iinfo,
    int16, int32, int64, int8, isdtype, result_type, uint16, uint32, uint64, uint8,
)
from ._elementwise import (
    abs, acos, acosh, add, asin, asinh, atan, atan2, atanh, bitwise_and, bitwise_invert, bitwise_left_shift, bitwise_or,
    bitwise_right_shift, bitwise_xor, ceil, clip, conj, cos, cosh, divide, equal, exp, expm1, floor, floor_divide, greater,
    greater_equal, imag, isfinite, isinf, isnan, less, less_equal, log, log10, log1p, log2, logaddexp, logical_and,
    logical_not, logical_or, logical_xor, maximum, minimum, multiply, negative, not_equal, positive, pow, real, remainder, round, sign,
    sin, sinh, sqrt, square, subtract, tan, tanh, trunc,
)
from ._linear_algebra import (
    matmul, matrix_transpose, tensordot, vecdot,
)
from ._manipulation import (
    concat, expand_dims, flip, permute_dims, reshape, roll, squeeze, stack,
)
from ._searching import (
    argmax, argmin, argsort, nonzero, sort, take, unique_all, unique_counts, unique_inverse, unique_values, where,
)
from ._statistical import (
    cumulative_sum, max, mean, min, prod, std, sum, var,
)
from ._utility import (
    all, any,
)

__array_api_version__ = "2022.12"

__all__ = [
    "abs", "acos", "acosh", "add", "all", "any", "arange", "argmax", "argmin", "argsort", "asarray", "asin", "asinh",
    "astype", "atan", "atan2", "atanh", "bitwise_and", "bitwise_invert", "bitwise_left_shift", "bitwise_or",
    "bitwise_right_shift", "bitwise_xor", "bool", "broadcast_arrays", "broadcast_to", "can_cast", "ceil", "clip", "complex128",
    "complex64", "concat", "conj", "cos", "cosh", "cumulative_sum", "divide", "e", "empty", "empty_like", "equal", "exp", "expand_dims",
    "expm1", "eye", "finfo", "flip", "float32", "float64", "floor", "floor_divide", "from_dlpack", "full", "full_like",
    "greater", "greater_equal", "iinfo", "imag", "inf", "int16", "int32", "int64", "int8", "isdtype", "isfinite",
    "isinf", "isnan", "less", "less_equal", "linspace", "log", "log10", "log1p", "log2", "logaddexp", "logical_and",
    "logical_not", "logical_or", "logical_xor", "matmul", "matrix_transpose", "max", "maximum", "mean", "meshgrid", "min",
    "minimum", "multiply", "nan", "negative", "newaxis", "nonzero", "not_equal", "ones", "ones_like", "permute_dims", "pi",
    "positive", "pow", "prod", "real", "remainder", "reshape", "result_type", "roll", "round", "sign", "sin", "sinh",
    "sort", "sqrt", "square", "squeeze", "stack", "std", "subtract", "sum", "take", "tan", "tanh", "tensordot", "tril",
    "triu", "trunc", "uint16", "uint32", "uint64", "uint8", "unique_all", "unique_counts", "unique_inverse",
    "unique_values", "var", "vecdot", "where", "zeros", "zeros_like",
]


def __getattr__(name: str) -> object:
    """Return, of a function of NumPy that the standard hasn't, one that says what to write in its place (xarray asks for them)."""
    from .._refused import function

    if name == "cumsum":
        return lambda x, axis=None, dtype=None: x.cumsum(axis, dtype)
    found = function(name)
    if found is None:
        raise AttributeError(f"module {__name__!r} has no attribute {name!r}")
    return found
