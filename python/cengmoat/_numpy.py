"""NumPy's own functions of lazy arrays: they stay lazy, or say what to write in their place. None computes."""
from __future__ import annotations

import inspect
from typing import TYPE_CHECKING, Any, Callable, Iterable, Optional, Sequence

import numpy as np

from . import _build as build, _views as views
from ._dtypes import BOOL, as_int, as_literal
from ._lines import line_of_caller
from ._nodes import Node
from ._refused import WAYS, refuse
from ._shapes import one_axis

if TYPE_CHECKING:
    from ._array import Array

# The functions of one or two arguments by the names that they have in the namespace of the standard.
UFUNCS: dict[np.ufunc, str] = {
    np.add: "add", np.subtract: "subtract", np.multiply: "multiply", np.floor_divide: "floor_divide", np.remainder: "remainder",
    np.bitwise_and: "bitwise_and", np.bitwise_or: "bitwise_or", np.bitwise_xor: "bitwise_xor", np.invert: "bitwise_invert",
    np.left_shift: "bitwise_left_shift", np.right_shift: "bitwise_right_shift", np.equal: "equal", np.not_equal: "not_equal",
    np.less: "less", np.less_equal: "less_equal", np.greater: "greater", np.greater_equal: "greater_equal",
    np.logical_and: "logical_and", np.logical_or: "logical_or", np.logical_xor: "logical_xor", np.logical_not: "logical_not",
    np.absolute: "abs", np.negative: "negative", np.positive: "positive", np.square: "square", np.sign: "sign", np.matmul: "matmul",
    np.isnan: "isnan", np.isinf: "isinf", np.isfinite: "isfinite", np.floor: "floor", np.ceil: "ceil", np.trunc: "trunc",
    np.maximum: "maximum", np.minimum: "minimum",
}
REDUCED: dict[np.ufunc, str] = {
    np.add: "sum", np.multiply: "prod", np.minimum: "min", np.maximum: "max", np.logical_and: "all", np.logical_or: "any",
}
# What an operator stands for, where a ufunc isn't there.
OPERATORS = {"true_divide": "x // y", "divide": "x // y", "power": "x * x", "float_power": "x * x", "fmod": "x % y",
             "fmax": "numpy.maximum(x, y)", "fmin": "numpy.minimum(x, y)"}


def _namespace() -> Any:
    from . import array_api
    return array_api


def call_ufunc(ufunc: np.ufunc, method: str, inputs: Sequence[Any], options: dict[str, Any]) -> Any:
    """Return the lazy array of a ufunc, or NotImplemented where an operand isn't known.

    Raises
    ------
    TypeError
        Where an array in memory would be changed, or an option isn't one of lazy arrays.
    NotImplementedError
        Where there is no such function.
    """
    from ._operators import of_float, operand
    if any(it is not None for it in options.pop("out", ())):
        raise TypeError(f"an array in memory isn't changed by a lazy one: x.compute() computes it, as in {ufunc.__name__}(a, x.compute(), out=a)")
    if method == "reduce" and ufunc in REDUCED:
        return getattr(inputs[0], REDUCED[ufunc])(**{"axis": 0, **options})
    name = ufunc.__name__ if method == "__call__" else f"{ufunc.__name__}.{method}"
    if options:
        raise TypeError(f"numpy.{name} of lazy arrays has no {', '.join(options)}: x.astype converts, and xp.where chooses")
    found = of_float(UFUNCS.get(ufunc, ""), *inputs) if method == "__call__" and len(inputs) == 2 else None
    if found is not None:
        return _array(found)
    if any(operand(it) is NotImplemented for it in inputs):
        return NotImplemented
    if method == "__call__" and ufunc is np.divmod:
        return call_ufunc(np.floor_divide, method, inputs, {}), call_ufunc(np.remainder, method, inputs, {})
    if method != "__call__" or ufunc not in UFUNCS:
        _refuse_ufunc(name)
    return getattr(_namespace(), UFUNCS[ufunc])(*inputs)


def _refuse_ufunc(name: str) -> None:
    if name in OPERATORS:
        raise NotImplementedError(f"there is no lazy {name}. Nothing was computed. Write {OPERATORS[name]}, or numpy.{name}(x.compute(), ..)")
    refuse(name)


def _array(node: Node) -> Array:
    from ._array import Array
    return Array(node)


def _node(x: Any) -> Node:
    from .array_api._common import node_of
    return node_of(x if hasattr(x, "node") or isinstance(x, np.ndarray) else np.asarray(x))


def _truth(x: Any) -> Array:
    node = _node(x)
    return _array(node if node.dtype == BOOL else build.elementwise("not_equal", [node, 0]))


def _where(condition: Any, x: Any = None, y: Any = None) -> Any:
    if x is None or y is None:
        refuse("nonzero")
    return _namespace().where(_truth(condition), x, y)


def _concatenate(arrays: Iterable[Any], axis: Optional[int] = 0) -> Array:
    return _namespace().concat([_array(_node(x)) for x in arrays], axis=axis)


def _stack(arrays: Iterable[Any], axis: int = 0) -> Array:
    return _namespace().stack([_array(_node(x)) for x in arrays], axis=axis)


def _rows(x: Any) -> Array:
    node = _node(x)
    return _array(views.reshape(node, (1, -1)) if len(node.shape) < 2 else node)


def _hstack(arrays: Iterable[Any]) -> Array:
    found = [_array(_node(x)) for x in arrays]
    found = [x if x.ndim else x.reshape(1) for x in found]
    return _namespace().concat(found, axis=0 if found[0].ndim == 1 else 1)


def _diff(a: Any, n: int = 1, axis: int = -1) -> Array:
    """Return the differences of neighbours along an axis, n times; of truth values whether they differ."""
    node = _node(a)
    at = one_axis(axis, len(node.shape))
    if as_int(n, "n") < 0:
        raise ValueError(f"diff: n is at least 0, and not {n}")
    op = "not_equal" if node.dtype == BOOL else "subtract"
    for _ in range(n):
        later, earlier = (views.index(node, (*[slice(None)] * at, part)) for part in (slice(1, None), slice(None, -1)))
        node = build.elementwise(op, [later, earlier])
    return _array(node)


def _clip(a: Any, a_min: Any = None, a_max: Any = None, *, min: Any = None, max: Any = None) -> Array:
    return _namespace().clip(_array(_node(a)), min if a_min is None else a_min, max if a_max is None else a_max)


def _moved(x: Any, source: Any, destination: Any) -> Array:
    node = _node(x)
    ndim = len(node.shape)
    froms, tos = ([one_axis(at, ndim) for at in (it if isinstance(it, (tuple, list)) else (it,))] for it in (source, destination))
    order = [at for at in range(ndim) if at not in froms]
    for to, at in sorted(zip(tos, froms)):
        order.insert(to, at)
    return _array(views.permute_dims(node, tuple(order)))


def _dot(a: Any, b: Any) -> Array:
    one, other = _node(a), _node(b)
    if not one.shape or not other.shape:
        return _namespace().multiply(_array(one), _array(other))
    if len(other.shape) > 2:
        refuse("dot")
    return _array(build.matmul(one, other))


def _reduction(name: str) -> Callable[..., Any]:
    def call(a: Any, axis: Any = None, **options: Any) -> Any:
        return getattr(_array(_node(a)), name)(axis, **options)

    return call


def _like(name: str) -> Callable[..., Any]:
    def call(a: Any, *args: Any, dtype: Any = None, order: str = "K", subok: bool = True, shape: Any = None) -> Any:
        if shape is not None:
            raise TypeError(f"{name} of a lazy array has its shape: see xp.full")
        return getattr(_namespace(), name)(_array(_node(a)), *args, dtype=dtype)

    return call


def _round(a: Any, decimals: int = 0) -> Array:
    if decimals < 0:
        refuse("round")
    return _namespace().round(_array(_node(a)))


def _stand_in(node: Node) -> Any:
    """Return an array in memory that NumPy promotes as it would the lazy one: of a written number it looks at the value."""
    if node.op == "full" and not node.shape:
        return np.array(node.members["value"], node.dtype)
    return np.empty((0,) * max(1, len(node.shape)), node.dtype)


def _labels(text: str, ndim: int) -> list[str]:
    """Return a label for each axis of an operand of `einsum`; those of an ellipsis count from the last."""
    head, dots, tail = text.partition("...")
    rest = ndim - len(head) - len(tail)
    if rest < 0 or (rest and not dots):
        raise ValueError(f"einsum: {text!r} isn't of {ndim} axes")
    return [*head, *(f".{at}" for at in reversed(range(rest))), *tail]


def _einsum(subscripts: str, *operands: Any, **options: Any) -> Array:
    """Return products of elements, summed over the labels that the result hasn't; exact, and wrapped to the common type."""
    left, arrow, right = subscripts.replace(" ", "").partition("->")
    nodes = [_node(it) for it in operands]
    texts = left.split(",")
    if not arrow or len(texts) != len(nodes) or not set(options) <= {"optimize"}:
        refuse("einsum")
    labels = [_labels(text, len(node.shape)) for text, node in zip(texts, nodes)]
    dots = max((label for it in labels for label in it if label[0] == "."), key=lambda label: int(label[1:]), default="")
    out = _labels(right, len(right.replace("...", "")) + (int(dots[1:]) + 1 if dots and "..." in right else 0))
    order = [*out, *dict.fromkeys(label for it in labels for label in it if label not in out)]
    if any(len(set(it)) != len(it) for it in [*labels, out]) or len(order) > 6 or any(node.dtype == BOOL for node in nodes):
        refuse("einsum")
    found = _array(_spread(nodes[0], labels[0], order))
    for node, its in zip(nodes[1:], labels[1:]):
        found = found * _array(_spread(node, its, order))
    summed = tuple(range(len(out), len(order)))
    return found.sum(summed).astype(found.dtype) if summed else found


def _spread(node: Node, labels: Sequence[str], order: Sequence[str]) -> Node:
    """Return an operand with its axes in an order of labels, and axes of size 1 where it hasn't one."""
    node = views.permute_dims(node, tuple(labels.index(label) for label in order if label in labels))
    for at, label in enumerate(order):
        if label not in labels:
            node = views.expand_dims(node, at)
    return node


def _pad(array: Any, pad_width: Any, mode: str = "constant", constant_values: Any = 0) -> Array:
    """Return an array with so many elements of one value before and behind it along each axis."""
    node = _node(array)
    if hasattr(pad_width, "node") or hasattr(constant_values, "node"):
        raise TypeError("numpy.pad: pad_width and constant_values are numbers, and not lazy arrays")
    value = np.asarray(constant_values)
    if mode != "constant" or value.size != 1:
        refuse("pad")
    counts = np.asarray(pad_width)
    if counts.dtype.kind not in "iu":
        raise TypeError(f"numpy.pad: pad_width is integers, and not {pad_width!r}")
    if counts.min(initial=0) < 0:
        raise ValueError(f"numpy.pad: pad_width {pad_width!r} has a negative number")
    widths = np.broadcast_to(counts, (len(node.shape), 2)).tolist()
    for at, (before, behind) in enumerate(widths):
        parts = [node if count is None else
                 views.full((*node.shape[:at], count, *node.shape[at + 1:]), as_literal(value.reshape(())[()]), node.dtype, node.chunks)
                 for count in (before, None, behind) if count != 0]
        node = views.concat(parts, at)
    return _array(node)


def _known() -> dict[Any, Callable[..., Any]]:
    """Return what stands for each function of NumPy."""
    def turned(a: Any, axes: Any = None) -> Array:
        return _array(_node(a)).transpose(axes)

    found: dict[Any, Callable[..., Any]] = {getattr(np, name): _reduction(its) for name, its in (
        ("sum", "sum"), ("prod", "prod"), ("any", "any"), ("all", "all"), ("argmin", "argmin"), ("argmax", "argmax"),
        ("min", "min"), ("amin", "min"), ("max", "max"), ("amax", "max"))}
    found |= {getattr(np, name): _like(name) for name in ("zeros_like", "ones_like", "empty_like", "full_like")}
    found |= {
        np.where: _where, np.concatenate: _concatenate, np.stack: _stack, np.hstack: _hstack, np.diff: _diff, np.dot: _dot,
        np.vstack: lambda tup: _concatenate([_rows(x) for x in tup]), np.transpose: turned, np.moveaxis: _moved,
        np.swapaxes: lambda a, axis1, axis2: _array(_node(a)).swapaxes(axis1, axis2),
        np.clip: _clip, np.around: _round, np.round: _round,
        np.reshape: lambda a, shape=None, newshape=None: _array(views.reshape(_node(a), newshape if shape is None else shape)),
        np.ravel: lambda a: _array(views.reshape(_node(a), (-1,))),
        np.squeeze: lambda a, axis=None: _array(_node(a)).squeeze(axis), np.expand_dims: lambda a, axis: _array(_node(a)).expand_dims(axis),
        np.flip: lambda m, axis=None: _array(views.flip(_node(m), axis)), np.flipud: lambda m: _array(views.flip(_node(m), 0)),
        np.fliplr: lambda m: _array(views.flip(_node(m), 1)), np.roll: lambda a, shift, axis=None: _array(views.roll(_node(a), shift, axis)),
        np.broadcast_to: lambda array, shape: _array(views.broadcast_to(_node(array), shape)),
        np.broadcast_arrays: lambda *args: _namespace().broadcast_arrays(*(_array(_node(x)) for x in args)),
        np.tril: lambda m, k=0: _array(views.triangle("tril", _node(m), k)), np.triu: lambda m, k=0: _array(views.triangle("triu", _node(m), k)),
        np.tensordot: lambda a, b, axes=2: _namespace().tensordot(_array(_node(a)), _array(_node(b)), axes=axes),
        np.count_nonzero: lambda a, axis=None, *, keepdims=False: _truth(a).sum(axis, keepdims=keepdims),
        np.cumsum: lambda a, axis=None, dtype=None: _array(_node(a)).cumsum(axis, dtype), np.copy: lambda a: _array(_node(a)), np.shape: lambda a: a.shape, np.ndim: lambda a: a.ndim,
        np.size: lambda a, axis=None: a.size if axis is None else a.shape[axis], np.iscomplexobj: lambda x: False, np.isrealobj: lambda x: True,
        np.result_type: lambda *them: np.result_type(*(_stand_in(it.node) if hasattr(it, "node") else it for it in them)),
        np.einsum: _einsum, np.pad: _pad, np.take: lambda a, indices, axis=None, mode="raise": _array(_node(a)).take(indices, axis, None, mode),
        np.can_cast: lambda from_, to, casting="safe": np.can_cast(from_.dtype, to, casting),
        np.isreal: lambda x: _namespace().ones_like(x, dtype="bool"),
    }
    return found


_KNOWN: dict[Any, Callable[..., Any]] = {}


def call_function(function: Callable[..., Any], args: Sequence[Any], options: dict[str, Any]) -> Any:
    """Return what a function of NumPy gives of lazy arrays.

    Raises
    ------
    TypeError
        Where an argument isn't one that lazy arrays have.
    NotImplementedError
        Where there is no such function; it says what to write.
    """
    if not _KNOWN:
        _KNOWN.update(_known())
    known = _KNOWN.get(function)
    name = function.__name__
    name = {"amin": "min", "amax": "max"}.get(name, name)
    if known is None:
        module = getattr(function, "__module__", "numpy") or "numpy"
        if name in WAYS or module == "numpy":
            refuse(name)
        line = line_of_caller() or f"{module}.{name}(x.compute(), ..)"
        raise NotImplementedError(f"there is no lazy {module}.{name}. Nothing was computed. Write {line}")
    if options.get("out") is not None:
        raise TypeError(f"numpy.{name}: an array in memory isn't changed by a lazy one")
    options = {option: value for option, value in options.items() if option != "out"}
    try:
        inspect.signature(known).bind(*args, **options)
    except TypeError as error:
        raise TypeError(f"numpy.{name} of lazy arrays: {error}") from None
    return known(*args, **options)
