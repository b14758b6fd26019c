"""NumPy's values of each operator, and of a view the place in its arguments from which each element comes."""
import numpy

import operators
from rules import FUNCTIONS

NAMES = {"bitwise_left_shift": "left_shift", "bitwise_right_shift": "right_shift", "bitwise_invert": "invert"}
CONSTANT = -1


def elementwise(node, args, dtype):
    values = args[1:] if node["op"] == "where" else args
    shared = numpy.result_type(*[value.dtype for value in values if isinstance(value, numpy.ndarray)])
    values = [numpy.asarray(value, shared) for value in values]
    with numpy.errstate(all="ignore"):
        if node["op"] == "where":
            return numpy.where(args[0], *values)
        if node["op"] == "astype":
            return values[0].astype(dtype)
        if node["op"] == "clip":
            bounds = [numpy.asarray(node[name], shared) for name in ("min", "max")]
            return numpy.clip(values[0], *bounds)
        return getattr(numpy, NAMES.get(node["op"], node["op"]))(*values)


def diagonal(k):
    """A diagonal that is as far off as any that NumPy is asked for."""
    return max(-(1 << 20), min(1 << 20, k))


def made(node):
    if node["op"] == "full":
        return numpy.full(node["shape"], node["value"], node["dtype"])
    if node["op"] == "arange":
        return numpy.array([node["start"] + i * node["step"] for i in range(operators.arange_count(node))], node["dtype"])
    return numpy.eye(node["rows"], node["cols"], diagonal(node["k"]), node["dtype"])


def entry(item):
    if item == "new":
        return None
    if item == "...":
        return Ellipsis
    return item if type(item) is int else slice(item.get("start"), item.get("stop"), item.get("step"))


def viewed(node, args):
    """Returns a view of arrays, of which those of several have one type."""
    op, array = node["op"], args[0]
    if op in ("tril", "triu"):
        return getattr(numpy, op)(array, diagonal(node["k"]))
    if op == "index":
        return array[tuple(map(entry, node["index"]))]
    if op == "concat":
        return numpy.concatenate(args, node["axis"])
    if op == "stack":
        return numpy.stack(args, node["axis"])
    if op == "permute_dims":
        return numpy.transpose(array, node["axes"])
    if op == "reshape":
        return numpy.reshape(array, node["shape"])
    if op == "expand_dims":
        return numpy.expand_dims(array, node["axis"])
    if op == "squeeze":
        return numpy.squeeze(array, tuple(node["axes"]))
    if op == "flip":
        axes = node.get("axes")
        return numpy.flip(array, None if axes is None else tuple(axes))
    if op == "roll":
        # NumPy's shifts are machine words: those of the sizes are the same.
        shifts = [shift % max(1, array.shape[axis]) for shift, axis in zip(node["shifts"], node["axes"])]
        return numpy.roll(array, shifts, tuple(node["axes"])) if shifts else array
    return numpy.broadcast_to(array, node["shape"]) if op == "broadcast_to" else array


def reduced(node, array, dtype):
    op, keeps = node["op"], node.get("keepdims", False)
    if op in ("argmin", "argmax"):
        return getattr(numpy, op)(array, axis=node.get("axis"), keepdims=keeps)
    axes = node.get("axes")
    axes = None if axes is None else tuple(axes)
    if op in ("sum", "prod"):
        return getattr(numpy, op)(array, axis=axes, dtype=dtype, keepdims=keeps)
    return getattr(numpy, op)(array, axis=axes, keepdims=keeps)


def grouped(node, array, labels, dtype):
    """Returns the sums or the least numbers of the elements of each label, each label by itself."""
    least = node["op"] == "groupby_min"
    axis = node["axis"] % array.ndim
    moved, numbers = numpy.moveaxis(array.astype(dtype), axis, 0), labels.astype(object)
    found = numpy.full((node["groups"], *moved.shape[1:]), numpy.iinfo(dtype).max if least else 0, dtype)
    for label in {number for number in numbers.tolist() if 0 <= number < node["groups"]}:
        own = moved[numbers == label]
        found[label] = own.min(axis=0) if least else own.sum(axis=0, dtype=dtype)
    return numpy.moveaxis(found, 0, axis)


def value(node, args, dtype):
    """Returns the elements of a node over those of its arguments, of which literals are numbers."""
    op = node["op"]
    if op in FUNCTIONS:
        result = elementwise(node, args, dtype)
    elif op in operators.CREATION:
        result = made(node)
    elif op in operators.VIEWS or op == "rechunk":
        result = viewed(node, [arg.astype(dtype) for arg in args] if op in ("concat", "stack") else args)
    elif op == "cumulative_sum":
        result = numpy.cumsum(args[0], axis=node.get("axis"), dtype=dtype)
    elif op in operators.GROUPS:
        result = grouped(node, *args, dtype)
    elif op == "matmul":
        result = numpy.matmul(args[0].astype(dtype), args[1].astype(dtype))
    else:
        result = reduced(node, args[0], dtype)
    return numpy.array(numpy.asarray(result, dtype))


def origins(node, shapes):
    """Returns of each element of a view the argument and the row-major place in it from which it comes, or `CONSTANT`.

    They are given as one number: the places of the arguments before are counted on.
    """
    if not shapes:
        return None
    starts = [sum(int(numpy.prod(before, dtype=object)) for before in shapes[:at]) for at in range(len(shapes))]
    numbered = [start + numpy.arange(numpy.prod(shape, dtype=int)).reshape(shape) for start, shape in zip(starts, shapes)]
    # A triangle's other elements are 0: counted from 1, no place is.
    return viewed(node, [numbers + 1 for numbers in numbered]) - 1
