"""Types, shapes and chunk shapes of the operators that aren't elementwise, read anew from the Python array API standard and this
project's rules: arrays that are made, views, reductions, prefix sums, groups by labels and matrix products. Each function takes a node
and what is known of its arguments (a type, a shape and a chunk shape), and returns the same of the result, or the code of the node's first
fault.

Nothing here comes from the program. compare/rules.py uses it.
"""
import math

from limits import MOST_CHUNK_BYTES, SIZES, broadcast, chunk_for, is_value, limit_place, limits, promoted, whole

WIDE = {False: "int64", True: "uint64"}


def limited(dtype, shape, chunk):
    return 7 if limit_place(shape, chunk, SIZES[dtype]) else (dtype, list(shape), list(chunk))


def axis_in(axis, rank):
    """Returns the axis counted from the front, or nothing."""
    return axis % rank if -rank <= axis < rank else None


def axes_in(axes, rank):
    """Returns distinct axes counted from the front, or nothing."""
    found = [axis_in(axis, rank) if rank else None for axis in (range(rank) if axes is None else axes)]
    return None if None in found or len(set(found)) < len(found) else found


# Arrays that are made

def full(node, args):
    if not is_value(node["dtype"], node["value"]):
        return 5
    return 2 if len(node["chunk"]) != len(node["shape"]) else limited(node["dtype"], node["shape"], node["chunk"])


def arange_count(node):
    return max(0, -(-(node["stop"] - node["start"]) // node["step"]))


def arange(node, args):
    if node["dtype"] == "bool":
        return 6
    if node["step"] == 0:
        return 9
    count = arange_count(node)
    ends = [node["start"], node["start"] + (count - 1) * node["step"]] if count else []
    if not all(whole(*limits(node["dtype"]))(value) for value in ends):
        return 5
    return 2 if len(node["chunk"]) != 1 else limited(node["dtype"], [count], node["chunk"])


def eye(node, args):
    if node["dtype"] == "bool":
        return 6
    return 2 if len(node["chunk"]) != 2 else limited(node["dtype"], [node["rows"], node["cols"]], node["chunk"])


# Views of one array

def triangle(node, args):
    return args[0] if len(args[0][1]) >= 2 else 3


def entries_of(items, rank):
    """Returns the entries with a full slice for each axis that no entry takes, or nothing where that can't be done."""
    taking = sum(item not in ("new", "...") for item in items)
    if items.count("...") > 1 or taking > rank:
        return None
    rest = [{}] * (rank - taking)
    at = items.index("...") if "..." in items else len(items)
    return items[:at] + rest + items[at + 1:]


def index(node, args):
    dtype, shape, chunk = args[0]
    items = entries_of(node["index"], len(shape))
    if items is None:
        return 9
    sizes, sides, axis = [], [], 0
    for item in items:
        if item == "new":
            sizes.append(1)
            sides.append(1)
            continue
        if type(item) is int:
            if not -shape[axis] <= item < shape[axis]:
                return 9
        else:
            if item.get("step") == 0:
                return 9
            count = len(range(*slice(item.get("start"), item.get("stop"), item.get("step")).indices(shape[axis])))
            sizes.append(count)
            sides.append(min(chunk[axis], max(1, count)))
        axis += 1
    return limited(dtype, sizes, sides)


def permute_dims(node, args):
    dtype, shape, chunk = args[0]
    axes = node["axes"]
    return (dtype, [shape[a] for a in axes], [chunk[a] for a in axes]) if sorted(axes) == list(range(len(shape))) else 3


def reshape(node, args):
    dtype, source, chunk = args[0]
    shape, count = list(node["shape"]), math.prod(source)
    if -1 in shape:
        others = math.prod(size for size in shape if size != -1)
        if others == 0 or count % others:
            return 8
        shape[shape.index(-1)] = count // others
    elif math.prod(shape) != count:
        return 8
    left, sides = math.prod(chunk), []
    for size in reversed(shape):
        sides.append(min(max(1, size), max(1, left)))
        left //= sides[-1]
    return limited(dtype, shape, sides[::-1])


def expand_dims(node, args):
    dtype, shape, chunk = args[0]
    axis = axis_in(node["axis"], len(shape) + 1)
    if axis is None:
        return 3
    return limited(dtype, shape[:axis] + [1] + shape[axis:], chunk[:axis] + [1] + chunk[axis:])


def squeeze(node, args):
    dtype, shape, chunk = args[0]
    axes = axes_in(node["axes"], len(shape))
    if axes is None or any(shape[axis] != 1 for axis in axes):
        return 3
    return limited(dtype, *[[side for k, side in enumerate(sides) if k not in axes] for sides in (shape, chunk)])


def flip(node, args):
    return args[0] if axes_in(node.get("axes"), len(args[0][1])) is not None else 3


def roll(node, args):
    is_fit = len(node["shifts"]) == len(node["axes"]) and axes_in(node["axes"], len(args[0][1])) is not None
    return args[0] if is_fit else 3


def broadcast_to(node, args):
    dtype, shape, _ = args[0]
    if broadcast([shape, node["shape"]]) != node["shape"] or len(node["chunk"]) != len(node["shape"]):
        return 2
    return limited(dtype, node["shape"], node["chunk"])


def rechunk(node, args):
    dtype, shape, _ = args[0]
    return 2 if len(node["chunk"]) != len(shape) else limited(dtype, shape, node["chunk"])


# Views of several arrays

def joined_type(args):
    dtype = args[0][0]
    for other, _, _ in args[1:]:
        dtype = dtype and promoted(dtype, other)
    return dtype


def concat(node, args):
    dtype, (_, shape, chunk) = joined_type(args), args[0]
    if dtype is None:
        return 1
    axis = axis_in(node["axis"], len(shape))
    if axis is None:
        return 3
    if any(len(sizes) != len(shape) or sizes[:axis] + sizes[axis + 1:] != shape[:axis] + shape[axis + 1:] for _, sizes, _ in args):
        return 2
    return limited(dtype, shape[:axis] + [sum(sizes[axis] for _, sizes, _ in args)] + shape[axis + 1:], chunk)


def stack(node, args):
    dtype, (_, shape, chunk) = joined_type(args), args[0]
    if dtype is None:
        return 1
    axis = axis_in(node["axis"], len(shape) + 1)
    if axis is None:
        return 3
    if any(sizes != shape for _, sizes, _ in args):
        return 2
    return limited(dtype, shape[:axis] + [len(args)] + shape[axis:], chunk[:axis] + [1] + chunk[axis:])


# Reductions and products

def without(axes, keeps, shape, chunk):
    if keeps:
        return [[1 if k in axes else side for k, side in enumerate(sides)] for sides in (shape, chunk)]
    return [[side for k, side in enumerate(sides) if k not in axes] for sides in (shape, chunk)]


def reduce(node, args):
    """Sums, products, least and greatest, any and all."""
    dtype, shape, chunk = args[0]
    if dtype == "bool" and node["op"] not in ("any", "all"):
        return 6
    axes = axes_in(node.get("axes"), len(shape))
    if axes is None:
        return 3
    if node["op"] in ("min", "max") and math.prod(shape[axis] for axis in axes) == 0:
        return 4
    if node["op"] in ("any", "all"):
        dtype = "bool"
    elif node["op"] in ("sum", "prod"):
        dtype = WIDE[dtype.startswith("u")]
    return limited(dtype, *without(axes, node.get("keepdims", False), shape, chunk))


def arg_place(node, args):
    dtype, shape, chunk = args[0]
    if dtype == "bool":
        return 6
    axis = node.get("axis")
    axes = axes_in(None if axis is None else [axis], len(shape))
    if axes is None:
        return 3
    if math.prod(shape[axis] for axis in axes) == 0:
        return 4
    return limited("int64", *without(axes, node.get("keepdims", False), shape, chunk))


def summed_axis(node, rank):
    """Returns the axis of a prefix sum, or nothing: without one the array has just one."""
    axis = node.get("axis")
    return axis_in(axis, rank) if axis is not None else 0 if rank == 1 else None


def cumulative_sum(node, args):
    dtype, shape, chunk = args[0]
    if dtype == "bool":
        return 6
    return 3 if summed_axis(node, len(shape)) is None else limited(WIDE[dtype.startswith("u")], shape, chunk)


def groupby(node, args):
    """Sums and least numbers of the elements of each label."""
    (dtype, shape, chunk), (label_type, labels, _) = args
    if "bool" in (dtype, label_type):
        return 6
    axis = axis_in(node["axis"], len(shape))
    if axis is None:
        return 3
    if labels != [shape[axis]]:
        return 2
    if len(shape) > 5 or SIZES[label_type] * chunk[axis] > MOST_CHUNK_BYTES:
        return 7
    shape, chunk = [[*sides[:axis], node["groups"], *sides[axis + 1:]] for sides in (shape, chunk)]
    return limited(dtype if node["op"] == "groupby_min" else WIDE[dtype.startswith("u")], shape, chunk)


def matmul(node, args):
    if "bool" in (args[0][0], args[1][0]):
        return 6
    dtype = promoted(args[0][0], args[1][0])
    if dtype is None:
        return 1
    if [] in (args[0][1], args[1][1]):
        return 3
    is_row, is_column = len(args[0][1]) == 1, len(args[1][1]) == 1
    left, left_chunk = [([1] + sides if is_row else sides) for sides in args[0][1:]]
    right, right_chunk = [(sides + [1] if is_column else sides) for sides in args[1][1:]]
    leading = broadcast([left[:-2], right[:-2]])
    if leading is None or left[-1] != right[-2]:
        return 2
    batch = chunk_for(leading, [(None, left[:-2], left_chunk[:-2]), (None, right[:-2], right_chunk[:-2])])
    shape = leading + ([] if is_row else [left[-2]]) + ([] if is_column else [right[-1]])
    chunk = batch + ([] if is_row else [left_chunk[-2]]) + ([] if is_column else [right_chunk[-1]])
    aligned = [batch_of(leading, batch, left, left_chunk) + [left_chunk[-2], left_chunk[-1]],
               batch_of(leading, batch, right, right_chunk) + [left_chunk[-1], right_chunk[-1]]]
    if any(SIZES[arg[0]] * math.prod(sides) > 1 << 28 for arg, sides in zip(args, aligned)):
        return 7
    return 7 if len(shape) > 5 else limited(dtype, shape, chunk)


def batch_of(leading, batch, shape, chunk):
    """Returns the aligned chunk on an operand's leading axes: the result's, but its own where it is stretched."""
    rest = len(leading) - (len(shape) - 2)
    return [to if size == of else side for size, side, of, to in zip(shape[:-2], chunk[:-2], leading[rest:], batch[rest:])]


CREATION = {"full": full, "arange": arange, "eye": eye}
VIEWS = {"tril": triangle, "triu": triangle, "index": index, "concat": concat, "stack": stack, "permute_dims": permute_dims,
         "reshape": reshape, "expand_dims": expand_dims, "squeeze": squeeze, "flip": flip, "roll": roll, "broadcast_to": broadcast_to}
REDUCTIONS = {op: reduce for op in ("sum", "prod", "min", "max", "any", "all")}
GROUPS = {"groupby_sum": groupby, "groupby_min": groupby}
OTHERS = {**CREATION, **VIEWS, "rechunk": rechunk, **REDUCTIONS, "argmin": arg_place, "argmax": arg_place, "cumulative_sum": cumulative_sum,
          **GROUPS, "matmul": matmul}
PULLS = {**CREATION, **VIEWS}
