#!/usr/bin/env python3
"""Makes the table of typed expressions: the type, shape and chunk shape of each node, or the first fault.

Shapes come from NumPy, which computes each expression on arrays of zeros. Types and chunk shapes come from the rules of this
project, written here anew and apart from the program. Faults are written by hand: [code, node, place].

usage: tools/typing_cases.py > crates/test_cases/data/typing.json     with NumPy 1.24
"""
import itertools
import json

import numpy as np
from said import usage_if_asked

CASES = []


def node(ident, op, /, **members):
    return {"id": ident, "op": op, **members}


def listed(typed):
    dtype, shape, chunk = typed
    return [dtype, [int(x) for x in shape], [int(x) for x in chunk]]


def case(name, inputs, nodes, out, typed=None, fault=None, before=None):
    """Adds a case. Each of `inputs`, a name, a type, a shape and a chunk shape, has an input node of its own name before `nodes`,
    unless `before` names others. `typed` is that of the one node, or a list of those of several."""
    used = {i[0]: i[1:] for i in reversed(inputs)}
    names = list(dict.fromkeys(i[0] for i in inputs)) if before is None else before
    row = {
        "name": name,
        "inputs": [[n] + listed(i) for n, *i in inputs],
        "expr": {"nodes": [node(n, "input", name=n) for n in names] + nodes, "out": out, "store_as": "r"},
    }
    if fault is not None:
        row["refused"] = fault
    else:
        several = typed if isinstance(typed, list) else [typed]
        row["types"] = [listed(used.get(n, ("bool", [], []))) for n in names] + [listed(t) for t in several]
        assert len(row["types"]) == len(row["expr"]["nodes"]), name
    CASES.append(row)


def zeros(shape, dtype="int32"):
    return np.zeros(shape, dtype=dtype)


# ---- types

SIGNED = ["int8", "int16", "int32", "int64"]
UNSIGNED = ["uint8", "uint16", "uint32", "uint64"]
WIDTH = {t: int(t.strip("uint")) for t in SIGNED + UNSIGNED}


def promoted(a, b):
    if a == b:
        return a
    if "bool" in (a, b):
        return None
    if (a in SIGNED) == (b in SIGNED):
        return a if WIDTH[a] >= WIDTH[b] else b
    s, u = (a, b) if a in SIGNED else (b, a)
    width = WIDTH[s] if WIDTH[u] < WIDTH[s] else 2 * WIDTH[u]
    return "int%d" % width if width <= 64 else None


def wide(t):
    return "int64" if t in SIGNED else "uint64"


# ---- chunks

def joined_chunk(shape, arrays):
    """The chunk size of the first array, in order, that has the axis and isn't stretched there."""
    chunk = []
    for axis in range(len(shape)):
        for s, c in arrays:
            own = axis - (len(shape) - len(s))
            if own >= 0 and s[own] == shape[axis]:
                chunk.append(c[own])
                break
    return chunk


def reshaped_chunk(shape, chunk):
    left = int(np.prod(chunk, dtype=object)) if chunk else 1
    sizes = []
    for size in reversed(shape):
        c = min(max(1, size), max(1, left))
        sizes.insert(0, c)
        left //= c
    return sizes


def product_chunk(ls, lc, rs, rc):
    lead = np.broadcast_shapes(ls[:-2], rs[:-2])
    chunk = joined_chunk(lead, [(ls[:-2], lc[:-2]), (rs[:-2], rc[:-2])])
    if len(ls) > 1:
        chunk.append(lc[-2])
    if len(rs) > 1:
        chunk.append(rc[-1])
    return chunk


# ---- elementwise functions

def broadcasts():
    shapes = [
        ([], []), ([3], []), ([2, 3], [3]), ([2, 1], [1, 5]), ([1, 4], [3, 1]), ([0, 3], [3]), ([0, 1], [1, 4]), ([1], [0]),
        ([5, 1, 4], [3, 1]), ([2, 1, 3, 1], [4, 1, 5]), ([1, 1, 1, 1, 1, 1], [6]), ([2, 1, 3, 1, 2, 1], [1, 4, 1, 5, 1, 6]),
    ]
    for a, b in shapes:
        for x, y in ((a, b), (b, a)) if a != b else ((a, b),):
            cx = [2 + k for k in range(len(x))]
            cy = [7 + k for k in range(len(y))]
            shape = (zeros(x) + zeros(y)).shape
            case("add %s and %s" % (x, y), [("x", "int32", x, cx), ("y", "int32", y, cy)],
                 [node("s", "add", args=["x", "y"])], "s",
                 ("int32", shape, joined_chunk(shape, [(x, cx), (y, cy)])))
    for x, y, axis in [([2, 3], [2], 1), ([4, 3], [3, 4], 1), ([4, 3], [5, 3], 0), ([2, 3, 4], [5, 1], 1), ([0], [2], 0)]:
        case("add %s and %s" % (x, y), [("x", "int8", x, [1] * len(x)), ("y", "int8", y, [1] * len(y))],
             [node("s", "add", args=["x", "y"])], "s", fault=[2, 2, axis])
    # the place is counted in the rank of all three arguments
    case("where of [2], [3] and [1,1,1]", [("c", "bool", [2], [1]), ("x", "int8", [3], [1]), ("y", "int8", [1, 1, 1], [1, 1, 1])],
         [node("w", "where", args=["c", "x", "y"])], "w", fault=[2, 3, 2])
    shape = np.where(zeros([4, 1], bool), zeros([3]), zeros([2, 1, 1])).shape
    case("where of three ranks", [("c", "bool", [4, 1], [3, 1]), ("x", "int16", [3], [2]), ("y", "uint8", [2, 1, 1], [1, 1, 1])],
         [node("w", "where", args=["c", "x", "y"])], "w", ("int16", shape, [1, 3, 2]))
    shape = np.where(zeros([4], bool), 7, zeros([2, 1])).shape
    case("where with a literal", [("c", "bool", [4], [3]), ("y", "uint8", [2, 1], [1, 1])],
         [node("w", "where", args=["c", 7, "y"])], "w", ("uint8", shape, [1, 3]))


def types():
    for a, b in itertools.product(SIGNED + UNSIGNED + ["bool"], repeat=2):
        inputs = [("x", a, [2], [1]), ("y", b, [2], [1])]
        t = promoted(a, b)
        if t is None:
            case("equal of %s and %s" % (a, b), inputs, [node("e", "equal", args=["x", "y"])], "e", fault=[1, 2, 0])
        else:
            assert "bool" in (a, b) or np.promote_types(a, b) == t, (a, b, t)
            case("bitwise_or of %s and %s" % (a, b), inputs, [node("o", "bitwise_or", args=["x", "y"])], "o", (t, [2], [1]))


def kinds_of_one():
    for op in ["negative", "positive", "abs", "square", "sign"]:
        case("%s of int16" % op, [("x", "int16", [2], [1])], [node("n", op, args=["x"])], "n", ("int16", [2], [1]))
        case("%s of bool" % op, [("x", "bool", [2], [1])], [node("n", op, args=["x"])], "n", fault=[6, 1, 0])
    for op in ["bitwise_invert"]:
        for t in ["uint8", "bool"]:
            case("%s of %s" % (op, t), [("x", t, [2], [1])], [node("n", op, args=["x"])], "n", (t, [2], [1]))
    case("logical_not of bool", [("x", "bool", [2], [1])], [node("n", "logical_not", args=["x"])], "n", ("bool", [2], [1]))
    case("logical_not of int8", [("x", "int8", [2], [1])], [node("n", "logical_not", args=["x"])], "n", fault=[6, 1, 0])


def kinds_of_two():
    for op in ["add", "subtract", "multiply", "floor_divide", "remainder", "bitwise_left_shift", "bitwise_right_shift"]:
        case("%s of uint8 and int8" % op, [("x", "uint8", [2], [1]), ("y", "int8", [2], [1])],
             [node("n", op, args=["x", "y"])], "n", ("int16", [2], [1]))
        # a bool is refused before the types are promoted
        case("%s of int8 and bool" % op, [("x", "int8", [2], [1]), ("y", "bool", [2], [1])],
             [node("n", op, args=["x", "y"])], "n", fault=[6, 2, 0])
    for op in ["less", "less_equal", "greater", "greater_equal"]:
        case("%s of uint8 and int8" % op, [("x", "uint8", [2], [1]), ("y", "int8", [2], [1])],
             [node("n", op, args=["x", "y"])], "n", ("bool", [2], [1]))
        case("%s of bools" % op, [("x", "bool", [2], [1])], [node("n", op, args=["x", "x"])], "n", fault=[6, 1, 0])
    for op in ["equal", "not_equal"]:
        case("%s of bools" % op, [("x", "bool", [2], [1])], [node("n", op, args=["x", "x"])], "n", ("bool", [2], [1]))
    for op in ["bitwise_and", "bitwise_or", "bitwise_xor", "logical_and", "logical_or", "logical_xor"]:
        case("%s of bools" % op, [("x", "bool", [2], [1])], [node("n", op, args=["x", "x"])], "n", ("bool", [2], [1]))
    for op in ["logical_and", "logical_or", "logical_xor"]:
        case("%s of int8" % op, [("x", "int8", [2], [1])], [node("n", op, args=["x", "x"])], "n", fault=[6, 1, 0])
    for t in SIGNED + UNSIGNED + ["bool"]:
        case("astype of int64 to %s" % t, [("x", "int64", [2], [1])], [node("a", "astype", args=["x"], dtype=t)], "a", (t, [2], [1]))
    case("astype of bool to uint64", [("x", "bool", [2], [1])], [node("a", "astype", args=["x"], dtype="uint64")], "a", ("uint64", [2], [1]))
    case("where of an integer condition", [("c", "int8", [2], [1])], [node("w", "where", args=["c", "c", "c"])], "w", fault=[6, 1, 0])
    case("where without a type", [("c", "bool", [2], [1]), ("x", "int8", [2], [1])],
         [node("w", "where", args=["c", "x", "c"])], "w", fault=[1, 2, 0])


def extremes():
    for op in ["maximum", "minimum"]:
        for a, b in itertools.product(SIGNED + UNSIGNED + ["bool"], repeat=2):
            t = promoted(a, b)
            code = 6 if "bool" in (a, b) else 1 if t is None else 0
            answer = {"fault": [code, 2, 0]} if code else {"typed": (t, [2], [1])}
            if op == "maximum" or a != b:
                case("%s of %s and %s" % (op, a, b), [("x", a, [2], [1]), ("y", b, [2], [1])],
                     [node("m", op, args=["x", "y"])], "m", **answer)
    shape = np.maximum(zeros([2, 1, 3]), zeros([4, 1])).shape
    case("maximum of two ranks", [("x", "int8", [2, 1, 3], [1, 1, 2]), ("y", "uint8", [4, 1], [3, 1])],
         [node("m", "maximum", args=["x", "y"])], "m", ("int16", shape, [1, 3, 2]))
    case("minimum of [2] and [3]", [("x", "int8", [2], [1]), ("y", "int8", [3], [1])],
         [node("m", "minimum", args=["x", "y"])], "m", fault=[2, 2, 0])
    case("maximum of bool and 300: the kind comes first", [("x", "bool", [2], [1])],
         [node("m", "maximum", args=[300, "x"])], "m", fault=[6, 1, 0])
    case("minimum of int8 and true", [("x", "int8", [2], [1])],
         [node("m", "minimum", args=["x", True])], "m", fault=[5, 1, 0])


def bounded(t, low, high, shape, **answer):
    case("clip of %s from %d to %d" % (t, low, high), [("x", t, shape, [1] * len(shape))],
         [node("c", "clip", args=["x"], min=low, max=high)], "c", **answer)


def bounds():
    for t in SIGNED + UNSIGNED:
        least, greatest = int(np.iinfo(t).min), int(np.iinfo(t).max)
        for low, high in [(least, greatest), (greatest, least), (0, 0)]:
            bounded(t, low, high, [2, 3], typed=(t, [2, 3], [1, 1]))
        for low, high in [(least - 1, greatest), (least, greatest + 1), (greatest + 1, least)]:
            if all(-2 ** 63 <= end < 2 ** 64 for end in (low, high)):
                bounded(t, low, high, [2, 3], fault=[5, 1, 0])
    bounded("bool", 0, 1, [2], fault=[6, 1, 0])
    bounded("bool", 0, 300, [2], fault=[6, 1, 0])
    bounded("int16", -5, 5, [], typed=("int16", [], []))


def literals():
    limits = {"int8": (-128, 127), "int64": (-2 ** 63, 2 ** 63 - 1), "uint8": (0, 255), "uint64": (0, 2 ** 64 - 1)}
    for t, (least, greatest) in limits.items():
        for x in (least, greatest):
            case("add %d to %s" % (x, t), [("x", t, [2], [1])], [node("a", "add", args=["x", x])], "a", (t, [2], [1]))
        for x in (least - 1, greatest + 1):
            if -2 ** 63 <= x < 2 ** 64:
                case("add %d to %s" % (x, t), [("x", t, [2], [1])], [node("a", "add", args=[x, "x"])], "a", fault=[5, 1, 0])
    case("add true to int8", [("x", "int8", [2], [1])], [node("a", "add", args=["x", True])], "a", fault=[5, 1, 0])
    case("bitwise_and of bool and 1", [("x", "bool", [2], [1])], [node("a", "bitwise_and", args=["x", 1])], "a", fault=[5, 1, 0])
    case("bitwise_and of bool and true", [("x", "bool", [2], [1])], [node("a", "bitwise_and", args=["x", True])], "a", ("bool", [2], [1]))
    case("add of bool and 1: the kind comes first", [("x", "bool", [2], [1])], [node("a", "add", args=["x", 1])], "a", fault=[6, 1, 0])
    case("where with a literal out of range", [("c", "bool", [2], [1]), ("x", "int8", [3], [1])],
         [node("w", "where", args=["c", "x", 128])], "w", fault=[5, 2, 0])


def limits():
    case("elements: 2^40", [("x", "int8", [2 ** 20, 1], [2 ** 14, 1]), ("y", "int8", [2 ** 20], [2 ** 14])],
         [node("a", "add", args=["x", "y"])], "a", ("int8", [2 ** 20, 2 ** 20], [2 ** 14, 2 ** 14]))
    case("elements: more", [("x", "int8", [2 ** 20, 1], [2 ** 14, 1]), ("y", "int8", [2 ** 20 + 1], [2 ** 14])],
         [node("a", "add", args=["x", "y"])], "a", fault=[7, 2, 2])
    case("elements beside an axis of size 0", [("x", "int8", [0, 2 ** 20, 1], [1, 2 ** 14, 1]), ("y", "int8", [2 ** 20 + 1], [2 ** 14])],
         [node("a", "add", args=["x", "y"])], "a", fault=[7, 2, 2])
    case("bytes: 2^28", [("x", "int8", [2 ** 25], [2 ** 25])], [node("a", "astype", args=["x"], dtype="int64")], "a",
         ("int64", [2 ** 25], [2 ** 25]))
    case("bytes: more", [("x", "int8", [2 ** 25 + 1], [2 ** 25 + 1])], [node("a", "astype", args=["x"], dtype="int64")], "a", fault=[7, 1, 3])
    case("bytes of an aligned chunk", [("x", "int32", [2 ** 14, 2], [2 ** 14, 1]), ("y", "int32", [2 ** 14, 1], [1, 2 ** 13])],
         [node("a", "add", args=["x", "y"])], "a", fault=[7, 2, 3])
    case("chunks: 65536", [("x", "int8", [2 ** 8, 1], [1, 1]), ("y", "int8", [2 ** 8], [1])],
         [node("a", "add", args=["x", "y"])], "a", ("int8", [256, 256], [1, 1]))
    case("chunks: more", [("x", "int8", [2 ** 8, 1], [1, 1]), ("y", "int8", [2 ** 8 + 1], [1])],
         [node("a", "add", args=["x", "y"])], "a", fault=[7, 2, 4])
    case("chunks beside an axis of size 0", [("x", "int8", [0, 2 ** 8, 1], [1, 1, 1]), ("y", "int8", [2 ** 8 + 1], [1])],
         [node("a", "add", args=["x", "y"])], "a", fault=[7, 2, 4])
    case("bytes come before chunks", [("x", "int64", [2 ** 13, 1], [2 ** 12, 1]), ("y", "int64", [2 ** 27], [2 ** 14])],
         [node("a", "add", args=["x", "y"])], "a", fault=[7, 2, 3])
    case("the first node's fault", [("x", "bool", [2], [1])],
         [node("a", "negative", args=["x"]), node("b", "add", args=["x", "x"])], "b", fault=[6, 1, 0])


# ---- reductions

def reductions():
    x, c = [4, 0, 3], [3, 2, 2]
    y, d = [4, 5, 3], [3, 2, 2]
    for op, f in [("sum", np.sum), ("prod", np.prod), ("min", np.min), ("max", np.max), ("any", np.any), ("all", np.all)]:
        for axes in [None, [], [0], [-1], [1, 2], [2, -3], [0, 1, 2]]:
            for keep in (False, True):
                a = zeros(y, "uint8")
                shape = f(a, axis=None if axes is None else tuple(axes), keepdims=keep).shape
                named = range(3) if axes is None else [k % 3 for k in axes]
                if keep:
                    chunk = [1 if k in named else d[k] for k in range(3)]
                else:
                    chunk = [d[k] for k in range(3) if k not in named]
                t = {"sum": "uint64", "prod": "uint64", "min": "uint8", "max": "uint8", "any": "bool", "all": "bool"}[op]
                members = {} if axes is None else {"axes": axes}
                if keep:
                    members["keepdims"] = True
                case("%s over %s%s" % (op, axes, " kept" if keep else ""), [("x", "uint8", y, d)],
                     [node("s", op, args=["x"], **members)], "s", (t, shape, chunk))
        empty = [("x", "int8", x, c)]
        if op in ("min", "max"):
            case("%s of nothing" % op, empty, [node("s", op, args=["x"])], "s", fault=[4, 1, 0])
            case("%s along an empty axis" % op, empty, [node("s", op, args=["x"], axes=[1])], "s", fault=[4, 1, 0])
            shape = f(zeros(x), axis=0).shape
            case("%s along another axis" % op, empty, [node("s", op, args=["x"], axes=[0])], "s", ("int8", shape, [2, 2]))
            case("%s of a bad axis before nothing" % op, empty, [node("s", op, args=["x"], axes=[1, -2])], "s", fault=[3, 1, 0])
        else:
            t = "bool" if op in ("any", "all") else "int64"
            case("%s of nothing" % op, empty, [node("s", op, args=["x"])], "s", (t, [], []))
        for axes in ([3], [-4], [0, 0], [1, -2]):
            case("%s over %s" % (op, axes), [("x", "int8", y, d)], [node("s", op, args=["x"], axes=axes)], "s", fault=[3, 1, 0])
        if op in ("any", "all"):
            case("%s of bool" % op, [("x", "bool", [4], [3])], [node("s", op, args=["x"])], "s", ("bool", [], []))
        else:
            case("%s of bool, with a bad axis" % op, [("x", "bool", [4], [3])], [node("s", op, args=["x"], axes=[9])], "s", fault=[6, 1, 0])
    for t in SIGNED + UNSIGNED:
        case("sum of %s" % t, [("x", t, [4], [3])], [node("s", "sum", args=["x"])], "s", (wide(t), [], []))
    case("sum's chunk is too large", [("x", "int8", [2, 2 ** 26], [2, 2 ** 26])], [node("s", "sum", args=["x"], axes=[0])], "s", fault=[7, 1, 3])


def places():
    x, c = [4, 0, 3], [3, 2, 2]
    y, d = [4, 5, 3], [3, 2, 2]
    for op, f in [("argmin", np.argmin), ("argmax", np.argmax)]:
        for axis in [None, 0, 1, -1]:
            for keep in (False, True):
                shape = f(zeros(y), axis=axis, keepdims=keep).shape
                named = range(3) if axis is None else [axis % 3]
                chunk = [1 if k in named else d[k] for k in range(3)] if keep else [d[k] for k in range(3) if k not in named]
                members = {} if axis is None else {"axis": axis}
                if keep:
                    members["keepdims"] = True
                case("%s along %s%s" % (op, axis, " kept" if keep else ""), [("x", "int16", y, d)],
                     [node("p", op, args=["x"], **members)], "p", ("int64", shape, chunk))
        case("%s of nothing" % op, [("x", "int8", x, c)], [node("p", op, args=["x"])], "p", fault=[4, 1, 0])
        case("%s along a bad axis" % op, [("x", "int8", x, c)], [node("p", op, args=["x"], axis=3)], "p", fault=[3, 1, 0])
        case("%s of bool" % op, [("x", "bool", [2], [1])], [node("p", op, args=["x"])], "p", fault=[6, 1, 0])


# ---- prefix sums and groups by labels

def prefix_sums():
    x, c = [4, 0, 3], [3, 2, 2]
    for axis in (0, 1, -1, -3):
        case("cumulative_sum along %d" % axis, [("x", "int16", x, c)], [node("s", "cumulative_sum", args=["x"], axis=axis)], "s",
             ("int64", np.cumsum(zeros(x), axis=axis).shape, c))
    for axis in (3, -4, 2 ** 63 - 1, -2 ** 63):
        case("cumulative_sum along %d" % axis, [("x", "int16", x, c)], [node("s", "cumulative_sum", args=["x"], axis=axis)], "s", fault=[3, 1, 0])
    for t in SIGNED + UNSIGNED:
        case("cumulative_sum of %s" % t, [("x", t, [4], [3])], [node("s", "cumulative_sum", args=["x"])], "s", (wide(t), np.cumsum(zeros([4])).shape, [3]))
    case("cumulative_sum of a null axis", [("x", "int8", [0], [3])], [node("s", "cumulative_sum", args=["x"], axis=None)], "s", ("int64", [0], [3]))
    for members in ({}, {"axis": None}):
        case("cumulative_sum of two axes by %s" % members, [("x", "int8", [2, 3], [1, 3])], [node("s", "cumulative_sum", args=["x"], **members)], "s", fault=[3, 1, 0])
        case("cumulative_sum of rank 0 by %s" % members, [("x", "int8", [], [])], [node("s", "cumulative_sum", args=["x"], **members)], "s", fault=[3, 1, 0])
    case("cumulative_sum of rank 0 along 0", [("x", "int8", [], [])], [node("s", "cumulative_sum", args=["x"], axis=0)], "s", fault=[3, 1, 0])
    case("cumulative_sum of six axes", [("x", "uint8", [1, 2, 3, 4, 5, 6], [1, 2, 3, 4, 5, 6])], [node("s", "cumulative_sum", args=["x"], axis=-2)], "s",
         ("uint64", [1, 2, 3, 4, 5, 6], [1, 2, 3, 4, 5, 6]))
    case("cumulative_sum of bool, with a bad axis", [("x", "bool", [4], [3])], [node("s", "cumulative_sum", args=["x"], axis=9)], "s", fault=[6, 1, 0])
    case("cumulative_sum's chunk is too large", [("x", "int8", [2 ** 26], [2 ** 26])], [node("s", "cumulative_sum", args=["x"])], "s", fault=[7, 1, 3])
    case("cumulative_sum's chunk is just small enough", [("x", "int8", [2 ** 25], [2 ** 25])], [node("s", "cumulative_sum", args=["x"])], "s", ("int64", [2 ** 25], [2 ** 25]))


def groups():
    def by(name, x, labels, op, axis, count, typed=None, fault=None):
        case(name, [("x", *x), ("l", *labels)], [node("g", op, args=["x", "l"], axis=axis, groups=count)], "g", typed, fault)

    x, c = [4, 5, 3], [3, 2, 2]
    for op in ("groupby_sum", "groupby_min"):
        for axis in (0, 1, -1, -3):
            shape, chunk = list(x), list(c)
            shape[axis] = chunk[axis] = 7
            by("%s along %d" % (op, axis), ("int16", x, c), ("uint8", [x[axis]], [c[axis]]), op, axis, 7, ("int64" if op == "groupby_sum" else "int16", shape, chunk))
        for axis in (3, -4):
            by("%s along %d" % (op, axis), ("int16", x, c), ("int8", [4], [3]), op, axis, 7, fault=[3, 2, 0])
        for t in SIGNED + UNSIGNED:
            by("%s of %s" % (op, t), (t, [4], [3]), ("int8", [4], [3]), op, 0, 2, (wide(t) if op == "groupby_sum" else t, [2], [2]))
            by("%s by labels of %s" % (op, t), ("int8", [4], [3]), (t, [4], [3]), op, 0, 1, ("int64" if op == "groupby_sum" else "int8", [1], [1]))
        by("%s of bool, with a bad axis" % op, ("bool", [4], [3]), ("int8", [3], [1]), op, 9, 2, fault=[6, 2, 0])
        by("%s by labels of bool, with a bad axis" % op, ("int8", [4], [3]), ("bool", [3, 3], [1, 1]), op, 9, 2, fault=[6, 2, 0])
        by("%s of nothing" % op, ("int8", [0, 3], [2, 2]), ("int8", [0], [2]), op, 0, 4, ("int64" if op == "groupby_sum" else "int8", [4, 3], [4, 2]))
        by("%s of rank 0" % op, ("int8", [], []), ("int8", [1], [1]), op, 0, 4, fault=[3, 2, 0])
        by("%s with a bad axis and other labels" % op, ("int8", [4], [3]), ("int8", [5, 5], [2, 2]), op, -2, 4, fault=[3, 2, 0])
        by("%s of six axes" % op, ("int8", [1, 1, 1, 1, 1, 4], [1, 1, 1, 1, 1, 2]), ("int8", [4], [2]), op, 5, 4, fault=[7, 2, 1])
        by("%s of six axes by other labels" % op, ("int8", [1, 1, 1, 1, 1, 4], [1, 1, 1, 1, 1, 2]), ("int8", [3], [2]), op, -1, 4, fault=[2, 2, 5])
    for labels, chunk in (([3], [1]), ([5], [5]), ([], []), ([4, 1], [2, 1]), ([1, 5], [1, 2])):
        by("labels of shape %s" % labels, ("int8", x, c), ("int8", labels, chunk), "groupby_sum", -3, 2, fault=[2, 2, 0])
        by("labels of shape %s on the last axis but one" % labels, ("int8", [2, 4, 3], c), ("int8", labels, chunk), "groupby_min", -2, 2, fault=[2, 2, 1])
    by("labels in other chunks", ("int8", x, c), ("int64", [5], [4]), "groupby_min", 1, 2, ("int8", [4, 2, 3], [3, 2, 2]))
    by("labels of five axes", ("uint8", [1, 2, 3, 4, 5], [1, 1, 2, 2, 2]), ("int64", [5], [4]), "groupby_sum", 4, 65536, ("uint64", [1, 2, 3, 4, 65536], [1, 1, 2, 2, 65536]))
    by("the chunk of groups is too large", ("int8", [4, 2 ** 10], [2, 2 ** 10]), ("int8", [4], [2]), "groupby_sum", 0, 65536, fault=[7, 2, 3])
    by("the chunk of groups is just small enough", ("int8", [4, 2 ** 9], [2, 2 ** 9]), ("int8", [4], [2]), "groupby_sum", 0, 65536, ("int64", [65536, 2 ** 9], [65536, 2 ** 9]))
    by("there are too many groups", ("int8", [4, 2 ** 25], [2, 2 ** 10]), ("int8", [4], [2]), "groupby_min", 0, 65536, fault=[7, 2, 2])
    by("the labels' aligned chunk is too large", ("int8", [4], [2 ** 27]), ("int32", [4], [2]), "groupby_min", 0, 2, fault=[7, 2, 3])
    by("the labels' aligned chunk is just small enough", ("int8", [4], [2 ** 26]), ("int32", [4], [2]), "groupby_min", 0, 2, ("int8", [2], [2]))
    case("an array by itself", [("x", "int16", [4], [3])], [node("g", "groupby_sum", args=["x", "x"], axis=0, groups=9)], "g", ("int64", [9], [9]))
    case("the sums up to each place of groups", [("x", "uint16", [4, 5], [3, 2]), ("l", "int16", [5], [5])],
         [node("g", "groupby_min", args=["x", "l"], axis=1, groups=6), node("s", "cumulative_sum", args=["g"], axis=-1)], "s", [("uint16", [4, 6], [3, 6]), ("uint64", [4, 6], [3, 6])])


# ---- matrix products

def products():
    pairs = [
        ([3], [3]), ([3], [3, 2]), ([2, 3], [3]), ([2, 3], [3, 4]), ([0, 3], [3, 4]), ([2, 0], [0, 4]), ([4], [5, 4, 2]),
        ([5, 2, 3], [3]), ([5, 2, 3], [3, 4]), ([2, 3], [5, 3, 4]), ([5, 2, 3], [5, 3, 4]), ([1, 2, 3], [5, 3, 4]),
        ([6, 5, 2, 3], [5, 3, 4]), ([6, 1, 2, 3], [5, 3, 4]), ([2, 1, 3, 4], [5, 4, 6]), ([2, 2, 2, 3, 4], [4, 5]),
        ([2, 1, 2, 3, 4], [1, 5, 1, 4, 5]), ([4], [2, 2, 2, 2, 4, 5]), ([2, 2, 2, 2, 5, 4], [4]),
    ]
    for l, r in pairs:
        lc = [2 + k for k in range(len(l))]
        rc = [11 + k for k in range(len(r))]
        shape = np.matmul(zeros(l), zeros(r)).shape
        case("matmul of %s and %s" % (l, r), [("l", "int8", l, lc), ("r", "int16", r, rc)],
             [node("m", "matmul", args=["l", "r"])], "m", ("int16", shape, product_chunk(l, lc, r, rc)))
    for l, r, fault in [
        ([], [3], [3, 2, 0]), ([3], [], [3, 2, 0]), ([3], [4], [2, 2, 0]), ([2, 3], [4, 5], [2, 2, 0]),
        ([7, 2, 2, 3], [3, 3, 5], [2, 2, 1]), ([2, 2, 2, 2, 3, 4], [4, 5], [7, 2, 1]), ([3, 2, 2, 3], [2, 1, 3, 5], [2, 2, 0]),
    ]:
        case("matmul of %s and %s" % (l, r), [("l", "int8", l, [1] * len(l)), ("r", "int8", r, [1] * len(r))],
             [node("m", "matmul", args=["l", "r"])], "m", fault=fault)
    case("matmul of bool", [("l", "bool", [], []), ("r", "int8", [3], [1])], [node("m", "matmul", args=["l", "r"])], "m", fault=[6, 2, 0])
    case("matmul without a type", [("l", "int64", [], []), ("r", "uint64", [3], [1])], [node("m", "matmul", args=["l", "r"])], "m", fault=[1, 2, 0])
    case("matmul's aligned chunk", [("l", "int8", [2, 2 ** 15], [1, 2 ** 15]), ("r", "int8", [2 ** 15, 2 ** 14], [1, 2 ** 14])],
         [node("m", "matmul", args=["l", "r"])], "m", fault=[7, 2, 3])


# ---- views

VIEWED = ([4, 5, 6], [3, 2, 5])
SIX = [("x", "int8", [1, 2, 1, 1, 1, 1], [1, 2, 1, 1, 1, 1])]


def view(name, n, shape, chunk):
    case(name, [("x", "int16", *VIEWED)], [n], n["id"], ("int16", shape, chunk))


def refused(name, n, fault, use=None):
    case(name, use or [("x", "int16", *VIEWED)], [n], n["id"], fault=fault)


def views():
    x, c = VIEWED
    a = zeros(x)
    for axes in itertools.permutations(range(3)):
        view("permute_dims %s" % (axes,), node("v", "permute_dims", args=["x"], axes=list(axes)), a.transpose(axes).shape, [c[k] for k in axes])
    for axes in ([0, 1], [0, 1, 1], [0, 1, 3], [0, 1, -1]):
        refused("permute_dims %s" % axes, node("v", "permute_dims", args=["x"], axes=axes), [3, 1, 0])
    for axis in range(-4, 4):
        chunk = list(c)
        chunk.insert(axis % 4, 1)
        view("expand_dims %d" % axis, node("v", "expand_dims", args=["x"], axis=axis), np.expand_dims(a, axis).shape, chunk)
    for axis in (4, -5):
        refused("expand_dims %d" % axis, node("v", "expand_dims", args=["x"], axis=axis), [3, 1, 0])
    refused("expand_dims of six axes", node("v", "expand_dims", args=["x"], axis=0), [7, 1, 1], SIX)
    six_axes()
    moved()


def six_axes():
    b = zeros(SIX[0][2])
    for axes in ([0], [-1], [2, 3, 4], [0, 2, 3, 4, 5], []):
        left = [k for k in range(6) if k not in [d % 6 for d in axes]]
        case("squeeze %s" % axes, SIX, [node("v", "squeeze", args=["x"], axes=axes)], "v",
             ("int8", np.squeeze(b, axis=tuple(axes)).shape, [SIX[0][3][k] for k in left]))
    for axes in ([1], [0, 0], [0, -6], [6]):
        refused("squeeze %s" % axes, node("v", "squeeze", args=["x"], axes=axes), [3, 1, 0], SIX)


def moved():
    x, c = VIEWED
    a = zeros(x)
    for axes in (None, [], [0], [-1, 0]):
        members = {} if axes is None else {"axes": axes}
        view("flip %s" % axes, node("v", "flip", args=["x"], **members), np.flip(a, None if axes is None else tuple(axes)).shape, c)
    refused("flip [0, -3]", node("v", "flip", args=["x"], axes=[0, -3]), [3, 1, 0])
    view("roll", node("v", "roll", args=["x"], shifts=[2, -1], axes=[0, 2]), np.roll(a, (2, -1), (0, 2)).shape, c)
    refused("roll of one shift", node("v", "roll", args=["x"], shifts=[2], axes=[0, 2]), [3, 1, 0])
    refused("roll along an axis twice", node("v", "roll", args=["x"], shifts=[2, 1], axes=[0, -3]), [3, 1, 0])
    for op, f in (("tril", np.tril), ("triu", np.triu)):
        view(op, node("v", op, args=["x"], k=-1), f(a, -1).shape, c)
        refused("%s of rank 1" % op, node("v", op, args=["x"], k=0), [3, 1, 0], [("x", "int8", [3], [2])])


def reshapes():
    x, c = VIEWED
    a = zeros(x)
    for shape in ([120], [20, 6], [2, 2, 5, 6], [-1], [4, -1], [5, -1, 8], [4, 5, 6], [1, 120, 1], [2, 3, 4, 5, 1, 1]):
        got = a.reshape(shape).shape
        view("reshape to %s" % shape, node("v", "reshape", args=["x"], shape=shape), got, reshaped_chunk(got, c))
    none = [("x", "int8", [0, 3], [2, 2])]
    for shape in ([0], [3, 0, 7], [5, -1], [0, 4]):
        got = zeros([0, 3]).reshape(shape).shape
        case("reshape of nothing to %s" % shape, none, [node("v", "reshape", args=["x"], shape=shape)], "v", ("int8", got, reshaped_chunk(got, [2, 2])))
    refused("reshape of nothing to [0, -1]", node("v", "reshape", args=["x"], shape=[0, -1]), [8, 1, 0], none)
    for shape in ([119], [], [7, -1], [0, -1], [121]):
        refused("reshape to %s" % shape, node("v", "reshape", args=["x"], shape=shape), [8, 1, 0])
    refused("reshape to seven axes", node("v", "reshape", args=["x"], shape=[1, 1, 1, 1, 4, 5, 6]), [7, 1, 1])


def stretched():
    x, c = VIEWED
    one = [("x", "uint8", [3, 1], [2, 1])]
    for shape in ([3, 4], [2, 3, 1], [5, 3, 4], [3, 0]):
        case("broadcast_to %s" % shape, one, [node("v", "broadcast_to", args=["x"], shape=shape, chunk=[2] * len(shape))], "v",
             ("uint8", np.broadcast_to(zeros([3, 1]), shape).shape, [2] * len(shape)))
    for shape in ([3], [1, 4], [4, 4], [3, 1, 4], []):
        refused("broadcast_to %s" % shape, node("v", "broadcast_to", args=["x"], shape=shape, chunk=[2] * len(shape)), [2, 1, 0], one)
    refused("broadcast_to with another chunk", node("v", "broadcast_to", args=["x"], shape=[3, 4], chunk=[2]), [2, 1, 0], one)
    view("rechunk", node("v", "rechunk", args=["x"], chunk=[1, 9, 2]), x, [1, 9, 2])
    refused("rechunk with another chunk", node("v", "rechunk", args=["x"], chunk=[1, 9]), [2, 1, 0])


INDEXED = ([5, 6, 7], [3, 4, 2])


def entry(e):
    """An entry of an index, in the form of an expression."""
    if e is None:
        return "new"
    if e is Ellipsis:
        return "..."
    if isinstance(e, int):
        return e
    return {k: v for k, v in (("start", e.start), ("stop", e.stop), ("step", e.step)) if v is not None}


def indexed_chunk(items):
    shape, chunk = INDEXED
    takers = sum(1 for e in items if e is not None and e is not Ellipsis)
    full = [slice(None)] * (3 - takers)
    whole = list(items) if Ellipsis in items else list(items) + [Ellipsis]
    at = whole.index(Ellipsis)
    whole[at:at + 1] = full
    sizes, axis = [], 0
    for e in whole:
        if e is None:
            sizes.append(1)
            continue
        if not isinstance(e, int):
            sizes.append(min(chunk[axis], max(1, len(range(*e.indices(shape[axis]))))))
        axis += 1
    return sizes


def indices():
    inputs = [("x", "int8", *INDEXED)]
    a = zeros(INDEXED[0])
    S = slice
    good = [
        [], [...], [0], [-1, -6, 6], [S(None)], [S(1, 4)], [S(None, None, -1)], [S(4, 1, -2)], [S(-3, None)], [S(None, -2)],
        [S(10, None)], [S(-10, 10)], [S(4, 1)], [S(1, 4, -1)], [S(None, None, 100)], [S(None, None, -100)], [..., 0], [0, ...],
        [None, ...], [..., None], [None, 0, None, S(2), ...], [..., S(None, None, 3)], [S(1, 2), ..., S(-1, None)],
        [S(None, -6, -1), 2, S(0, None, 5)], [1, 2, 3, None], [None, None, None, ...], [S(0, 0)], [1, S(None), -1],
    ]
    for items in good:
        shape = a[tuple(items)].shape
        case("index %s" % (items,), inputs, [node("v", "index", args=["x"], index=[entry(e) for e in items])], "v", ("int8", shape, indexed_chunk(items)))
    bad = [
        ([5], 0), ([-6], 0), ([0, 6], 1), ([0, 0, 0, 0], 3), ([S(None), S(None, None, 0)], 1), ([..., 0, ...], 2), ([..., 7], 1),
        ([0, 0, None, 0, S(None)], 4), ([None, 9], 1), ([..., 0, 0, 0, 0], 4),
    ]
    for items, place in bad:
        case("index %s" % (items,), inputs, [node("v", "index", args=["x"], index=[entry(e) for e in items])], "v", fault=[9, 1, place])
    case("index with four new axes", inputs, [node("v", "index", args=["x"], index=["new"] * 4)], "v", fault=[7, 1, 1])


def pieces():
    sets = [
        ([[2, 3], [4, 3]], 0), ([[2, 3], [2, 5], [2, 0]], 1), ([[2, 3], [2, 5]], -1), ([[4]], 0), ([[0, 2], [3, 2]], -2),
    ]
    for shapes, axis in sets:
        inputs = [("x%d" % k, ["int8", "uint8", "int16"][k], s, [2 + k] * len(s)) for k, s in enumerate(shapes)]
        t = inputs[0][1]
        for i in inputs[1:]:
            t = promoted(t, i[1])
        case("concat of %s along %d" % (shapes, axis), inputs, [node("v", "concat", args=[i[0] for i in inputs], axis=axis)], "v",
             (t, np.concatenate([zeros(s) for s in shapes], axis).shape, inputs[0][3]))
    for n, axis in [(1, 0), (2, 0), (3, 1), (3, -1), (2, -3)]:
        inputs = [("x%d" % k, "int8", [4, 5], [3 + k, 2]) for k in range(n)]
        shape = np.stack([zeros([4, 5])] * n, axis).shape
        chunk = [3, 2]
        chunk.insert(axis % 3, 1)
        case("stack of %d along %d" % (n, axis), inputs, [node("v", "stack", args=[i[0] for i in inputs], axis=axis)], "v", ("int8", shape, chunk))

    def refused_pieces(name, op, inputs, axis, fault):
        refused(name, node("v", op, args=[i[0] for i in inputs], axis=axis), fault, inputs)

    two = [("x", "int8", [2, 3], [1, 1]), ("y", "int8", [4, 3], [1, 1])]
    refused_pieces("concat off the axis", "concat", two, 1, [2, 2, 0])
    refused_pieces("concat of two ranks", "concat", [two[0], ("y", "int8", [3], [1])], 0, [2, 2, 0])
    refused_pieces("concat along a bad axis", "concat", two, 2, [3, 2, 0])
    refused_pieces("concat of rank 0", "concat", [("x", "int8", [], [])], 0, [3, 1, 0])
    refused_pieces("concat without a type", "concat", [two[0], ("y", "bool", [4, 3], [1, 1])], 7, [1, 2, 0])
    # promoted from the left: uint8 and int8 are int16, and no type is common to int16 and uint64
    refused_pieces("concat promotes from the left", "concat", [("x", "uint64", [2], [1]), ("y", "uint8", [2], [1]), ("z", "int8", [2], [1])], 0, [1, 3, 0])
    refused_pieces("stack of two shapes", "stack", two, 0, [2, 2, 0])
    refused_pieces("stack along a bad axis", "stack", [two[0]], 3, [3, 1, 0])
    refused_pieces("stack of six axes", "stack", [("x", "int8", [1] * 6, [1] * 6)], 0, [7, 1, 1])


def made():
    for shape in ([], [3], [2, 0], [1, 2, 3, 4, 5, 6]):
        case("full %s" % shape, [], [node("f", "full", shape=shape, dtype="int8", value=3, chunk=[2] * len(shape))], "f",
             ("int8", np.full(shape, 3).shape, [2] * len(shape)))
    case("full of seven axes", [], [node("f", "full", shape=[1] * 7, dtype="int8", value=3, chunk=[1] * 7)], "f", fault=[7, 0, 1])
    case("full out of range", [], [node("f", "full", shape=[1], dtype="int8", value=128, chunk=[1, 1])], "f", fault=[5, 0, 0])
    case("full of another kind", [], [node("f", "full", shape=[1], dtype="bool", value=1, chunk=[1])], "f", fault=[5, 0, 0])
    case("full with another chunk", [], [node("f", "full", shape=[1], dtype="bool", value=True, chunk=[1, 1])], "f", fault=[2, 0, 0])
    for start, stop, step in [(0, 10, 1), (0, 10, 3), (10, 0, -3), (5, 5, 1), (5, 0, 1), (0, 5, -1), (-4, 7, 2), (7, -4, -2)]:
        case("arange %d %d %d" % (start, stop, step), [], [node("f", "arange", start=start, stop=stop, step=step, dtype="int8", chunk=[4])], "f",
             ("int8", np.arange(start, stop, step).shape, [4]))
    case("arange with its last number out of range", [], [node("f", "arange", start=0, stop=129, step=1, dtype="int8", chunk=[4])], "f", fault=[5, 0, 0])
    case("arange with its last number in range", [], [node("f", "arange", start=0, stop=128, step=1, dtype="int8", chunk=[4])], "f", ("int8", [128], [4]))
    case("arange of no number out of range", [], [node("f", "arange", start=500, stop=500, step=1, dtype="int8", chunk=[4])], "f", ("int8", [0], [4]))
    case("arange with a step of 0", [], [node("f", "arange", start=500, stop=900, step=0, dtype="int8", chunk=[4, 4])], "f", fault=[9, 0, 0])
    case("arange of bool", [], [node("f", "arange", start=0, stop=1, step=0, dtype="bool", chunk=[4])], "f", fault=[6, 0, 0])
    case("arange with another chunk", [], [node("f", "arange", start=0, stop=1, step=1, dtype="int8", chunk=[])], "f", fault=[2, 0, 0])
    case("arange of more than 2^40", [], [node("f", "arange", start=-2 ** 63, stop=2 ** 63 - 1, step=1, dtype="int64", chunk=[4])], "f", fault=[7, 0, 2])
    for rows, cols, k in [(3, 4, 0), (0, 4, 1), (4, 0, -1)]:
        case("eye %d %d" % (rows, cols), [], [node("f", "eye", rows=rows, cols=cols, k=k, dtype="uint8", chunk=[2, 3])], "f",
             ("uint8", np.eye(rows, cols, k).shape, [2, 3]))
    case("eye of bool", [], [node("f", "eye", rows=1, cols=1, k=0, dtype="bool", chunk=[1])], "f", fault=[6, 0, 0])
    case("eye with another chunk", [], [node("f", "eye", rows=1, cols=1, k=0, dtype="int8", chunk=[1])], "f", fault=[2, 0, 0])


def chains():
    """Expressions of several nodes."""
    x, c, y, d = [4, 6], [3, 2], [6], [4]
    inputs = [("x", "int16", x, c), ("y", "int8", y, d)]
    total = zeros(x, "int16") + zeros(y, "int8")
    turned = total.transpose([1, 0])
    product = np.matmul(turned, zeros(x))
    places = np.argmax(product, axis=0)
    case("a sum, turned, times the input, and the places of the greatest", inputs,
         [node("s", "add", args=["x", "y"]), node("t", "permute_dims", args=["s"], axes=[1, 0]), node("m", "matmul", args=["t", "x"]),
          node("p", "argmax", args=["m"], axis=0)], "p",
         [("int16", total.shape, [3, 2]), ("int16", turned.shape, [2, 3]), ("int16", product.shape, [2, 2]), ("int64", places.shape, [2])])
    least = np.min(zeros(x, "int16"), axis=1, keepdims=True)
    off = zeros(x, "int16") - least
    near = off < 5
    case("one array less its least in each row, compared", inputs[:1],
         [node("l", "min", args=["x"], axes=[1], keepdims=True), node("o", "subtract", args=["x", "l"]),
          node("n", "less", args=["o", 5]), node("a", "any", args=["n"])], "a",
         [("int16", least.shape, [3, 1]), ("int16", off.shape, [3, 2]), ("bool", near.shape, [3, 2]), ("bool", near.any().shape, [])])
    case("a node that isn't stored has its type too", inputs, [node("s", "square", args=["y"]), node("n", "negative", args=["x"])], "s",
         [("int8", y, d), ("int16", x, c)])
    case("a node that isn't stored has its fault too", inputs, [node("s", "square", args=["y"]), node("n", "logical_not", args=["x"])], "s",
         fault=[6, 3, 0])
    case("the fault of the earlier node", inputs, [node("s", "sum", args=["x"], axes=[2]), node("n", "logical_not", args=["x"])], "s",
         fault=[3, 2, 0])
    case("two nodes of one input", inputs[:1],
         [node("z", "input", name="x"), node("s", "add", args=["x", "z"])], "s", [("int16", x, c), ("int16", x, c)])
    case("an input that no node uses", inputs, [node("n", "negative", args=["y"])], "n", ("int8", y, d), before=["y"])
    case("of two inputs with one name the first counts", [("x", "int16", x, c), ("x", "int8", y, d)], [node("n", "negative", args=["x"])],
         "n", ("int16", x, c))


def orders():
    """Which of two faults comes first, and limits of what one node makes."""
    x = [("x", "int8", [4, 5], [3, 2])]
    two = x + [("y", "int8", [4], [1])]
    case("concat: the axis comes before the shapes", two, [node("v", "concat", args=["x", "y"], axis=2)], "v", fault=[3, 2, 0])
    case("stack: the axis comes before the shapes", two, [node("v", "stack", args=["x", "y"], axis=3)], "v", fault=[3, 2, 0])
    case("matmul: the type comes before the rank", [("x", "bool", [], []), ("y", "int8", [], [])],
         [node("v", "matmul", args=["x", "y"])], "v", fault=[6, 2, 0])
    case("full: the value comes before the chunk", [], [node("f", "full", shape=[1], dtype="int8", value=-129, chunk=[])], "f", fault=[5, 0, 0])
    case("full: the chunk comes before the limits", [], [node("f", "full", shape=[1] * 7, dtype="int8", value=0, chunk=[1])], "f", fault=[2, 0, 0])
    for place, shape, chunk in [(2, [2 ** 40, 2], [2 ** 27, 2]), (3, [8], [2 ** 28 + 1]), (4, [65537], [1])]:
        case(f"full: limit {place}", [], [node("f", "full", shape=shape, dtype="int8", value=0, chunk=chunk)], "f", fault=[7, 0, place])
    case("full: at the limits", [], [node("f", "full", shape=[2 ** 40], dtype="uint8", value=0, chunk=[2 ** 28])], "f",
         ("uint8", [2 ** 40], [2 ** 28]))
    case("rechunk: bytes", x, [node("v", "rechunk", args=["x"], chunk=[2 ** 14, 2 ** 14 + 1])], "v", fault=[7, 1, 3])
    case("argmax: bytes of the places", [("x", "int8", [2, 2 ** 26], [2, 2 ** 26])], [node("p", "argmax", args=["x"], axis=0)], "p", fault=[7, 1, 3])
    case("stack: chunks", [("x", "int8", [40000], [1])], [node("v", "stack", args=["x", "x"], axis=0)], "v", fault=[7, 1, 4])
    case("eye: elements", [], [node("f", "eye", rows=2 ** 40, cols=2, k=0, dtype="int8", chunk=[2 ** 14, 2 ** 14])], "f", fault=[7, 0, 2])


def main():
    parts = (broadcasts, types, kinds_of_one, kinds_of_two, extremes, bounds, literals, limits, reductions, places, prefix_sums, groups, products, views, reshapes, stretched, indices, pieces, made, chains, orders)
    for part in parts:
        part()
    names = [c["name"] for c in CASES]
    assert len(set(names)) == len(names), [n for n in names if names.count(n) > 1]
    print('{"kind":"typing","cases":[')
    print(",\n".join(json.dumps(c, separators=(",", ":")) for c in CASES))
    print("]}")


if __name__ == "__main__":
    usage_if_asked(__doc__)
    main()
