#!/usr/bin/env python3
"""Writes along.json in crates/test_cases/data: the table of cases of `run` over prefix sums and groups by labels, along one axis.

usage: tools/along_cases.py

Expected bytes come from NumPy, also those of each sum and of what is carried on the way; records, counts and lines by
compare/rules.py. Nothing comes from the program.
"""
import os
import sys

TOP = os.path.dirname(os.path.dirname(os.path.realpath(__file__)))
sys.path.insert(0, f"{TOP}/compare")
sys.path.insert(0, f"{TOP}/tools")
import elementwise_cases as tables  # noqa: E402
import rules  # noqa: E402
import worker  # noqa: E402
from elementwise_cases import expression, inputs_of, line_of, node, number, plan_over, refused, stored  # noqa: E402
from operators import axis_in, summed_axis  # noqa: E402
from rechunk_cases import planned  # noqa: E402
from reduction_cases import ran, refused_one, reported  # noqa: E402
from view_cases import AMPLE, counted, seen  # noqa: E402
from said import usage_if_asked

INTEGERS = [dtype for dtype in rules.SIZES if dtype != "bool"]
GROUPS = ("groupby_sum", "groupby_min")


def summed_text(**members):
    return expression([*inputs_of("a"), node("r", "cumulative_sum", "a", **members)])


def grouped_text(op, axis=0, groups=3):
    return expression([*inputs_of("a", "b"), node("r", op, "a", "b", axis=axis, groups=groups)])


def summed(array, split_every=rules.SPLIT_EVERY, allowed=None, **members):
    """A run of a prefix sum of an array."""
    return ran({"a": array}, summed_text(**members), allowed, split_every)


def grouped(array, labels, op="groupby_sum", axis=0, groups=3, split_every=rules.SPLIT_EVERY, allowed=None):
    """A run of groups of an array by labels."""
    return ran({"a": array, "b": labels}, grouped_text(op, axis, groups), allowed, split_every)


def refused_groups(array, labels, code, axis=0, groups=3, op="groupby_sum"):
    return refused({"a": array, "b": labels}, grouped_text(op, axis, groups), f"error 4 code={code} node=2")


def tight(arrays, text, need, split_every=rules.SPLIT_EVERY):
    """A run in just the memory that it needs, and the same in one byte less."""
    plan = plan_over(text, arrays, AMPLE, 0, split_every)
    last = len(text["nodes"]) - 1
    assert plan.need(last) == need, plan.need(last)
    row = ran(arrays, text, need, split_every)
    return [row, {"words": [*tables.words_of(need - 1, 0), *row["words"][3:]], "input": text, "holds": row["holds"],
                  "line": f"error 5 node={last} need={need} allowed={need - 1}"}]


def ends_of(dtype, count):
    """Returns numbers of a type, of which some are its ends."""
    low, high = rules.limits(dtype)
    return [(low, high, 1, high, 0, high - 1, low, 2)[at % 8] for at in range(count)]


# Prefix sums

def summed_rows():
    """The worked example, and the same in one chunk and along its one axis by number."""
    array = line_of("int32", [1, 2, 3, 4, 5], 1)
    sums = [("y/c/0", "0100000000000000"), ("y/c/1", "0300000000000000"), ("y/c/2", "0600000000000000"), ("y/c/3", "0a00000000000000"), ("y/c/4", "0f00000000000000")]
    row = seen(reported(summed(array, 2), "ok ops=7 tasks=25 starts=25 failed=0 peak=40"), *sums)
    one = reported(summed(line_of("int32", [1, 2, 3, 4, 5], 5)), "ok ops=1 tasks=1 starts=1 failed=0 peak=100")
    return [row, seen(summed(array, 2, axis=0), *sums), seen(summed(array, 2, axis=-1), *sums), seen(summed(array, 2, axis=None), *sums),
            seen(one, ("y/c/0", "0100000000000000 0300000000000000 0600000000000000 0a00000000000000 0f00000000000000")),
            summed(line_of("int32", [1, 2, 3, 4, 5], 8)), summed(line_of("int8", [-7], 1)), summed(line_of("int32", [5, -6, 7], 2), 64)]


def summed_types():
    def line(dtype):
        return line_of(dtype, ends_of(dtype, 7), 2)

    bytes_of_many = line_of("uint8", [255] * 40, 8)
    return [summed(line(dtype), 2) for dtype in INTEGERS] + [summed(bytes_of_many), summed(line_of("int8", [-128] * 20, 3), 3),
            summed(line_of("int64", [2**63 - 1, 1, 2**63 - 1, 1, -(2**63), -(2**63), 5], 1), 2), summed(line_of("uint64", [2**64 - 1] * 6, 1), 2)]


def summed_axes():
    array = stored("int16", [3, 5], [2, 2], [0, -1, 2, 30000, -4, 0, 5, -6, 7, 0, -32768, 9, 0, 11, 12], past=77, endian="big", encoding="v2", separator=".")
    cube = counted("int8", [4, 3, 5], [1, 2, 2], first=-30)
    return [summed(array, 2, axis=axis) for axis in (0, 1, -1, -2)] + [summed(cube, split_every, axis=axis) for axis in (0, 1, -1) for split_every in (2, 4)] + [
        summed(counted("int16", [2, 1, 3, 1, 2, 3], [1, 1, 2, 1, 1, 1], first=-9), 2, axis=axis) for axis in (-1, 2, 0, 3)]


def summed_sizes():
    nothing = stored("int32", [0], [4], [])
    none = reported(summed(nothing), "ok ops=1 tasks=0 starts=0 failed=0 peak=80")
    return [none, summed(stored("int8", [0, 3], [1, 2], []), axis=0), summed(stored("int8", [0, 3], [1, 2], []), 2, axis=1),
            summed(stored("uint8", [3, 0], [1, 4], []), 2, axis=0), summed(stored("int32", [1], [1], [9])), summed(stored("int32", [1, 1], [1, 3], [9]), axis=1)]


def summed_levels():
    """Sums of sums over several levels, of groups that don't divide; the last chunk of some is not whole."""
    return [summed(counted("int16", [count], [side], first=-11), split_every)
            for count, side, split_every in ((9, 1, 2), (8, 1, 2), (33, 2, 2), (34, 1, 3), (27, 1, 3), (20, 1, 5), (6, 1, 4), (5, 1, 4), (4, 1, 4), (65, 1, 64))] + [
        summed(counted("uint8", [17, 2], [1, 1]), 2, axis=0), summed(counted("int8", [2, 18], [2, 2], first=-5), 2, axis=1)]


def summed_absent():
    """Chunks that are absent are the fill value, and what stands past the edge is passed over."""
    return [summed(line_of("int16", [1, 2, 3, 4, 5, 6, 7], 2, absent=[(1,), (3,)], fill=-3, endian="big", past=9), 2),
            summed(line_of("uint64", [0] * 5, 1, absent=[(at,) for at in range(5)], fill=2**64 - 1), 2),
            summed(stored("int32", [4, 4], [2, 2], range(16), absent=[(0, 1)], fill=7), 2, axis=-1)]


def summed_refusals():
    line, square = line_of("int32", [1, 2, 3], 2), counted("int8", [2, 3], [1, 2])
    return [refused_one(line_of("bool", [1, 0], 2), 6, "cumulative_sum", axis=5), refused_one(line, 3, "cumulative_sum", axis=1), refused_one(line, 3, "cumulative_sum", axis=-2),
            refused_one(square, 3, "cumulative_sum"), refused_one(square, 3, "cumulative_sum", axis=None), refused_one(square, 3, "cumulative_sum", axis=2),
            refused_one(number("int32", 5), 3, "cumulative_sum"), refused_one(number("int32", 5), 3, "cumulative_sum", axis=0),
            refused_one(stored("int8", [1], [2**26], [3], absent=[(0,)]), 7, "cumulative_sum"),
            *[refused({"a": line}, summed_text(**members), "error 3 code=3 node=1") for members in ({"axis": 0.0}, {"axis": "0"}, {"axis": [0]}, {"axes": None}, {"keepdims": False})],
            refused({"a": line}, expression([*inputs_of("a"), node("r", "cumulative_sum", "a", "a", axis=0)]), "error 3 code=5 node=1"),
            refused({"a": line}, expression([*inputs_of("a"), node("r", "cumulative_sum", 5)]), "error 3 code=5 node=1")]


def summed_memory():
    """What needs the most: a scan alone, what is carried, or the last scan."""
    line = line_of("int32", [1, 2, 3, 4, 5], 1)
    return [*tight({"a": line_of("int32", [1, 2, 3], 4)}, summed_text(), 80), *tight({"a": line}, summed_text(), 40, 2), *tight({"a": line}, summed_text(), 536, 64),
            *tight({"a": counted("int8", [6, 4], [3, 4])}, summed_text(axis=0), 236, 2), *tight({"a": counted("int64", [6, 4], [3, 4])}, summed_text(axis=0), 320, 2)]


def summed_chains():
    """Of views and functions, under them, twice, and beside dead ones."""
    arrays = {"a": counted("int32", [4, 6], [2, 4])}
    both = [*inputs_of("a"), node("r", "cumulative_sum", "a", axis=0), node("t", "cumulative_sum", "r", axis=1)]
    window = [*inputs_of("b"), node("c", "cumulative_sum", "b"), node("h", "index", "c", index=[{"start": 3}]), node("l", "index", "c", index=[{"stop": -3}]),
              node("w", "subtract", "h", "l")]
    twice = [*inputs_of("a"), node("s", "square", "a"), node("c", "cumulative_sum", "s", axis=-1), node("d", "subtract", "c", "s"), node("dead", "cumulative_sum", "a", axis=0),
             node("m", "max", "d")]
    return [ran(arrays, expression(both), None, 2), ran({"b": line_of("int16", range(1, 12), 3)}, expression(window), None, 2), ran(arrays, expression(twice), None, 2),
            ran({}, expression([node("f", "arange", start=9, stop=-4, step=-1, dtype="int8", chunk=[3]), node("r", "cumulative_sum", "f")]), None, 2),
            ran(arrays, expression([*inputs_of("a"), node("c", "rechunk", "a", chunk=[1, 6]), node("r", "cumulative_sum", "c", axis=0)]), None, 3)]


# Groups by labels

def five():
    return line_of("int32", [1, 2, 3, 4, 5], 2), line_of("int32", [0, 1, 0, 3, 1], 2)


def grouped_rows():
    """The worked examples, and the same in one chunk and by the axis from the end."""
    row = reported(grouped(*five()), "ok ops=2 tasks=4 starts=4 failed=0 peak=144")
    sums, least = ("y/c/0", "0400000000000000 0700000000000000 0000000000000000"), ("y/c/0", "01000000 02000000 ffffff7f")
    whole = [line_of("int32", [1, 2, 3, 4, 5], 5), line_of("int32", [0, 1, 0, 3, 1], 5)]
    alone = reported(grouped(*whole), "ok ops=1 tasks=1 starts=1 failed=0 peak=88")
    truths = line_of("bool", [0, 1, 0, 1, 1], 2)
    return [seen(row, sums), seen(reported(grouped(*five(), "groupby_min"), "ok ops=2 tasks=4 starts=4 failed=0 peak=72"), least), seen(alone, sums),
            seen(grouped(*five(), axis=-1), sums), refused_groups(five()[0], truths, 6), refused_groups(truths, five()[1], 6, op="groupby_min"),
            refused({"a": five()[0], "b": five()[1]}, grouped_text("groupby_sum", 0, 0), "error 3 code=3 node=2")]


def grouped_types():
    """Each type of the array, and each of the labels, with those that are in no group."""
    def labels(dtype):
        low, high = rules.limits(dtype)
        return line_of(dtype, [0, max(low, -1), 2, 3, high, 1, min(high, 2**63), low, 2], 2)

    lines = {dtype: line_of(dtype, ends_of(dtype, 9), 2) for dtype in INTEGERS}
    own = [grouped(lines[dtype], line_of("int8", [0, 1, 0, 2, 1, -1, 0, 3, 2], 2), op, split_every=2) for dtype in INTEGERS for op in GROUPS]
    return own + [grouped(lines["int16"], labels(dtype), op) for dtype in INTEGERS for op in GROUPS] + [
        grouped(line_of("uint8", [255] * 40, 8), line_of("uint8", [0] * 39 + [9], 8), groups=1), grouped(line_of("int64", [2**63 - 1, 1, 2**63 - 1, 4], 1), line_of("int64", [1, 1, 0, 0], 1), groups=2),
        grouped(line_of("uint64", [2**64 - 1, 2, 3], 2), line_of("uint64", [0, 0, 2**63 + 1], 2), groups=2)]


def grouped_axes():
    array = stored("int16", [3, 5], [2, 2], [0, -1, 2, 30000, -4, 0, 5, -6, 7, 0, -32768, 9, 0, 11, 12], past=77, endian="big", encoding="v2", separator=".")
    cube = counted("int8", [4, 3, 5], [2, 2, 2], first=-30)
    rows, columns = line_of("int32", [1, 0, 1], 2, endian="big"), line_of("int8", [2, 0, -5, 2, 1], 2, past=1)
    five_axes = counted("int8", [2, 2, 3, 1, 2], [1, 2, 2, 1, 1], first=-9)
    return [grouped(array, labels, op, axis, 3, 2) for op in GROUPS for axis, labels in ((0, rows), (-2, rows), (1, columns), (-1, columns))] + [
        grouped(cube, line_of("uint16", [1, 1, 2], 2), op, axis, 4, 2) for op in GROUPS for axis in (1, -2)] + [
        grouped(five_axes, line_of("int8", [0, 1, 0], 2), op, axis) for op in GROUPS for axis in (2, -3)]


def grouped_sizes():
    nothing, none = stored("int32", [0], [4], []), stored("int8", [0], [4], [])
    row = grouped(nothing, none, "groupby_min", groups=2)
    wide = line_of("int8", [7, 7, 7], 2)
    return [seen(reported(row, "ok ops=1 tasks=1 starts=1 failed=0 peak=44"), ("y/c/0", "ffffff7f ffffff7f")), grouped(nothing, none), grouped(stored("int8", [0, 3], [1, 2], []), none, axis=0),
            grouped(stored("int8", [0, 3], [1, 2], []), line_of("int8", [1, 0, 1], 2), axis=1), grouped(stored("int8", [3, 0], [2, 2], []), line_of("int8", [1, 0, 1], 2)),
            grouped(line_of("int16", [-4], 1), line_of("int16", [0], 1), groups=1), grouped(wide, line_of("int16", [299, 0, 300], 2), groups=300),
            grouped(wide, line_of("int8", [-1, -1, -1], 2), "groupby_min", groups=1)]


def grouped_levels():
    """Merges in several rounds; each label's elements lie in one chunk, in some, or in all."""
    def labels(count, side):
        return line_of("int16", [(7 * at) % 5 - 1 for at in range(count)], side)

    cases = ((9, 1, 2), (33, 2, 2), (34, 1, 3), (20, 1, 5), (5, 1, 4), (65, 1, 64))
    return [grouped(counted("int16", [count], [side], first=-11), labels(count, side), op, 0, 3, split_every) for count, side, split_every in cases for op in GROUPS] + [
        grouped(line_of("int8", range(12), 2), line_of("int8", [at // 4 for at in range(12)], 2), op, 0, 3, 2) for op in GROUPS]


def grouped_labels():
    """Labels in other chunks are copied first; chunks that are absent have the fill value; and the array itself as labels."""
    array, labels = five()
    in_others = [line_of("int32", [0, 1, 0, 3, 1], side) for side in (1, 3, 5)]
    matrix = counted("int8", [5, 3], [2, 2], first=-7)
    own = line_of("int16", [0, 3, 2, 1, -1, 3, 2, 3], 3)
    itself = [ran({"a": own}, expression([*inputs_of("a"), node("r", op, "a", "a", axis=0, groups=4)]), None, 2) for op in GROUPS]
    names = {"nodes": [node("x", "input", name="a"), node("z", "input", name="a"), node("r", "groupby_sum", "x", "z", axis=0, groups=4)], "out": "r", "store_as": "y"}
    made = expression([*inputs_of("a"), node("l", "arange", start=-1, stop=4, step=1, dtype="int8", chunk=[4]), node("r", "groupby_sum", "a", "l", axis=0, groups=2)])
    return [grouped(array, other, op) for other in in_others for op in GROUPS] + [
        *[grouped(matrix, other, axis=0) for other in in_others], grouped(matrix, line_of("uint8", [2, 2, 0], 3), "groupby_min", 1), *itself, ran({"a": own}, names, None, 2), ran({"a": array}, made),
        grouped(array, line_of("int32", [0, 1, 0, 3, 1], 2, absent=[(1,)], fill=2)), grouped(array, line_of("int32", [0] * 5, 2, absent=[(0,), (1,), (2,)], fill=-1, endian="big")),
        grouped(line_of("int16", [5, 5, 5, 5, 5], 2, absent=[(0,), (2,)], fill=-9), labels, "groupby_min")]


def grouped_refusals():
    array, labels = five()
    square, wide = counted("int8", [2, 3], [1, 2]), counted("int8", [1, 1, 1, 1, 1, 5], [1, 1, 1, 1, 1, 2])
    forms = ({"groups": 65537}, {"groups": -1}, {"groups": 2.0}, {"groups": True}, {"groups": None}, {"axis": None}, {"axis": [0]}, {"keepdims": False})
    def formed(op, **members):
        return expression([*inputs_of("a", "b"), node("r", op, "a", "b", **{"axis": 0, "groups": 3, **members})])

    large = stored("int8", [1], [2**26], [3], absent=[(0,)])
    return [refused_groups(array, labels, 3, 1), refused_groups(array, labels, 3, -2), refused_groups(number("int8", 3), labels, 3), refused_groups(array, line_of("int8", [0] * 4, 2), 2),
            refused_groups(array, square, 2), refused_groups(array, number("int8", 0), 2), refused_groups(square, line_of("int8", [0, 1], 2), 2, 1), refused_groups(wide, labels, 7, -1),
            refused_groups(wide, line_of("int8", [0] * 4, 2), 2, -1), refused_groups(square, line_of("bool", [0, 1], 2), 6, 7), refused_groups(large, line_of("int64", [0], 1), 7),
            *[refused({"a": array, "b": labels}, formed(op, **members), "error 3 code=3 node=2") for op in GROUPS for members in forms],
            *[refused({"a": array, "b": labels}, expression([*inputs_of("a", "b"), {"id": "r", "op": "groupby_sum", "args": args, "axis": 0, "groups": 3}]), "error 3 code=5 node=2")
              for args in (["a"], ["a", "b", "b"], ["a", 0], [True, "b"])],
            planned({"a": array, "b": labels}, grouped_text("groupby_min", 0, 65536))]


def grouped_memory():
    """What needs the most: the fold by labels, a merge, or the copy of the labels."""
    array, labels = five()
    whole = {"a": line_of("int32", [1, 2, 3, 4, 5], 5), "b": line_of("int32", [0, 1, 0, 3, 1], 5)}
    other = {"a": array, "b": line_of("int64", [0, 1, 0, 3, 1], 5)}
    wide = {"a": line_of("int8", [1, 2, 3, 4, 5], 1), "b": line_of("int64", [0, 1, 0, 3, 1], 5)}
    return [*tight(whole, grouped_text("groupby_sum"), 88), *tight({"a": array, "b": labels}, grouped_text("groupby_sum"), 144), *tight({"a": array, "b": labels}, grouped_text("groupby_min"), 72),
            *tight({"a": array, "b": labels}, grouped_text("groupby_min"), 48, 2), *tight(other, grouped_text("groupby_min"), 80, 2), *tight(wide, grouped_text("groupby_min", 0, 1), 80)]


def grouped_chains():
    """Of views and functions, under them, and one after the other."""
    arrays = {"a": counted("int32", [4, 6], [2, 4]), "b": line_of("int16", [0, 1, 0, 2, 1, 0], 4)}
    means = [*inputs_of("a", "b"), node("s", "groupby_sum", "a", "b", axis=1, groups=3), node("o", "full", shape=[6], dtype="int8", value=1, chunk=[4]),
             node("n", "groupby_sum", "o", "b", axis=0, groups=3), node("m", "floor_divide", "s", "n")]
    greatest = [*inputs_of("a", "b"), node("i", "bitwise_invert", "a"), node("l", "groupby_min", "i", "b", axis=1, groups=3), node("r", "bitwise_invert", "l")]
    totals = [*inputs_of("a", "b"), node("s", "groupby_sum", "a", "b", axis=1, groups=3), node("r", "cumulative_sum", "s", axis=0), node("dead", "groupby_min", "a", "b", axis=1, groups=2)]
    counts = [*inputs_of("b"), node("l", "remainder", "b", 2), node("r", "groupby_sum", "b", "l", axis=0, groups=2), node("t", "sum", "r")]
    return [ran(arrays, expression(nodes), None, 2) for nodes in (means, greatest)] + [ran(arrays, expression(totals, "r"), None, 2), ran({"b": arrays["b"]}, expression(counts), None, 2)]


def plan_rows():
    """What is printed of their operations, in the order in which they are carried out."""
    labels = line_of("int32", [0, 1, 0, 3, 1], 5)
    sums = planned({"a": line_of("int32", [1, 2, 3, 4, 5], 1)}, summed_text(), None, 0, 2)
    assert [line.split()[2] for line in sums["output"].splitlines()[:-1]] == ["fold", "merge", "merge", "carry", "carry", "carry", "scan"], sums["output"]
    groups = planned({"a": five()[0], "b": labels}, grouped_text("groupby_sum"), None, 7)
    assert [line.split()[2] for line in groups["output"].splitlines()[:-1]] == ["copy", "groupfold", "merge"], groups["output"]
    return [sums, groups, planned({"a": counted("int16", [3, 7], [2, 2])}, summed_text(axis=1), 96, 0, 3), planned({"a": counted("int16", [3, 7], [2, 7])}, summed_text(axis=1))]


# Each call failing

def chunks_read(plan, k, at, place):
    """Returns the keys of the chunks that a task of an operation reads, in order. No argument is copied first."""
    step, args, last = plan.steps[k][at], plan.arrays(k), len(plan.steps[k]) - 1
    is_group = plan.expr["nodes"][k]["op"] in GROUPS
    rank = len(plan.infos[args[0]][1])
    axis = (axis_in if is_group else summed_axis)(*((plan.expr["nodes"][k]["axis"], rank) if is_group else (plan.expr["nodes"][k], rank)))

    def part(before, moved, index):
        return plan.part_key(k, before, 0, index[:moved] + (index[moved],) + index[moved + 1:])

    def neighbours(before, moved, low, high):
        return [plan.part_key(k, before, 0, (*place[:moved], at_axis, *place[moved + 1:])) for at_axis in range(low, high)]

    if step.kind == "groupfold":
        number_of_part = place[rank] if len(place) > rank else 0
        return [plan.key(args[0], (*place[:axis], number_of_part, *place[axis + 1:rank])), plan.key(args[1], (number_of_part,))]
    if step.kind == "merge":
        moved = rank if is_group else axis
        place = (*place, 0) if len(place) == moved else place
        count = plan.steps[k][at - 1].grid()[moved]
        return neighbours(at - 1, moved, place[moved] * plan.split_every, min(count, (place[moved] + 1) * plan.split_every))
    if step.kind == "carry":
        group = place[axis] // plan.split_every
        above = neighbours(at - 1, axis, group, group + 1) if plan.steps[k][at - 1].kind == "carry" else []
        return neighbours(last - 1 - at, axis, group * plan.split_every, place[axis]) + above
    own = [plan.key(args[0], place)]
    return own + [part(at - 1, axis, tuple(place))] if step.kind == "scan" and at else own


def looped(arrays, text, split_every):
    """One node in rounds, each call failing once and for good, a stop before each, and each put late."""
    plan = plan_over(text, arrays, AMPLE, 0, split_every)
    k = len(text["nodes"]) - 1
    calls = [(f"{name}/zarr.json", 0, None) for name in arrays] + [(key, 0, None) for key in plan.keys_in_the_way()]
    calls += [(key, count, None) for count, key in enumerate(plan.keys_in_the_way()[:2])]
    tasks = [worker.Task(at, task, chunks_read(plan, k, at, place), [plan.part_key(k, at, 0, place)])
             for at, step in enumerate(plan.steps[k]) for task, place in enumerate(step.places())]
    calls += worker.calls_of(tasks)
    ends = [[f"error 10 op={task[0]} task={task[1]}" if task else f"error 16 key={key}", done, tables.BEFORE if done else ""] for key, done, task in calls]
    first = next(at for at, call in enumerate(calls) if call[2])
    loops = {"ends": ends, "once": {"from": first, "output": plan.report(1)}, "late": 2, "sinks": True}
    row = ran(arrays, text, None, split_every)
    return {**row, "leaves": worker.in_order_stored(row["leaves"], tasks), "calls": len(calls), "loops": loops}


def along_cases():
    array, labels = five()
    return [
        {"name": "sums up to each place", "rows": summed_rows()},
        {"name": "sums up to each place, of each type", "rows": summed_types()},
        {"name": "sums along each axis", "rows": summed_axes()},
        {"name": "sums along axes of no element and of one", "rows": summed_sizes()},
        {"name": "sums of sums over several levels", "rows": summed_levels()},
        {"name": "sums where chunks are absent", "rows": summed_absent()},
        {"name": "prefix sums that are refused", "rows": summed_refusals()},
        {"name": "the memory of prefix sums", "rows": summed_memory()},
        {"name": "prefix sums of views and of functions", "rows": summed_chains()},
        {"name": "groups by labels", "rows": grouped_rows()},
        {"name": "groups of each type by labels of each type", "rows": grouped_types()},
        {"name": "groups along each axis", "rows": grouped_axes()},
        {"name": "groups of no element and of one", "rows": grouped_sizes()},
        {"name": "groups in several rounds", "rows": grouped_levels()},
        {"name": "labels in other chunks, and labels that are absent", "rows": grouped_labels()},
        {"name": "groups that are refused", "rows": grouped_refusals()},
        {"name": "the memory of groups", "rows": grouped_memory()},
        {"name": "groups of views and of functions", "rows": grouped_chains()},
        {"name": "plans of prefix sums and of groups", "rows": plan_rows()},
        {"name": "sums over levels, each call failing", **looped({"a": line_of("int32", [1, 2, 3, 4, 5], 2)}, summed_text(), 2)},
        {"name": "groups in rounds, each call failing", **looped({"a": array, "b": labels}, grouped_text("groupby_min"), 2)}]


if __name__ == "__main__":
    usage_if_asked(__doc__)
    tables.write("along.json", along_cases())
