#!/usr/bin/env python3
"""Writes reductions.json in crates/test_cases/data: the table of cases of `run` over reductions, searches for places and products of
matrices.

usage: tools/reduction_cases.py

Expected bytes come from NumPy, also those of each partial result; records, counts and lines by compare/rules.py. Nothing comes from the
program.
"""
import os
import sys

TOP = os.path.dirname(os.path.dirname(os.path.realpath(__file__)))
sys.path.insert(0, f"{TOP}/compare")
sys.path.insert(0, f"{TOP}/tools")
import compare  # noqa: E402
import elementwise_cases as tables  # noqa: E402
import rules  # noqa: E402
import worker  # noqa: E402
from elementwise_cases import expression, inputs_of, line_of, node, plan_over, refused, stored  # noqa: E402
from reductions import FOLDS, PLACES  # noqa: E402
from view_cases import AMPLE, array_of, counted, number, seen  # noqa: E402
from said import usage_if_asked


DEMO = [node("a", "input", name="demo_a"), node("b", "input", name="demo_b"), node("s", "add", "a", "b"), node("m", "multiply", "s", 2),
        node("p", "permute_dims", "b", axes=[1, 0]), node("d", "subtract", "m", "p"), node("r", "sum", "d", axes=[1]), node("x", "argmax", "r", axis=None)]


def words_of(allowed, split_every):
    return tables.words_of(allowed, 0) + ([] if split_every == rules.SPLIT_EVERY else ["--split-every", str(split_every)])


def made_by(plan, arrays):
    """Returns the chunks that a plan makes, in the order of its tasks: of a task the values before the places."""
    elements = compare.numpy_values(plan, {name: array_of(array) for name, array in arrays.items()})
    parts = {part: (rules.Array(*info), compare.part_elements(plan, part, info, elements)) for *part, info in plan.parts() for part in [tuple(part)]}
    found = {plan.part_key(*part, place): tables.spelled(array, compare.bytes_of(array, compare.whole_chunk(array, values, place)))
             for part, (array, values) in parts.items() for place in compare.chunks_of(array)}
    return [[key, found[key]] for key in plan.made_keys()]


def ran(arrays, text, allowed=None, split_every=rules.SPLIT_EVERY, **more):
    """Returns the row of a run that ends with 0."""
    plan = plan_over(text, arrays, allowed or AMPLE, 0, split_every)
    texts = [["_cubed/y/plan.json", plan.record()], ["y/zarr.json", plan.array(plan.out).written()]]
    return {"words": words_of(allowed, split_every), "input": text, "holds": tables.holds_of(arrays), **more,
            "output": plan.report(), "leaves": texts + made_by(plan, arrays)}


def of_one(array, op, split_every=rules.SPLIT_EVERY, allowed=None, **members):
    """A run of one reduction of an array."""
    return ran({"a": array}, expression([*inputs_of("a"), node("r", op, "a", **members)]), allowed, split_every)


def refused_one(array, code, op, **members):
    return refused({"a": array}, expression([*inputs_of("a"), node("r", op, "a", **members)]), f"error 4 code={code} node=1")


def product_of(left, right, split_every=rules.SPLIT_EVERY, allowed=None, **more):
    return ran({"a": left, "b": right}, expression([*inputs_of("a", "b"), node("r", "matmul", "a", "b")]), allowed, split_every, **more)


def reported(row, line):
    assert row["output"] == line + "\n", row["output"]
    return row


# Worked examples

def empty_rows():
    nothing = stored("int32", [0], [4], [])
    row = reported(of_one(nothing, "sum"), "ok ops=1 tasks=1 starts=1 failed=0 peak=40")
    none = reported(of_one(stored("int32", [0, 3], [1, 3], []), "sum", axes=[1]), "ok ops=1 tasks=0 starts=0 failed=0 peak=32")
    return [seen(row, ("y/c", "0000000000000000")), none, refused_one(nothing, 4, "max"), refused_one(nothing, 4, "argmin"),
            of_one(nothing, "prod"), of_one(nothing, "any"), of_one(nothing, "all", keepdims=True), of_one(stored("uint8", [2, 0], [1, 1], []), "prod", axes=[1])]


def wrapped_rows():
    array = line_of("int64", [4611686018427387904, 4, 3], 1)
    row = seen(of_one(array, "prod"), ("y/c", "0000000000000000"))
    assert "tasks=4 " in row["output"]
    return [row, of_one(line_of("int32", [2**31 - 1] * 4, 2), "sum"), of_one(line_of("uint32", [2**32 - 1] * 3, 2), "prod"),
            of_one(line_of("int64", [2**63 - 1, 1, -(2**63)], 2), "sum"), of_one(line_of("uint64", [2**64 - 1, 2], 1), "sum")]


def place_rows():
    array = line_of("int32", [3, 1, 1, 1, 2], 2)
    row = reported(of_one(array, "argmin", 2), "ok ops=3 tasks=6 starts=6 failed=0 peak=44")
    rows = [seen(row, ("y/c", "0100000000000000")), refused({"a": array}, expression([*inputs_of("a"), node("r", "argmin", "a")]), "error 5 node=1 need=68 allowed=67", 67)]
    grid = stored("int16", [4, 8], [2, 4], [5, -3, 7, 7, 0, -3, 7, 1] * 4, endian="big")
    tied = stored("uint8", [4, 8], [4, 4], [9] * 24 + [1, 9, 9, 9, 9, 9, 9, 9], past=3)
    early = stored("uint8", [4, 8], [4, 4], [9, 9, 9, 9, 1, 9, 9, 9] + [9] * 16 + [1, 9, 9, 9, 9, 9, 9, 9])
    return rows + [of_one(grid, op, split_every, axis=axis, keepdims=keeps) for op in PLACES for split_every, axis, keeps in ((4, 0, False), (2, 1, True), (2, -1, False), (3, None, False), (4, None, True))] + [
        of_one(tied, "argmin"), of_one(early, "argmin", 2), of_one(early, "argmax", 2), of_one(number(5), "argmax"),
        of_one(counted("int8", [2, 3, 2], [1, 2, 1], first=-6), "argmax", 2, axis=1), of_one(stored("int8", [0, 3], [1, 2], []), "argmin", axis=1)]


def vector_rows():
    matrix = counted("int32", [2, 3], [2, 2])
    row = reported(product_of(matrix, stored("int32", [3], [2], [1, 1, 1])), "ok ops=2 tasks=3 starts=3 failed=0 peak=48")
    return [seen(row, ("y/c/0", "06000000 0f000000")), product_of(line_of("int8", [1, -2], 1), counted("int16", [2, 3], [1, 2])),
            product_of(line_of("int64", [2, 3, 4], 2), line_of("uint32", [5, 6, 7], 2)), product_of(line_of("int32", [], 3), line_of("int32", [], 3))]


# Each kind, over types, axes and chunks that don't divide

def kind_rows():
    array = stored("int16", [3, 5], [2, 2], [0, -1, 2, 30000, -4, 0, 5, -6, 7, 0, -32768, 9, 0, 11, 12], past=77)
    truths = stored("bool", [3, 4], [2, 3], [1, 0, 0, 1, 1, 1, 0, 1, 1, 0, 0, 1], past=1, raw={(1, 1): {"hex": "07 01 01 01 01 01"}})
    axes = [{}, {"axes": None, "keepdims": True}, {"axes": [0]}, {"axes": [-1], "keepdims": True}, {"axes": []}, {"axes": [1, 0]}]
    return [of_one(array, op, split_every, **which) for op in FOLDS for split_every, which in zip((4, 2, 2, 3, 2, 2), axes)] + [
        of_one(truths, op, 2, **which) for op in ("any", "all") for which in ({"axes": [0]}, {"axes": [1]}, {})] + [refused_one(truths, 6, "sum")]


def type_rows():
    def line(dtype):
        low, high = rules.limits(dtype)
        return line_of(dtype, [low, high, 1, high, low, high - 1, 2], 2)

    return [of_one(line(dtype), op, 2) for dtype in rules.SIZES for op in (("any", "all") if dtype == "bool" else FOLDS)]


def round_rows():
    """Several rounds along several axes, groups that don't divide, and axes of one part."""
    array = counted("int32", [7, 1, 9], [1, 1, 2])
    return [of_one(array, "sum", split_every, **which) for split_every in (2, 3, 64) for which in ({}, {"axes": [0, 1]}, {"axes": [2], "keepdims": True})] + [
        of_one(counted("int8", [1, 3, 1], [4, 2, 3]), "max", 2, axes=[1]), of_one(counted("int8", [2, 2, 2, 2, 2, 2], [1, 1, 1, 1, 1, 1]), "sum", 2, axes=[0, 2, 4, 5]),
        of_one(counted("uint16", [3, 0, 2], [1, 1, 1]), "sum", 2, axes=[0, 1])]


def product_rows():
    def matrices(left, right, *chunks):
        return counted("int32", left, chunks[0]), counted("int16", right, chunks[1], first=-5)

    wide = [([2, 3], [3, 4], [1, 2], [2, 3]), ([5, 4], [4, 3], [2, 4], [4, 2]), ([3, 7], [7, 2], [2, 2], [2, 1]), ([2, 2, 3], [2, 3, 2], [1, 1, 2], [1, 2, 2]),
            ([2, 1, 2, 3], [3, 3, 2], [1, 1, 2, 1], [2, 1, 2]), ([2, 3], [4, 3, 2], [2, 2], [1, 2, 1]), ([0, 3], [3, 2], [1, 2], [2, 2]), ([2, 0], [0, 3], [2, 2], [2, 2]),
            ([3], [2, 3, 2], [2], [1, 2, 1]), ([2, 3, 2], [2], [2, 1, 1], [1])]
    wraps = product_of(stored("int8", [2, 2], [2, 1], [127, 127, -128, -128]), stored("int8", [2, 2], [1, 2], [127, -128, 127, -128]))
    square = counted("int64", [4, 4], [2, 2])
    return [product_of(*matrices(*case), split_every) for case in wide for split_every in (4, 2)] + [
        wraps, ran({"a": square}, expression([*inputs_of("a"), node("r", "matmul", "a", "a")])),
        ran({"a": square}, expression([*inputs_of("a"), node("t", "permute_dims", "a", axes=[1, 0]), node("r", "matmul", "t", "a")]))]


def refused_rows():
    """Memory, by the greatest of a node's operations."""
    matrix = counted("int32", [4, 4], [2, 2])
    text = expression([*inputs_of("a", "b"), node("r", "matmul", "a", "b")])
    many = counted("int64", [9], [1])
    total = expression([*inputs_of("a"), node("r", "sum", "a")])
    return [refused({"a": many}, total, None, 47), ran({"a": many}, total, 48),
            refused({"a": matrix, "b": matrix}, text, None, 95), ran({"a": matrix, "b": matrix}, text, 96)]


def chain_rows():
    """Reductions of views and of functions, and under them; some are dead."""
    arrays = {"a": counted("int32", [4, 6], [2, 4])}
    nodes = [*inputs_of("a"), node("s", "square", "a"), node("m", "sum", "s", axes=[1], keepdims=True), node("c", "astype", "m", dtype="int32"),
             node("d", "subtract", "s", "c"), node("x", "argmax", "d", axis=0), node("dead", "prod", "a"), node("u", "sum", "x")]
    return [ran(arrays, expression(nodes), None, 2), ran(arrays, expression([*inputs_of("a"), node("f", "flip", "a"), node("x", "argmin", "f"), node("r", "expand_dims", "x", axis=0)])), place_of_demo()]


def place_of_demo():
    """A chain of every family over arrays whose results are known: the sums of its rows are 66, 54, 74 and 142, so the greatest is at 3."""
    arrays = {name: stored("int32", [4, 4], [4, 4], values) for name, values in (
        ("demo_a", [(3 * i + j) % 16 + i % 5 for i in range(4) for j in range(4)]), ("demo_b", [(i + 5 * j) % 16 for i in range(4) for j in range(4)]))}
    row = reported(ran(arrays, expression(DEMO)), "ok ops=4 tasks=4 starts=4 failed=0 peak=3904")
    sums = "".join(number.to_bytes(8, "little").hex() + " " for number in (66, 54, 74, 142)).strip()
    return seen(row, ("_cubed/y/2/c/0", sums), ("y/c", "0300000000000000"))


def chunks_read(plan, k, at, place):
    """Returns the keys of the chunks that a task of an operation reads, in order."""
    step = plan.steps[k][at]
    arg = plan.arrays(k)[0]
    _, shape, chunk = plan.infos[arg]
    index = list(place)
    if at == 0 and len(index) < len(shape):
        index = [0 if axis in step.bounds else place[sum(before not in step.bounds for before in range(axis))] for axis in range(len(shape))]
    if at == 0:
        return [plan.key(arg, index)] if all(rules.grid_of(shape, chunk)) else []
    before = plan.steps[k][at - 1]
    axis = next(axis for axis in step.bounds if step.bounds[axis] != before.bounds[axis])
    if len(index) < len(shape):
        index = [0 if axis in step.bounds else place[sum(b not in step.bounds for b in range(axis))] for axis in range(len(shape))]
    count = len(before.bounds[axis]) - 1
    group = range(index[axis] * plan.split_every, min(count, (index[axis] + 1) * plan.split_every))
    return [plan.part_key(k, at - 1, which, index[:axis] + [i] + index[axis + 1:]) for which in range(len(before.arrays)) for i in group]


def looped(op, line, split_every):
    """One reduction in rounds, each call failing once and for good, a stop before each, and each put late."""
    arrays = {"a": line}
    text = expression([*inputs_of("a"), node("r", op, "a")])
    plan = plan_over(text, arrays, AMPLE, 0, split_every)
    calls = [("a/zarr.json", 0, None)] + [(key, 0, None) for key in plan.keys_in_the_way()]
    calls += [(key, number, None) for number, key in enumerate(plan.keys_in_the_way()[:2])]
    tasks = [worker.Task(at, task, chunks_read(plan, 1, at, place), [plan.part_key(1, at, which, place) for which in range(len(step.arrays))])
             for at, step in enumerate(plan.steps[1]) for task, place in enumerate(step.places())]
    calls += worker.calls_of(tasks)
    ends = [[f"error 10 op={task[0]} task={task[1]}" if task else f"error 16 key={key}", done, tables.BEFORE if done else ""] for key, done, task in calls]
    first = next(at for at, call in enumerate(calls) if call[2])
    loops = {"ends": ends, "once": {"from": first, "output": plan.report(1)}, "late": len(calls), "sinks": True}
    row = ran(arrays, text, None, split_every)
    return {**row, "leaves": worker.in_order_stored(row["leaves"], tasks), "calls": len(calls), "loops": loops}


def reduction_cases():
    return [
        {"name": "reductions of nothing", "rows": empty_rows()},
        {"name": "sums and products that wrap", "rows": wrapped_rows()},
        {"name": "the first place of the least and of the greatest", "rows": place_rows()},
        {"name": "a matrix by a row or a column", "rows": vector_rows()},
        {"name": "each kind along each axis", "rows": kind_rows()},
        {"name": "each kind of each type", "rows": type_rows()},
        {"name": "rounds of merges", "rows": round_rows()},
        {"name": "products of matrices", "rows": product_rows()},
        {"name": "the memory of reductions and of products", "rows": refused_rows()},
        {"name": "reductions of views and of functions", "rows": chain_rows()},
        {"name": "a sum in rounds, each call failing", **looped("sum", line_of("int32", [1, 2, 3, 4, 5], 2), 2)},
        {"name": "a search for a place in rounds, each call failing", **looped("argmin", line_of("int16", [3, 1, 1, 1, 2], 2), 2)}]


if __name__ == "__main__":
    usage_if_asked(__doc__)
    tables.write("reductions.json", reduction_cases())
