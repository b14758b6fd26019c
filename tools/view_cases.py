#!/usr/bin/env python3
"""Writes views.json in crates/test_cases/data: the table of cases of `run` over views and made arrays.

usage: tools/view_cases.py

Expected bytes come from NumPy, by compare/values.py; records, counts and lines by compare/rules.py. Nothing comes from the program.
"""
import os
import sys

import numpy

TOP = os.path.dirname(os.path.dirname(os.path.realpath(__file__)))
sys.path.insert(0, f"{TOP}/compare")
sys.path.insert(0, f"{TOP}/tools")
import compare  # noqa: E402
import elementwise_cases as tables  # noqa: E402
import rules  # noqa: E402
import worker  # noqa: E402
from elementwise_cases import expression, inputs_of, line_of, node, plan_over, refused, stored  # noqa: E402
from said import usage_if_asked

AMPLE = 200000000


def array_of(array):
    """Returns the elements of a stored array as NumPy's."""
    values = [array.elements[index] for index in rules.indices(array.array.shape)]
    return numpy.array(values, array.array.dtype).reshape(array.array.shape)


def made_by(plan, arrays):
    """Returns the chunks that a plan makes, in the order of its tasks."""
    elements = compare.numpy_values(plan, {name: array_of(array) for name, array in arrays.items()})
    return [[plan.key(k, place), tables.spelled(plan.array(k), compare.bytes_of(plan.array(k), compare.whole_chunk(plan.array(k), elements[k], place)))]
            for k in plan.made for place in plan.chunks(k)]


def ran(arrays, text, allowed=None, **more):
    """Returns the row of a run that ends with 0."""
    plan = plan_over(text, arrays, allowed or AMPLE)
    texts = [["_cubed/y/plan.json", plan.record()], ["y/zarr.json", plan.array(plan.out).written()]]
    return {"words": tables.words_of(allowed, 0), "input": text, "holds": tables.holds_of(arrays), **more,
            "output": plan.report(), "leaves": texts + made_by(plan, arrays)}


def of_one(array, op, **members):
    """A run of one view of an array."""
    return ran({"a": array}, expression([*inputs_of("a"), node("v", op, "a", **members)]))


def seen(row, *chunks):
    """The row, whose last chunks must be these, written by hand."""
    assert row["leaves"][-len(chunks):] == [[key, {"hex": data}] for key, data in chunks], row["leaves"]
    return row


def counted(dtype, shape, chunk, first=1, **layout):
    return stored(dtype, shape, chunk, range(first, first + int(numpy.prod(shape))), **layout)


def refused_view(array, code, op, **members):
    return refused({"a": array}, expression([*inputs_of("a"), node("v", op, "a", **members)]), f"error 4 code={code} node=1")


# Worked examples

def reversed_rows():
    five = line_of("int32", [0, 1, 2, 3, 4], 2)
    return [seen(of_one(five, "index", index=[{"step": -2}]), ("y/c/0", "04000000 02000000"), ("y/c/1", "00000000 00000000")),
            refused_view(five, 9, "index", index=[-6])]


def reshaped_rows():
    array = counted("int32", [2, 3], [1, 2])
    row = seen(of_one(array, "reshape", shape=[3, -1]), ("y/c/0/0", "01000000 02000000"), ("y/c/1/0", "03000000 04000000"), ("y/c/2/0", "05000000 06000000"))
    return [row, refused_view(array, 8, "reshape", shape=[4, -1])]


def joined_rows():
    arrays = {"a": line_of("int32", [1, 2, 3], 2), "b": line_of("int32", [4, 5], 2)}
    both = [*inputs_of("a", "b"), node("c", "concat", "a", "b", axis=0)]
    first = ran(arrays, expression(both))
    assert first["output"] == "ok ops=1 tasks=3 starts=3 failed=0 peak=16\n"
    second = ran(arrays, expression([*both, node("r", "roll", "c", shifts=[2], axes=[0])]))
    return [seen(first, ("y/c/0", "01000000 02000000"), ("y/c/1", "03000000 04000000"), ("y/c/2", "05000000 00000000")),
            seen(second, ("y/c/0", "04000000 05000000"), ("y/c/1", "01000000 02000000"), ("y/c/2", "03000000 00000000"))]


def made_rows():
    count = node("s", "arange", start=0, stop=6, step=1, dtype="int32", chunk=[4])
    first = ran({}, expression([count]), 64)
    assert first["output"] == "ok ops=1 tasks=2 starts=2 failed=0 peak=32\n"
    many = [node("r", "arange", start=0, stop=100, step=1, dtype="int8", chunk=[1]), node("b", "broadcast_to", "r", shape=[400, 100], chunk=[1, 1]),
            node("n", "negative", "b")]
    return [seen(first, ("y/c/0", "00000000 01000000 02000000 03000000"), ("y/c/1", "04000000 05000000 00000000 00000000")),
            refused({}, expression([count]), "error 5 node=0 need=32 allowed=31", 31),
            refused({}, expression(many), "error 6 which=1 count=80100")]


# Each view, over several types, chunks that don't divide, and axes of size 0 and 1

def index_rows():
    array = counted("int16", [5, 4], [2, 3], endian="big")
    entries = [[{"start": 1, "stop": None, "step": 2}], [-1], ["...", {"step": -1}], ["new", {"stop": 3}, 2], [{"start": 4, "stop": 0, "step": -3}, "..."],
               [{"start": 3, "stop": 3}], ["...", "new", {"start": -1}], [{"start": -100, "stop": 100}, {"start": 100, "stop": -100, "step": -2}], [0, 0]]
    return [of_one(array, "index", index=items) for items in entries]


def turned_rows():
    array = counted("uint8", [3, 2, 4], [2, 2, 3])
    return [of_one(array, "permute_dims", axes=axes) for axes in ([2, 0, 1], [0, 1, 2], [1, 2, 0])] + [
        of_one(array, "flip"), of_one(array, "flip", axes=[0, -1]), of_one(array, "flip", axes=[]),
        of_one(array, "roll", shifts=[1, -2], axes=[0, 2]), of_one(array, "roll", shifts=[-1], axes=[-1]), of_one(array, "roll", shifts=[], axes=[]),
        of_one(array, "roll", shifts=[2**63 - 1, -(2**63)], axes=[2, 0]), of_one(counted("int8", [0, 3], [1, 2]), "roll", shifts=[1], axes=[0])]


def shaped_rows():
    array = counted("int64", [2, 3, 4], [1, 2, 4], first=-9)
    shapes = [[24], [4, 6], [3, 2, 2, 2], [1, 24, 1], [-1, 3], [2, 12]]
    one = counted("int32", [1, 3, 1], [1, 2, 1])
    return [of_one(array, "reshape", shape=shape) for shape in shapes] + [
        of_one(counted("int8", [0, 3], [2, 2]), "reshape", shape=[5, 0]), of_one(number(7), "reshape", shape=[1, 1]),
        of_one(array, "expand_dims", axis=0), of_one(array, "expand_dims", axis=-1), of_one(array, "expand_dims", axis=2),
        of_one(one, "squeeze", axes=[0]), of_one(one, "squeeze", axes=[-1, 0]), of_one(one, "squeeze", axes=[])]


def number(value):
    return stored("int32", [], [], [value])


def wider_rows():
    return [of_one(counted("int32", [1, 3], [1, 2]), "broadcast_to", shape=[2, 4, 3], chunk=[1, 3, 2]),
            of_one(counted("int16", [3], [2]), "broadcast_to", shape=[2, 3], chunk=[2, 3]), of_one(number(5), "broadcast_to", shape=[3], chunk=[2]),
            of_one(counted("uint16", [2, 1], [2, 1]), "broadcast_to", shape=[2, 0], chunk=[1, 1])]


def several_rows():
    def run(op, axis, *arrays):
        names = "abcd"[:len(arrays)]
        return ran(dict(zip(names, arrays)), expression([*inputs_of(*names), node("v", op, *names, axis=axis)]))

    small, wide = line_of("int8", [-1, 2, -128], 2), line_of("uint8", [255, 0], 4)
    matrix, other = counted("int32", [2, 3], [2, 2]), counted("int32", [2, 2], [1, 1], first=50)
    twice = expression([*inputs_of("a"), node("v", "concat", "a", "a", axis=-1)])
    return [run("concat", 0, small, wide), run("concat", 0, wide, small), run("concat", -1, matrix, other, matrix), run("concat", 0, matrix, counted("uint16", [1, 3], [1, 3])),
            run("concat", 0, line_of("int32", [], 2), line_of("int32", [1, 2, 3], 2)), ran({"a": matrix}, twice),
            run("stack", 0, small, line_of("uint16", [1, 65535, 3], 3)), run("stack", -1, matrix, matrix), run("stack", 1, matrix, counted("int32", [2, 3], [1, 3], first=9), matrix)]


def triangle_rows():
    array = counted("int32", [4, 5], [2, 2])
    stacked = counted("int8", [2, 3, 3], [1, 2, 2])
    return [of_one(array, op, k=k) for op in ("tril", "triu") for k in (0, 1, -2, 9, -9, 2**63 - 1, -(2**63))] + [of_one(stacked, op, k=-1) for op in ("tril", "triu")]


def creation_rows():
    made = [node("v", "full", shape=[3, 2], dtype="int16", value=-7, chunk=[2, 2]), node("v", "full", shape=[], dtype="bool", value=True, chunk=[]),
            node("v", "full", shape=[2], dtype="uint64", value=2**64 - 1, chunk=[3]), node("v", "full", shape=[0], dtype="int8", value=1, chunk=[3]),
            node("v", "arange", start=5, stop=-6, step=-3, dtype="int8", chunk=[3]), node("v", "arange", start=3, stop=3, step=1, dtype="uint8", chunk=[3]),
            node("v", "arange", start=-(2**63), stop=2**63 - 1, step=2**62, dtype="int64", chunk=[2]),
            node("v", "eye", rows=3, cols=4, k=1, dtype="uint8", chunk=[2, 2]), node("v", "eye", rows=3, cols=3, k=-1, dtype="int64", chunk=[2, 3]),
            node("v", "eye", rows=2, cols=2, k=2**63 - 1, dtype="int8", chunk=[2, 2])]
    return [ran({}, expression([it])) for it in made]


def truth_rows():
    """A stored byte other than 0 and 1 is true, and is stored as 1."""
    array = stored("bool", [4], [2], [1, 0, 1, 1], raw={(0,): {"hex": "07 00"}, (1,): {"hex": "ff 02"}})
    return [seen(of_one(array, "flip"), ("y/c/0", "01 01"), ("y/c/1", "00 01"))]


def chain_rows():
    """Views of views, of elementwise results, and under them."""
    array = {"a": counted("int32", [4, 6], [2, 4])}
    nodes = [*inputs_of("a"), node("s", "square", "a"), node("p", "permute_dims", "s", axes=[1, 0]), node("f", "flip", "p", axes=[0]),
             node("i", "index", "f", index=[{"start": 1, "step": 2}, {"stop": 3}]), node("n", "negative", "i")]
    dead = [*inputs_of("a"), node("z", "stack", "a", "a", axis=0), node("t", "triu", "a", k=0), node("d", "reshape", "z", shape=[48])]
    return [ran(array, expression(nodes)), ran(array, expression(dead, "t")),
            ran(array, expression([*inputs_of("a"), node("e", "full", shape=[4, 6], dtype="int32", value=3, chunk=[2, 4]), node("s", "add", "a", "e")]))]


def absent_rows():
    """A chunk that no element comes from isn't read, so it may be of another length."""
    array = counted("int32", [6], [2], raw={(2,): {"hex": "01"}})
    front = ran({"a": array}, expression([*inputs_of("a"), node("v", "index", "a", index=[{"stop": 3}])]), calls=12)
    bad = expression([*inputs_of("a"), node("v", "flip", "a")])
    row = refused({"a": array}, bad, "error 13 key=a/c/2 got=1 want=8")
    return [front, {**row, "leaves": ran({"a": array}, bad)["leaves"][:2]}]


def large_row():
    """One chunk's worth of an array of 65,536 chunks, of which none is held: each other call of the depot would be one too many."""
    array = stored("int8", [65536], [1], [0] * 65536, absent={(at,) for at in range(65536)})
    return ran({"a": array}, expression([*inputs_of("a"), node("v", "index", "a", index=[{"start": 40000, "stop": 40001}])]), calls=9)


def memory_rows():
    """The greatest chunk of the sources and the result, and a chunk of the result."""
    row = {"a": counted("int32", [6], [6]), "b": counted("int8", [4], [4])}
    text = expression([*inputs_of("a"), node("v", "index", "a", index=[{"stop": 2}])])
    joined = expression([*inputs_of("b", "a"), node("v", "concat", "b", "a", axis=0)])
    return [ran({"a": row["a"]}, text, 32), refused({"a": row["a"]}, text, "error 5 node=1 need=32 allowed=31", 31),
            ran(row, joined, 40), refused(row, joined, "error 5 node=2 need=40 allowed=39", 39)]


def reads_of(plan, k, place):
    """Returns the chunks that a task reads, in order."""
    entry = plan.expr["nodes"][k]
    if entry["op"] in rules.FUNCTIONS:
        return plan.task_inputs(k, place)
    places = compare.values.origins(entry, [plan.infos[arg][1] for arg in plan.arrays(k)])
    part = places[compare.place_of(place, plan.array(k))]
    found, first = [], 0
    for arg in plan.arrays(k):
        _, shape, chunk = plan.infos[arg]
        count = int(numpy.prod(shape))
        own = {int(at) - first for at in part.reshape(-1) if first <= at < first + count}
        found += [(arg, where) for where in sorted({tuple(int(i) // side for i, side in zip(numpy.unravel_index(at, shape), chunk)) for at in own})]
        first += count
    return found


def looped():
    """Views of two arrays, one in between, each call failing once and for good, a stop before each, and each put late."""
    arrays = {"a": line_of("int32", [1, 2, 3], 2), "b": line_of("int32", [4, 5], 2)}
    text = expression([*inputs_of("a", "b"), node("c", "concat", "a", "b", axis=0), node("r", "roll", "c", shifts=[2], axes=[0])])
    plan = plan_over(text, arrays, AMPLE)
    calls = [(key, 0, None) for key in ("a/zarr.json", "b/zarr.json")] + [(key, 0, None) for key in plan.keys_in_the_way()]
    calls += [(key, number, None) for number, key in enumerate(plan.keys_in_the_way()[:2])]
    tasks = [worker.Task(op, task, [plan.key(arg, where) for arg, where in reads_of(plan, k, place)], [plan.key(k, place)],
                         [plan.made.index(arg) for arg in plan.arrays(k) if arg in plan.made])
             for op, k in enumerate(plan.made) for task, place in enumerate(plan.chunks(k))]
    calls += worker.calls_of(tasks)
    ends = [[f"error 10 op={task[0]} task={task[1]}" if task else f"error 16 key={key}", done, tables.BEFORE if done else ""] for key, done, task in calls]
    first = next(at for at, call in enumerate(calls) if call[2])
    loops = {"ends": ends, "once": {"from": first, "output": plan.report(1)}, "late": len(calls), "sinks": True}
    row = ran(arrays, text)
    return {**row, "leaves": worker.in_order_stored(row["leaves"], tasks), "calls": len(calls), "loops": loops}


def view_cases():
    return [
        {"name": "a slice with a negative step", "rows": reversed_rows()},
        {"name": "a reshape, and one that doesn't fit", "rows": reshaped_rows()},
        {"name": "two arrays one behind the other, and turned round", "rows": joined_rows()},
        {"name": "numbers in a row, and too many tasks", "rows": made_rows()},
        {"name": "an array from an index", "rows": index_rows()},
        {"name": "axes in another order, flipped and rolled", "rows": turned_rows()},
        {"name": "the same elements in another shape", "rows": shaped_rows()},
        {"name": "arrays broadcast to a shape", "rows": wider_rows()},
        {"name": "several arrays, of one type together", "rows": several_rows()},
        {"name": "triangles", "rows": triangle_rows()},
        {"name": "arrays that are made from nothing", "rows": creation_rows()},
        {"name": "truth bytes that are stored anew", "rows": truth_rows()},
        {"name": "views of views and of functions", "rows": chain_rows()},
        {"name": "chunks that aren't read", "rows": [*absent_rows(), large_row()]},
        {"name": "the memory of a view", "rows": memory_rows()},
        {"name": "two views, each call failing", **looped()}]


if __name__ == "__main__":
    usage_if_asked(__doc__)
    tables.write("views.json", view_cases())
