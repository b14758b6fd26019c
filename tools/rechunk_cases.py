#!/usr/bin/env python3
"""Writes rechunk.json and plan.json in crates/test_cases/data: the tables of cases of `run` where arrays are copied to other chunks, and
of `plan`.

usage: tools/rechunk_cases.py

Expected bytes come from NumPy; operations, records, counts and lines from compare/rules.py, some of them written here by hand too: those
of the worked examples. Nothing comes from the program.
"""
import os
import sys

TOP = os.path.dirname(os.path.dirname(os.path.realpath(__file__)))
sys.path.insert(0, f"{TOP}/compare")
sys.path.insert(0, f"{TOP}/tools")
import elementwise_cases as tables  # noqa: E402
import rules  # noqa: E402
import worker  # noqa: E402
from elementwise_cases import ADDED, DOUBLED, a_and_b, expression, inputs_of, line_of, metadata_of, node, six, stored  # noqa: E402
from reduction_cases import DEMO, made_by, reported  # noqa: E402
from view_cases import AMPLE, counted, number, seen  # noqa: E402
from said import usage_if_asked


def words_of(command, allowed, reserved, split_every):
    words = [command] if allowed is None else [command, "--allowed-mem", str(allowed)]
    return words + (["--reserved-mem", str(reserved)] if reserved else []) + ([] if split_every == rules.SPLIT_EVERY else ["--split-every", str(split_every)])


def plan_over(arrays, text, allowed=None, reserved=0, split_every=rules.SPLIT_EVERY):
    held = {key: tables.text_of(value) for key, value in tables.holds_of(arrays)}
    return rules.counted_plan(tables.text_of(text), held.get, AMPLE if allowed is None else allowed, reserved, split_every)


def ran(arrays, text, allowed=None, reserved=0, split_every=rules.SPLIT_EVERY, **more):
    """Returns the row of a run that ends with 0."""
    plan = plan_over(arrays, text, allowed, reserved, split_every)
    texts = [["_cubed/y/plan.json", plan.record()], ["y/zarr.json", plan.array(plan.out).written()]]
    return {"words": words_of("run", allowed, reserved, split_every), "input": text, "holds": tables.holds_of(arrays), **more,
            "output": plan.report(), "leaves": texts + made_by(plan, arrays)}


def planned(arrays, text, allowed=None, reserved=0, split_every=rules.SPLIT_EVERY, **more):
    """Returns the row of a plan that is printed."""
    return {"words": words_of("plan", allowed, reserved, split_every), "input": text, "holds": tables.holds_of(arrays), **more,
            "output": plan_over(arrays, text, allowed, reserved, split_every).lines()}


def refused(command, arrays, text, line=None, allowed=None, reserved=0, **more):
    """Returns the row of a call that is refused; without a line, with that of the rules."""
    if line is None:
        try:
            plan = plan_over(arrays, text, allowed, reserved)
            raise SystemExit(f"{text} isn't refused: {plan.lines()}")
        except rules.Refused as answer:
            line = f"error {answer}"
    return {"words": words_of(command, allowed, reserved, rules.SPLIT_EVERY), "input": text, "holds": tables.holds_of(arrays), **more, "line": line}


def copied(array, chunk, allowed=None, **more):
    """A run that copies an array to other chunks."""
    return ran({"a": array}, expression([*inputs_of("a"), node("r", "rechunk", "a", chunk=chunk)]), allowed, **more)


def around(array, chunk):
    """Runs of a copy in as little memory as it takes, in some more, and in as much as there is; and one byte less."""
    text = expression([*inputs_of("a"), node("r", "rechunk", "a", chunk=chunk)])
    need = plan_over({"a": array}, text).need(1)
    found = {need: ran({"a": array}, text, need)}
    for allowed in (need + 1, need * 3 // 2, need * 2, need * 3, need * 6, None):
        row = ran({"a": array}, text, allowed)
        if row["output"] not in [other["output"] for other in found.values()]:
            found[allowed] = row
    return [refused("run", {"a": array}, text, f"error 5 node=1 need={need} allowed={need - 1}", need - 1), *found.values()]


# Worked examples

def tight(command):
    text = expression([*inputs_of("a"), node("r", "rechunk", "a", chunk=[3])])
    return {"a": counted("int16", [7], [5])}, text, refused(command, {"a": counted("int16", [7], [5])}, text, "error 5 node=1 need=20 allowed=19", 19)


def tight_rows():
    arrays, text, less = tight("run")
    row = reported(ran(arrays, text, 20), "ok ops=1 tasks=3 starts=3 failed=0 peak=16")
    return [seen(row, ("y/c/0", "0100 0200 0300"), ("y/c/1", "0400 0500 0600"), ("y/c/2", "0700 0000 0000")), less, ran(arrays, text)]


def chain_of(count, size, chunk):
    """Returns numbers in a row, copied so many times to chunks of one."""
    nodes = [node("s", "arange", start=0, stop=size, step=1, dtype="int32", chunk=[chunk])]
    return expression(nodes + [node(f"r{at}", "rechunk", f"r{at - 1}" if at else "s", chunk=[1]) for at in range(count)])


def chain_rows():
    return [ran({}, chain_of(3, 6, 6)), ran({}, chain_of(4, 5, 2), 16), ran({}, chain_of(2, 7, 3), 24)]


# Copies to other chunks, over types, axes and layouts

def stage_rows():
    grid = counted("int8", [4, 4], [4, 1])
    row = reported(copied(grid, [1, 4], 16), "ok ops=2 tasks=4 starts=4 failed=0 peak=12")
    return [seen(row, ("y/c/0/0", "01 02 03 04"), ("y/c/1/0", "05 06 07 08"), ("y/c/2/0", "09 0a 0b 0c"), ("y/c/3/0", "0d 0e 0f 10")),
            *around(grid, [1, 4]), *around(counted("int16", [5, 7], [2, 3]), [3, 2]), *around(counted("int64", [3, 4, 5], [3, 1, 2]), [1, 4, 1]),
            *around(counted("uint8", [9, 6], [1, 6]), [9, 1])]


def axis_rows():
    """Ranks from 0 to 6, chunks past the edges, in the memory that is needed and in ample memory."""
    pairs = [(number(7), []), (counted("int32", [5], [9]), [2]), (counted("int32", [6], [2]), [8]), (counted("uint16", [3, 5], [2, 2]), [4, 3]),
             (counted("int8", [2, 3, 4], [1, 2, 3]), [2, 1, 2]), (counted("int16", [3, 2, 2, 3], [2, 1, 2, 1]), [1, 2, 1, 3]),
             (counted("uint8", [2, 1, 3, 2, 2], [1, 1, 2, 1, 2]), [2, 4, 1, 2, 1]), (counted("int8", [2, 2, 1, 2, 3, 2], [1, 2, 1, 1, 2, 2]), [2, 1, 1, 2, 1, 1])]
    rows = []
    for array, chunk in pairs:
        text = expression([*inputs_of("a"), node("r", "rechunk", "a", chunk=chunk)])
        rows += [ran({"a": array}, text), ran({"a": array}, text, plan_over({"a": array}, text).need(1))]
    return rows


def type_rows():
    def ends(dtype):
        low, high = rules.limits(dtype)
        return line_of(dtype, [low, high, low, 1, high, 0, 1], 3, past=high)

    return [copied(ends(dtype), [2]) for dtype in rules.SIZES]


def layout_rows():
    """The other byte order, other keys, chunks that are absent, truth bytes other than 1, and anything past the edge."""
    bent = stored("int16", [5], [2], [258, -2, 3, 4, -5], absent={(1,)}, past=77, endian="big", fill=-1, encoding="v2", separator=".")
    truths = stored("bool", [2, 3], [2, 2], [1, 0, 1, 1, 1, 0], past=1, raw={(0, 0): {"hex": "07 00 ff 01"}}, fill=1, separator=".")
    nothing = stored("uint32", [4], [2], [0] * 4, absent={(0,), (1,)}, fill=2**32 - 1)
    return [copied(bent, [3]), copied(bent, [4], 16), seen(copied(truths, [1, 3]), ("y/c/0/0", "01 00 01"), ("y/c/1/0", "01 01 00")), copied(nothing, [3])]


def nothing_rows():
    """Axes of size 0: no regions, no chunks, and yet memory."""
    empty = stored("int32", [0], [4], [])
    flat = stored("int16", [3, 0, 2], [2, 3, 1], [])
    row = reported(copied(empty, [2]), "ok ops=1 tasks=0 starts=0 failed=0 peak=20")
    return [row, copied(flat, [1, 1, 2]), copied(flat, [1, 1, 2], 24), ran({"a": empty}, expression(inputs_of("a"))),
            refused("run", {"a": empty}, expression([*inputs_of("a"), node("r", "rechunk", "a", chunk=[2])]), "error 5 node=1 need=32 allowed=31", 31)]


# Inputs that are the result

def stored_rows():
    array = stored("int16", [5, 2], [2, 2], list(range(10)), absent={(1, 0)}, past=9, endian="big", fill=-7, encoding="v2", separator=".")
    text = expression(inputs_of("a"))
    rows = [ran({"a": array}, text), ran({"a": array}, text, 16), ran({"a": array}, text, 33, 5),
            refused("run", {"a": array}, text, "error 5 node=0 need=16 allowed=15", 15), ran({"a": number(-3)}, text), ran({"a": counted("int8", [4, 4], [4, 1])}, text, 8)]
    both = a_and_b()
    return rows + [ran(both, expression(ADDED, "b"), calls=13), ran(both, expression([*inputs_of("a", "b"), node("n", "negative", "b")], "a"), 33),
                   refused("run", both, expression(ADDED, "b", "b"), "error 9 key=b/zarr.json"), refused("run", both, expression(ADDED, "a"), None, 31)]


# Arguments in other chunks

def sum_rows():
    other = {"a": six([1, 2, 3, 4, 5, 6]), "b": stored("int32", [6], [3], [10, 20, 30, 40, 50, 60])}
    stretched = {"a": stored("int32", [2, 3], [2, 2], [1, 2, 3, 4, 5, 6]), "b": stored("int32", [3], [3], [1, 2, 3])}
    one = {"a": stored("int32", [1], [4], [1]), "b": stored("int32", [1], [1], [1])}
    three = {"c": stored("bool", [4, 5], [2, 2], [1, 0, 0, 1, 1] * 4), "a": stored("int8", [4, 5], [3, 5], list(range(20))), "b": stored("int16", [4, 1], [1, 3], [-1, -2, -3, -4])}
    choice = expression([*inputs_of("c", "a", "b"), node("w", "where", "c", "a", "b")])
    column = {"a": stored("int16", [3, 1], [1, 1], [1, 2, 3]), "b": stored("uint8", [3, 4], [2, 3], list(range(12)))}
    twice = expression([*inputs_of("a", "b"), node("s", "where", "c", "b", "b"), node("c", "less", "a", 3)])
    twice["nodes"][2:] = [node("c", "less", "a", 3), node("s", "where", "c", "b", "b")]
    later = [*inputs_of("a", "b"), node("n", "negative", "b"), node("s", "add", "a", "n"), node("t", "multiply", "n", "s"), node("u", "subtract", "b", "t")]
    large = {"a": counted("int64", [12], [1]), "b": counted("int64", [12], [200], first=-5)}
    return [ran(other, expression(ADDED)), ran(other, expression(ADDED), 1600), ran(stretched, expression(ADDED)), ran(one, expression(ADDED)), ran(other, expression(DOUBLED)),
            ran(three, choice), ran(column, expression(ADDED)), ran(other, {**twice, "out": "s"}), ran(other, expression(later)), ran(other, expression(later), 1607, 7),
            ran(large, expression(ADDED), 3200), refused("run", large, expression(ADDED), "error 5 node=2 need=3200 allowed=3199", 3199),
            ran(other, expression([*inputs_of("a", "b"), node("d", "rechunk", "b", chunk=[4]), node("s", "add", "a", "d")]))]


def product_rows():
    def matrices(left, right, *chunks):
        return {"a": counted("int32", left, chunks[0]), "b": counted("int16", right, chunks[1], first=-5)}

    text = expression([*inputs_of("a", "b"), node("r", "matmul", "a", "b")])
    cases = [([2, 3], [3, 4], [1, 2], [1, 3]), ([4, 4], [4, 4], [2, 2], [1, 2]), ([3], [3], [2], [3]), ([2, 3], [3], [2, 2], [1]), ([3], [3, 2], [1], [2, 2]),
             ([2, 2, 3], [2, 3, 2], [1, 1, 2], [2, 3, 2]), ([2, 1, 2, 3], [3, 3, 2], [1, 1, 2, 1], [1, 2, 1]), ([2, 0], [0, 3], [2, 2], [1, 2]), ([3, 2, 3], [3, 2], [2, 1, 1], [3, 1])]
    square = counted("int64", [4, 4], [1, 3])
    wide = matrices([2, 4], [4, 2], [1, 1], [4, 2])
    return [ran(matrices(*case), text, None, 0, split_every) for case in cases for split_every in (4, 2)] + [
        ran({"a": square}, expression([*inputs_of("a"), node("r", "matmul", "a", "a")])), ran(wide, text, plan_over(wide, text).need(2)),
        refused("run", wide, text, None, plan_over(wide, text).need(2) - 1)]


def mixed_rows():
    """Copies between views, functions and reductions; dead ones; and what was not built before there were copies."""
    array = {"a": counted("int32", [4, 6], [2, 4])}
    other = {"a": six([1, 2, 3, 4, 5, 6]), "b": stored("int32", [6], [3], [1, 2, 3, 4, 5, 6])}
    nodes = [*inputs_of("a"), node("p", "permute_dims", "a", axes=[1, 0]), node("q", "permute_dims", "p", axes=[1, 0]), node("r", "rechunk", "q", chunk=[3, 3]), node("s", "add", "a", "r"),
             node("m", "sum", "s", axes=[1]), node("x", "rechunk", "m", chunk=[3]), node("y", "argmax", "x")]
    dead = [*inputs_of("a"), node("r", "rechunk", "a", chunk=[1, 1]), node("s", "square", "a"), node("t", "rechunk", "s", chunk=[4, 1])]
    return [ran(array, expression(nodes)), ran(array, expression(nodes), None, 0, 2), ran(array, expression(dead, "s"), calls=18), ran(array, expression(dead, "t"), 1220),
            ran(a_and_b(), expression([*inputs_of("a"), node("n", "negative", "a"), node("m", "max", "n"), node("r", "rechunk", "m", chunk=[])])),
            ran({}, expression([node("f", "full", shape=[6], dtype="int32", value=1, chunk=[4]), node("n", "rechunk", "f", chunk=[6]), node("m", "negative", "n")])),
            ran(other, expression([*inputs_of("a", "b"), node("d", "add", "a", "b"), node("n", "flip", "a"), node("m", "matmul", "n", "b")])),
            ran(other, expression([*inputs_of("a", "b"), node("d", "rechunk", "a", chunk=[6]), node("m", "matmul", "a", "b"), node("s", "stack", "m", axis=0)]))]


# What is refused, and what stands in the way

TWO_COPIES = expression([*inputs_of("a"), node("r", "rechunk", "a", chunk=[1, 4])])


def small_grid(**more):
    return {"a": counted("int8", [4, 4], [4, 1], **more)}


def way_rows():
    """Each key in the way of two copies, in the order of regions and of chunks in them."""
    arrays = {"a": metadata_of("int8", [4, 6], [4, 1])}
    text = expression([*inputs_of("a"), node("r", "rechunk", "a", chunk=[1, 6])])
    keys = plan_over(arrays, text, 24).keys_in_the_way()
    return [{**refused("run", arrays, text, f"error 9 key={key}", 24, calls=2 + at), "holds": tables.holds_of(arrays) + [[other, {"hex": "07"}] for other in keys[at:]]}
            for at, key in enumerate(keys)]


def count_rows():
    """Tasks and chunks at the border, where the record that is held is named, and one more. Metadata alone is read."""
    held = [["_cubed/y/plan.json", "{}"]]
    def line(size, chunk=1):
        return {"a": metadata_of("int8", [size], [chunk])}

    def chain(count, chunk=1):
        return expression([*inputs_of("a"), *[node(f"r{at}", "rechunk", f"r{at - 1}" if at else "a", chunk=[chunk]) for at in range(count)]])

    at_edge = [(line(65536), chain(4), None), (line(32768), chain(2), 2)]
    past = [(line(65536), chain(5), None, "error 6 which=2 count=327680"), (line(65536, 65536), chain(4), 131072, None),
            (line(32769), chain(2), 2, "error 6 which=1 count=65538"), (line(65536), chain(2), 2, "error 6 which=1 count=131072"),
            (line(65536), expression([*inputs_of("a"), *[node(f"r{at}", "rechunk", "a", chunk=[1]) for at in range(4)], node("c", "concat", "r0", "r1", "r2", "r3", axis=0)]), None, "error 4 code=7 node=5")]
    rows = []
    for arrays, text, allowed in at_edge:
        plan_over(arrays, text, allowed)
        row = refused("run", arrays, text, "error 9 key=_cubed/y/plan.json", allowed)
        rows.append({**row, "holds": row["holds"] + held})
    for arrays, text, allowed, line_ in past:
        if line_ is None:
            row = refused("run", arrays, text, "error 9 key=_cubed/y/plan.json", allowed)
            rows.append({**row, "holds": row["holds"] + held})
        else:
            rows.append(refused("run", arrays, text, line_, allowed))
    return rows


def short_rows():
    """Chunks of another length, read by a copy; and one that is never read."""
    whole = ran(small_grid(), TWO_COPIES, 16)
    def short(place):
        return {"holds": tables.holds_of(small_grid(raw={place: {"hex": "01 02 03"}}))}

    texts, chunks = whole["leaves"][:2], whole["leaves"][2:]
    first = [entry for entry in chunks if entry[0] in ("_cubed/y/0/c/0/0", "_cubed/y/0/c/1/0")]
    second = [entry for entry in chunks if entry[0] in ("_cubed/y/0/c/0/1", "_cubed/y/0/c/1/1")]
    rows = [{**whole, **short(place), "output": "", "line": f"error 13 key=a/c/{place[0]}/{place[1]} got=3 want=4", "leaves": texts, "may_leave": may}
            for place, may in (((0, 0), second), ((0, 1), second), ((0, 2), first), ((0, 3), first))]
    dead = {**a_and_b(), "b": six([1] * 6, raw={(0,): {"hex": "01"}})}
    return rows + [ran(dead, expression([*inputs_of("a", "b"), node("r", "rechunk", "b", chunk=[1]), node("s", "rechunk", "a", chunk=[2])]))]


def fault_rows():
    """Faults in the tasks of copies and behind them, as often as a task is tried and once less."""
    whole = ran(small_grid(), TWO_COPIES, 16)
    def failing(call, key, times, **more):
        return {**whole, "faults": [{"call": call, "key": key, "times": times}], **more}

    middle = [f"_cubed/y/0/c/{i}/{j}" for j in range(2) for i in range(2)]
    def stopped(call, key, line, must, may):
        return failing(call, key, 3, output="", line=line, leaves=whole["leaves"][:2] + [entry for entry in whole["leaves"] if entry[0] in must],
                       may_leave=[entry for entry in whole["leaves"] if entry[0] in may])

    again = whole["output"].replace("starts=4 failed=0", "starts=6 failed=2")
    return [failing("get", "a/c/0/2", 2, output=again), failing("put", "_cubed/y/0/c/1/1", 2, output=again), failing("get", "_cubed/y/0/c/1/0", 2, output=again),
            failing("put", "y/c/3/0", 2, output=again), stopped("get", "a/c/0/0", "error 10 op=0 task=0", [], middle[2:]),
            stopped("put", "_cubed/y/0/c/1/1", "error 10 op=0 task=1", middle[2:3], middle[:2]),
            stopped("get", "_cubed/y/0/c/0/1", "error 10 op=1 task=0", middle, ["y/c/2/0", "y/c/3/0"]),
            stopped("put", "y/c/3/0", "error 10 op=1 task=1", middle + ["y/c/2/0"], ["y/c/0/0", "y/c/1/0"])]


# Each call failing

def reads_of(plan, k, at, place):
    """Returns the keys of the chunks that a task of a copy or of a map reads, in order."""
    step = plan.steps[k][at]
    if step.kind == "copy":
        wheres = step.within(place, step.source)
        return [plan.part_key(k, at - 1, 0, where) if step.is_second else plan.key(step.arg, where) for where in wheres]
    return [plan.key(arg, where) if plan.straight(source) is not None else plan.part_key(source[0], copy_of(plan, *source), 0, where)
            for source, arg, where in plan.map_reads(k, place)]


def copy_of(plan, k, place):
    """Returns the number of the operation of a node that makes the copy of an argument in other chunks."""
    steps = plan.steps[k]
    lasts = [at for at, step in enumerate(steps) if step.kind == "copy" and not (at + 1 < len(steps) and steps[at + 1].is_second)]
    return lasts[[at for at in range(len(plan.arrays(k))) if plan.straight((k, at)) is None].index(place)]


def tasks_of(plan):
    """Returns the tasks of a plan of copies and maps."""
    steps = [(k, at, step) for k, steps in plan.steps.items() for at, step in enumerate(steps)]
    return [worker.Task(op, task, reads_of(plan, k, at, place), [plan.part_key(k, at, which, where) for which, where in step.written(place)])
            for op, (k, at, step) in enumerate(steps) for task, place in enumerate(step.places())]


def looped(arrays, text, allowed):
    """A run with each of its calls failing once and for good, a stop before each, and each put late."""
    plan = plan_over(arrays, text, allowed)
    keys = plan.keys_in_the_way()
    calls = [(f"{entry['name']}/zarr.json", 0, None) for entry in plan.expr["nodes"] if entry["op"] == "input"]
    calls += [(key, 0, None) for key in keys] + [(key, done, None) for done, key in enumerate(keys[:2])]
    tasks = tasks_of(plan)
    calls += worker.calls_of(tasks)
    ends = [[f"error 10 op={task[0]} task={task[1]}" if task else f"error 16 key={key}", done, tables.BEFORE if done else ""] for key, done, task in calls]
    first = next(at for at, call in enumerate(calls) if call[2])
    loops = {"ends": ends, "once": {"from": first, "output": plan.report(1)}, "late": len(calls), "sinks": True}
    row = ran(arrays, text, allowed)
    return {**row, "leaves": worker.in_order_stored(row["leaves"], tasks), "calls": len(calls), "loops": loops}


def rechunk_cases():
    misaligned = {"a": line_of("int16", [1, 2, 3, 4, 5], 2), "b": line_of("int16", [10, 20, 30, 40, 50], 3)}
    return [
        {"name": "other chunks in as little memory as it takes", "rows": tight_rows()},
        {"name": "one copy after another", "rows": chain_rows()},
        {"name": "copies in one stage and in two, by the memory", "rows": stage_rows()},
        {"name": "other chunks along each axis", "rows": axis_rows()},
        {"name": "other chunks of each type", "rows": type_rows()},
        {"name": "other chunks of other layouts", "rows": layout_rows()},
        {"name": "other chunks of nothing", "rows": nothing_rows()},
        {"name": "an input that is the result", "rows": stored_rows()},
        {"name": "functions of arrays in chunks that don't fit", "rows": sum_rows()},
        {"name": "products of matrices in chunks that don't fit", "rows": product_rows()},
        {"name": "copies among views, functions and reductions", "rows": mixed_rows()},
        {"name": "the keys in the way of two copies", "rows": way_rows()},
        {"name": "more tasks and more chunks than a plan may have", "rows": count_rows()},
        {"name": "chunks of another length that a copy reads", "rows": short_rows()},
        {"name": "faults in the tasks of copies", "rows": fault_rows()},
        {"name": "two copies, each call failing", **looped(small_grid(), TWO_COPIES, 16)},
        {"name": "a copy and a sum, each call failing", **looped(misaligned, expression(ADDED), None)},
        {"name": "an input that is the result, each call failing", **looped({"a": line_of("int8", [1, 2, 3], 2)}, expression(inputs_of("a")), 4)}]


# The command `plan`

def square():
    return {"a": metadata_of("int32", [512, 512], [512, 64])}, expression([*inputs_of("a"), node("r", "rechunk", "a", chunk=[64, 512])])


def printed(row, text):
    assert row["output"] == text, row["output"]
    return row


def example_rows():
    arrays, text, less = tight("plan")
    count = expression([node("s", "arange", start=0, stop=6, step=1, dtype="int32", chunk=[4])])
    return [printed(planned(arrays, text, 20, calls=1), "op 0 copy node=1 tasks=3 cells=3 projected=16\nplan ops=1 tasks=3 cells=3 peak=16\n"), {**less, "calls": 1},
            printed(planned({}, chain_of(3, 65536, 65536), calls=0),
                    "op 0 pull node=0 tasks=1 cells=1 projected=524288\nop 1 copy node=1 tasks=1 cells=65536 projected=524288\n"
                    "op 2 copy node=2 tasks=1 cells=65536 projected=262148\nop 3 copy node=3 tasks=1 cells=65536 projected=262148\nplan ops=4 tasks=4 cells=196609 peak=524288\n"),
            refused("plan", {}, chain_of(4, 65536, 65536), "error 6 which=2 count=262145"),
            printed(planned({}, count, 64), "op 0 pull node=0 tasks=2 cells=2 projected=32\nplan ops=1 tasks=2 cells=2 peak=32\n"),
            refused("plan", {}, count, "error 5 node=0 need=32 allowed=31", 31),
            printed(planned(*square(), 1000000), "op 0 copy node=1 tasks=3 cells=9 projected=540672\nop 1 copy node=1 tasks=3 cells=8 projected=540672\n"
                    "plan ops=2 tasks=6 cells=17 peak=540672\n"),
            planned(*square()), refused("plan", *square(), "error 5 node=1 need=262144 allowed=262143", 262143), planned(*square(), 262144)]


def demo_rows():
    """Every kind but one, over arrays of whose chunks none is held; and the others over small ones."""
    large = {"demo_a": metadata_of("int32", [512, 512], [64, 512]), "demo_b": metadata_of("int32", [512, 512], [512, 64])}
    row = planned(large, expression(DEMO), 1000000, calls=2)
    assert row["output"].splitlines()[-1].startswith("plan ops=8 tasks=41 ") and row["output"].endswith("peak=658944\n"), row["output"]
    small = {"demo_a": metadata_of("int32", [4, 4], [4, 4]), "demo_b": metadata_of("int32", [4, 4], [4, 4])}
    four = planned(small, expression(DEMO))
    assert four["output"].endswith("peak=3904\n") and "plan ops=4 tasks=4 " in four["output"], four["output"]
    a, matrix = metadata_of("int16", [5], [2]), metadata_of("int8", [4, 5], [2, 2])
    return [row, four, planned({"a": matrix, "b": a}, expression([*inputs_of("a", "b"), node("r", "matmul", "a", "b")])),
            planned({"a": matrix, "b": metadata_of("uint8", [5, 3], [3, 2])}, expression([*inputs_of("a", "b"), node("r", "matmul", "a", "b")]), None, 0, 2),
            *[planned({"a": matrix}, expression([*inputs_of("a"), node("r", op, "a")]), None, 9, split_every) for op in ("min", "argmin", "any") for split_every in (2, 4)],
            planned({"a": matrix}, expression(inputs_of("a"))), planned({"a": matrix}, expression(inputs_of("a")), 8), planned({"a": metadata_of("int8", [0], [2])}, expression(inputs_of("a")))]


def dead_rows():
    """Dead nodes make no operation, an input makes none, and what stands in the way is not asked for."""
    arrays = {name: metadata_of("int32", [6], [4]) for name in "ab"}
    nodes = [*ADDED, node("d", "rechunk", "a", chunk=[1]), node("t", "negative", "s")]
    held = planned(arrays, expression(ADDED), 1600, calls=2)
    nodes_of_256 = [*inputs_of("a"), *[node(f"n{at}", "negative", f"n{at - 1}" if at else "a") for at in range(255)]]
    return [planned(arrays, expression(nodes)), planned(arrays, expression(nodes, "s")), planned(arrays, expression(nodes, "d")),
            {**held, "holds": held["holds"] + [["_cubed/y/plan.json", ""], ["y/zarr.json", "{}"], ["y/c/0", ""]]}, planned(arrays, expression(ADDED, "s", "a"), calls=2),
            planned({"a": arrays["a"]}, expression(nodes_of_256), sink_room=30000)]


def word_rows():
    accepted = [["plan"], ["plan", "--split-every", "2", "--reserved-mem", "0", "--allowed-mem", "1600"], ["plan", "--allowed-mem", "+1600"], ["plan", "--reserved-mem", "007"],
                ["plan", "--split-every", "64"], ["plan", "--allowed-mem", "1099511627776", "--reserved-mem", "1099511626176"]]
    text, arrays = expression(ADDED), {name: metadata_of("int32", [6], [4]) for name in "ab"}
    rows = []
    for words in accepted:
        *told, _ = tables.options_of(words)
        rows.append({**planned(arrays, text, *told), "words": words})
    other = [["plan", "--retries", "2"], ["plan", "--retries"], ["plan", "--workers", "1"], ["plan", "--backups", "0"], ["plan", "y"], ["plan", "-"],
             ["plan", "--allowed-mem", "1600", "--allowed-mem", "1600"], ["plan", "--split-every", "4", "--reserved-mem", "1", "--split-every", "4"], ["plan", "--allowed-mem"],
             ["plan", "--allowed-mem", ""], ["plan", "--allowed-mem", "1e3"], ["plan", "--allowed-mem", "-1"], ["plan", "--allowed-mem", "1099511627777"],
             ["plan", "--allowed-mem", "18446744073709551616"], ["plan", "--reserved-mem", "1099511627777"], ["plan", "--split-every", "1"], ["plan", "--split-every", "65"],
             ["plan", "--Allowed-mem", "1600"], ["plan", "--allowed", "1600"], ["plan", "-allowed-mem", "1600"], ["plan", "1600", "--allowed-mem"]]
    rows += [{"words": words, "input": text, "holds": tables.holds_of(arrays), "line": "error 2 code=2", "calls": 0} for words in other]
    return rows + [{"words": words, "input": text, "holds": tables.holds_of(arrays), "line": "error 2 code=1", "calls": 0} for words in (["Plan"], ["plan "], ["--allowed-mem", "1600", "plan"])]


def fault_of_plan_rows():
    """Each fault of a plan, and of two the earlier."""
    both = {name: metadata_of("int32", [6], [4]) for name in "ab"}
    bad = metadata_of("int32", [6], [4])
    bad.metadata = {**bad.metadata, "codecs": ["bytes", "zstd"]}
    odd = {"a": both["a"], "b": metadata_of("int32", [5], [4])}
    askew = {"a": both["a"], "b": metadata_of("int32", [6], [1000])}
    text, no_text = expression(ADDED), expression([*ADDED, 3], "s")
    many = {"a": metadata_of("int8", [65536], [1])}

    def row(arrays, line, text=text, **more):
        return refused("plan", arrays, text, f"error {line}", more.pop("allowed", None), **more)

    def failing(key, times=3):
        return [{"call": "get", "key": key, "times": times}]

    return [
        row(both, "11", source_fails_at=0), row(both, "11", no_text, source_fails_at=1, calls=0), row(both, "3 code=1 node=0", '{"nodes":[', calls=0),
        row(both, "3 code=4 node=0", expression([node("s", "sort", "a")]), calls=0), row(both, "3 code=3 node=3", no_text, faults=failing("a/zarr.json"), calls=0),
        row(both, "16 key=a/zarr.json", faults=failing("a/zarr.json"), calls=3), {**planned(both, text, 1600), "faults": failing("a/zarr.json", 2), "calls": 4},
        row({"b": bad}, "16 key=a/zarr.json", faults=failing("a/zarr.json"), calls=3), row({"b": bad}, "8 name=a", calls=2), row({"a": both["a"]}, "8 name=b", calls=3),
        row({"a": both["a"], "b": bad}, "7 name=b code=8", calls=2), row({"a": bad, "b": both["b"]}, "7 name=a code=8", faults=failing("b/zarr.json"), calls=1),
        row(odd, "4 code=2 node=2"), row(odd, "4 code=2 node=2", allowed=0), row(both, "5 node=2 need=1600 allowed=1599", allowed=1599),
        row(askew, "5 node=2 need=8000 allowed=7999", allowed=7999), row(both, "5 node=0 need=1601 allowed=1600", allowed=1600, reserved=1601),
        row(both, "5 node=2 need=32 allowed=31", expression([*inputs_of("a", "b"), node("r", "rechunk", "b", chunk=[1])]), allowed=31),
        row(both, "5 node=1 need=32 allowed=31", expression(ADDED, "b"), allowed=31),
        row(many, "6 which=1 count=131072", expression([*inputs_of("a"), node("p", "square", "a"), node("q", "square", "p")])),
        row(many, "6 which=2 count=327680", expression([*inputs_of("a"), *[node(f"r{at}", "rechunk", f"r{at - 1}" if at else "a", chunk=[1]) for at in range(5)]])),
        row(many, "5 node=1 need=1027 allowed=1026", expression([*inputs_of("a"), node("p", "square", "a"), node("q", "square", "p")]), allowed=1026),
        {**row(both, "12"), "sink_fails_at": 0}]


def each_call():
    """Every kind of line, each call failing once and for good, and each sink that is too small."""
    arrays = {"a": metadata_of("int32", [6], [4]), "b": metadata_of("int32", [6], [3])}
    row = planned(arrays, expression(ADDED), 1600, calls=2)
    ends = [[f"error 16 key={name}/zarr.json", 0, ""] for name in "ab"]
    return {**row, "loops": {"ends": ends, "once": {}, "sinks": True}}


def plan_cases():
    return [
        {"name": "plans of copies and of numbers in a row", "rows": example_rows()},
        {"name": "operations of every kind", "rows": demo_rows()},
        {"name": "dead nodes, keys in the way, and 256 nodes", "rows": dead_rows()},
        {"name": "words that are accepted and refused", "rows": word_rows()},
        {"name": "each fault of a plan", "rows": fault_of_plan_rows()},
        {"name": "a plan of a copy and a sum, whichever call fails", **each_call()}]


if __name__ == "__main__":
    usage_if_asked(__doc__)
    tables.write("rechunk.json", rechunk_cases())
    tables.write("plan.json", plan_cases())
