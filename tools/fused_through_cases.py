#!/usr/bin/env python3
"""Writes fused_through.json and fused_through_folder.json in crates/test_cases/data: the tables of cases of plans of `--fusion 2`, over the
store in memory and over a folder.

usage: tools/fused_through_cases.py

Which operations there are, with their tasks, memory and records, comes from compare/rules.py and what stands beside it, some of it
written here by hand too: that of the worked examples. Bytes come from NumPy. Which chunks a task reads is what compare/by_tasks.py reads,
which carries each plan out. Nothing comes from the program.
"""
import os
import sys

TOP = os.path.dirname(os.path.dirname(os.path.realpath(__file__)))
sys.path.insert(0, f"{TOP}/compare")
sys.path.insert(0, f"{TOP}/tools")
import by_tasks  # noqa: E402
import demo_cases  # noqa: E402
import elementwise_cases as tables  # noqa: E402
import part_cases  # noqa: E402
import rechunk_cases  # noqa: E402
import rules  # noqa: E402
import stop_cases  # noqa: E402
import worker  # noqa: E402
from elementwise_cases import a_and_b, expression, inputs_of, line_of, metadata_of, node, number, six, stored, sum_of  # noqa: E402
from gate_cases import by  # noqa: E402
from rechunk_cases import printed  # noqa: E402
from reduction_cases import made_by, reported  # noqa: E402
from view_cases import AMPLE, array_of, counted, seen  # noqa: E402
from said import usage_if_asked


def words_of(command, allowed=None, reserved=0, split_every=rules.SPLIT_EVERY):
    return rechunk_cases.words_of(command, allowed, reserved, split_every) + ["--fusion", "2"]


def plan_over(arrays, text, allowed=None, reserved=0, split_every=rules.SPLIT_EVERY):
    held = {key: tables.text_of(value) for key, value in tables.holds_of(arrays)}
    return rules.plan_of(tables.text_of(text), held.get, AMPLE if allowed is None else allowed, reserved, split_every, 2)


def told_of(operation):
    """Returns the kind of an operation and, in brackets, those that are inlined into it, by the order of its inputs."""
    inner = [told_of(maker) for _, maker in sorted(operation.inside.items())]
    return f"{operation.kind}({' '.join(inner)})" if inner else operation.kind


def tasks_of(plan, arrays):
    """Returns the tasks of a plan, which is carried out."""
    run = by_tasks.Run(plan, {name: array_of(array) for name, array in arrays.items()})
    run.carry_out()
    by_tasks.look_at_stored(run, plan)
    found, counts = [], dict.fromkeys(plan.closed, 0)
    for task in run.tasks:
        operation = task.operation
        writes = [plan.array_key(operation.writes[which], where) for which, where in operation.step.written(task.place)]
        reads = [plan.array_key(array, where) for array, where in task.reads]
        found.append(worker.Task(plan.closed.index(operation), counts[operation], reads, writes))
        counts[operation] += 1
    return found


def calls_of(plan, tasks):
    """Returns the calls of a run of which none fails: the key, how many keys are stored by then, and the task whose call it is."""
    names = dict.fromkeys(entry["name"] for entry in plan.expr["nodes"] if entry["op"] == "input")
    keys = plan.keys_in_the_way()
    calls = [(f"{name}/zarr.json", 0, None) for name in names] + [(key, 0, None) for key in keys]
    return calls + [(key, done, None) for done, key in enumerate(keys[:2])] + worker.calls_of(tasks)


def planned(arrays, text, *options):
    """Returns the row of a plan that is printed."""
    return {"words": words_of("plan", *options), "input": text, "holds": tables.holds_of(arrays), "output": plan_over(arrays, text, *options).lines()}


def ran(arrays, text, wanted=None, *options, **more):
    """Returns the row of a run that ends with 0, whose operations must be these."""
    plan = plan_over(arrays, text, *options)
    found = " ".join(map(told_of, plan.closed))
    assert wanted in (None, found), found
    texts = [["_cubed/y/plan.json", plan.record()], ["y/zarr.json", plan.array(plan.out).written()]]
    # (a reshape may read more chunks than it needs)
    if not any(entry["op"] == "reshape" for entry in plan.expr["nodes"]):
        more = {"calls": len(calls_of(plan, tasks_of(plan, arrays))), **more}
    return {"words": words_of("run", *options), "input": text, "holds": tables.holds_of(arrays), **more, "output": plan.report(), "leaves": texts + made_by(plan, arrays)}


def both(arrays, text, wanted, *options):
    return [planned(arrays, text, *options), ran(arrays, text, wanted, *options)]


def tight(arrays, text, allowed, wanted, otherwise, split_every=rules.SPLIT_EVERY):
    """What is left in this memory, and what in one byte less."""
    return [*both(arrays, text, wanted, allowed, 0, split_every), *both(arrays, text, otherwise, allowed - 1, 0, split_every),
            *both(arrays, text, wanted, allowed + 9, 9, split_every), *both(arrays, text, otherwise, allowed + 8, 9, split_every)]


# Worked examples, whose lines stand here by hand

def days():
    return stored("int16", [12, 4, 4], [4, 4, 2], [(7 * at) % 53 - 11 for at in range(192)], past=77)


COUNTED = [node("g", "greater", "x", 20), node("c", "astype", "g", dtype="int32"), node("s", "sum", "c", axes=[0])]
WHERE_NOT_3 = [node("n", "not_equal", "a", 3), node("w", "where", "n", "a", 0), node("q", "square", "w"), node("r", "multiply", "q", "q")]
PLACE_OF_SLICE = [node("i", "index", "x", index=[{"start": 2, "stop": 10}]), node("m", "multiply", "i", 9), node("d", "floor_divide", "m", 5),
                  node("r", "argmax", "d", axis=0)]


def worked_rows():
    x, a = {"x": days()}, {"a": six([1, 2, 3, 4, 5, 6])}
    count, twice = expression([*inputs_of("x"), *COUNTED]), expression([*inputs_of("a"), *WHERE_NOT_3])
    mirror = expression([*inputs_of("a"), node("f", "flip", "a"), node("r", "add", "f", "a")])
    place = expression([*inputs_of("x"), *PLACE_OF_SLICE])
    return [
        printed(planned(x, count), "op 0 fold node=3 tasks=6 cells=6 projected=2432\nop 1 merge node=3 tasks=2 cells=2 projected=384\nplan ops=2 tasks=8 cells=8 peak=2432\n"),
        reported(ran(x, count, "fold(map) merge"), "ok ops=2 tasks=8 starts=8 failed=0 peak=2432"),
        printed(planned(a, twice), "op 0 map node=4 tasks=2 cells=2 projected=3632\nplan ops=1 tasks=2 cells=2 peak=3632\n"),
        seen(ran(a, twice, "map"), ("y/c/0", "01000000 10000000 00000000 00010000"), ("y/c/1", "71020000 10050000 00000000 00000000")),
        printed(planned(a, mirror), "op 0 map node=2 tasks=2 cells=2 projected=1600\nplan ops=1 tasks=2 cells=2 peak=1600\n"),
        seen(ran(a, mirror, "map(pull)"), ("y/c/0", "07000000 07000000 07000000 07000000"), ("y/c/1", "07000000 07000000 00000000 00000000")),
        printed(planned(x, place), "op 0 pairfold node=4 tasks=4 cells=8 projected=2832\nop 1 pairmerge node=4 tasks=2 cells=2 projected=464\n"
                "plan ops=2 tasks=6 cells=10 peak=2832\n"),
        ran(x, place, "pairfold(map(pull)) pairmerge")]


def scans(count):
    return expression([*inputs_of("a"), *[node(f"s{at}", "cumulative_sum", f"s{at - 1}" if at else "a", axis=0) for at in range(count)]])


def deep_rows():
    """255 prefix sums one behind the other along one chunk are one operation: its scratch, the input regions of all, and its result."""
    array, short = {"a": line_of("int8", [1, 0, -1, 2], 4)}, {"a": line_of("uint16", [1, 2, 3, 65535, 5], 5)}
    need = 32 + 4 + 254 * 32 + 32
    return [printed(planned(array, scans(255), need), f"op 0 scan node=255 tasks=1 cells=1 projected={need}\nplan ops=1 tasks=1 cells=1 peak={need}\n"),
            reported(ran(array, scans(255), None, need), f"ok ops=1 tasks=1 starts=1 failed=0 peak={need}"), ran(array, scans(255), None, need - 1),
            *both(short, scans(3), "scan(scan(scan))")]


def demonstrated():
    """The demonstration of 4 by 4 is one operation with one task, which reads `b` twice: turned over, and as it is."""
    small = demo_cases.small()
    kept = [pair for pair in small["leaves"] if not pair[0].startswith("_cubed/demo_y/") or pair[0].endswith("plan.json")]
    leaves = [[key, {**value, "cubed": 3} if key.endswith("plan.json") else value] for key, value in kept]
    peak = 64 + 4 * 64 + 32 + 16 + 7 * 512
    asked = [*demo_cases.asked_keys(["demo_a", "demo_b", "demo_y"]), "demo_y/c"]
    ends = [[f"error 16 key={key}", 0, ""] for key in asked] + [[f"error 16 key={key}", at, "error 9 key=demo_a/zarr.json" if at > 1 else ""] for at, (key, _) in enumerate(leaves[:6])]
    ends += [["error 10 op=0 task=0", 6, "error 9 key=demo_a/zarr.json"]] * 4 + [["error 16 key=demo_y/c", 7, "error 9 key=demo_a/zarr.json"]]
    return {"words": ["demo", "4", "--fusion", "2"], "holds": [], "output": f"demo 4 result=3\nok ops=1 tasks=1 starts=1 failed=0 peak={peak}\n", "leaves": leaves,
            "calls": len(ends), "loops": {"ends": ends, "sinks": True}}


# Each kind as maker and as reader

def wide(shape=(5, 6), chunk=(2, 6), dtype="int16", first=-13):
    return counted(dtype, list(shape), list(chunk), first, past=77)


def labels_of(count, side, groups):
    return line_of("int8", [(3 * at) % groups for at in range(count)], side)


# Of each kind the arrays and the node whose array `m` is [5,6] in chunks of [2,6], and what its node leaves besides.
MAKERS = {
    "map": ({"a": wide()}, node("m", "multiply", "a", -3), ""),
    "pull": ({"a": wide()}, node("m", "flip", "a"), ""),
    "fold": ({"a": wide((5, 6, 3), (2, 6, 3))}, node("m", "sum", "a", axes=[2]), ""),
    "merge": ({"a": wide((5, 6, 3), (2, 6, 1))}, node("m", "sum", "a", axes=[2]), "fold merge "),
    "mul": ({"a": wide((5, 3), (2, 3)), "b": wide((3, 6), (3, 6), "int8")}, node("m", "matmul", "a", "b"), ""),
    "scan": ({"a": wide()}, node("m", "cumulative_sum", "a", axis=1), ""),
    "groupfold": ({"a": wide((5, 9), (2, 9)), "g": labels_of(9, 9, 7)}, node("m", "groupby_sum", "a", "g", axis=1, groups=6), "")}
READERS = {
    "map": (node("r", "floor_divide", "m", 4), ""),
    "fold": (node("r", "min", "m", axes=[0]), " merge merge"),
    "pairfold": (node("r", "argmax", "m", axis=0), " pairmerge pairmerge"),
    "scan": (node("r", "cumulative_sum", "m", axis=1), ""),
    "groupfold": (node("r", "groupby_min", "m", "l", axis=0, groups=2), " merge merge")}


def kind_rows(maker):
    arrays, made, before = MAKERS[maker]
    rows = []
    for reader, (last, behind) in READERS.items():
        more = {"l": labels_of(5, 2, 2)} if reader == "groupfold" else {}
        wanted = "map" if (maker, reader) == ("map", "map") else f"{before}{reader}({maker}){behind}"
        rows += both({**arrays, **more}, expression([*inputs_of(*arrays, *more), made, last]), wanted, None, 0, 2)
    return rows


def nested_rows():
    """Operations inside one another, several inputs of one operation made inside it, and a task that reads one array several times."""
    a, b = wide(), wide(first=3)
    masked = [node("n", "not_equal", "a", 4), node("w", "where", "n", "a", 0)]
    season = [node("c", "concat", "a", "b", axis=0), node("t", "index", "c", index=[{"start": 1, "stop": 6}]), node("d", "subtract", "t", "b"), node("v", "square", "d"), node("r", "sum", "v")]
    steps = [node("i", "index", "a", index=[{"start": 1}]), node("j", "index", "a", index=[{"stop": -1}]), node("d", "subtract", "i", "j"), node("r", "max", "d", axes=[1])]
    return [*both({"a": a}, expression([*inputs_of("a"), *masked, node("s", "sum", "w", axes=[1]), node("m", "multiply", "s", 2), node("p", "cumulative_sum", "m"), node("r", "argmax", "p")]),
                  "map(fold(map)) fold carry pairfold(scan) pairmerge"),
            *both({"a": a}, expression([*inputs_of("a"), *masked, node("s", "sum", "w", axes=[1], keepdims=True), node("x", "max", "s", axes=[1]), node("r", "argmin", "x")]), "pairfold(fold(fold(map))) pairmerge"),
            *both({"a": a, "b": b}, expression([*inputs_of("a", "b"), *season]), "pull fold(map(pull)) merge"),
            *both({"a": a}, expression([*inputs_of("a"), *steps]), "fold(map(pull pull))"),
            *both({"a": a}, expression([*inputs_of("a"), node("f", "flip", "a"), node("g", "flip", "a", axes=[0]), node("u", "add", "f", "g"), node("r", "subtract", "u", "a")]), "map(pull pull)"),
            *both({"a": a, "b": b}, expression([*inputs_of("a", "b"), node("s", "sum", "a", axes=[1]), node("t", "sum", "b", axes=[1]), node("r", "maximum", "s", "t")]), "map(fold fold)"),
            *both({}, expression([node("f", "arange", start=9, stop=-4, step=-1, dtype="int8", chunk=[5]), node("m", "multiply", "f", "f"), node("r", "sum", "m")]), "fold(map(pull)) merge"),
            *both({"a": a}, expression([*inputs_of("a"), node("p", "negative", "a"), node("q", "add", "p", 1), node("t", "multiply", "p", 2), node("r", "subtract", "q", "t")]), "map(map)")]


# What is merged and joined before

def merged_rows():
    """Maps that load an array once: what reads one array by several inputs is merged too, also where a merge has put the array in again; the
    limits are those of the map that loads once."""
    a = {"a": six([1, -2, 3, 400, 5, 6])}
    p = [*inputs_of("a"), node("p", "negative", "a")]
    eight, nodes = sum_of(8)
    again = [*nodes, *[node(f"t{at}", "subtract", f"s{7 + at}" if at == 0 else f"t{at - 1}", f"a{at}") for at in range(8)]]
    nine, others = sum_of(9)
    short = {"a": line_of("int16", [2, -3, 5, 7], 3)}
    return [*both(a, expression([*inputs_of("a"), node("r", "multiply", "a", "a")]), "map"), *both(a, expression([*p, node("r", "multiply", "p", "p")]), "map"),
            *both(a, expression([*p, node("q", "add", "p", 1), node("r", "subtract", "q", "p")]), "map"), *both(a, expression([*p, node("q", "add", "p", 1), node("r", "subtract", "p", "q")]), "map(map)"),
            *both({"a": a["a"], "b": six([9, 8, 7, 6, 5, 4])}, expression([*inputs_of("a", "b"), node("c", "less", "a", "b"), node("r", "where", "c", "a", "b")]), "map"),
            *both(eight, expression(again), "map"), *both(nine, expression(others), "map map"),
            *both(short, tables_of_functions(31), "map"), *both(short, tables_of_functions(32), "map map"), *both(short, tables_of_squares(20), "map"),
            ran(short, expression([node("x", "input", name="a"), node("z", "input", name="a"), node("r", "add", "x", "z")]), "map")]


def tables_of_functions(count):
    return expression(tables.functions_of(count))


def tables_of_squares(count):
    """Each of so many functions reads the one before twice."""
    return expression([*inputs_of("a"), *[node(f"m{at}", "multiply", *[f"m{at - 1}" if at else "a"] * 2) for at in range(count)]])


def merged_memory_rows():
    """Maps that are merged in just the memory that this takes, and stay apart in one byte less, where to inline one would take more."""
    return tight(a_and_b(), expression(tables.DOUBLED), 2624, "map", "map map")


def rechunked(*chunks):
    return expression([*inputs_of("a"), *[node(f"r{at}", "rechunk", f"r{at - 1}" if at else "a", chunk=list(chunk)) for at, chunk in enumerate(chunks)]])


def copy_rows():
    """Copies in one pass, of one node and of several; and copies that stay: since two read the array between, since no region of whole chunks
    of both sides fits, and since one pass has more tasks."""
    grid, line = {"a": counted("int16", [8, 8], [4, 2], first=-9)}, {"a": line_of("int16", range(1, 13), 4)}
    one = printed(planned(grid, rechunked([2, 1]), 73), "op 0 copy node=1 tasks=4 cells=32 projected=48\nplan ops=1 tasks=4 cells=32 peak=48\n")
    apart = expression([*inputs_of("a"), node("r", "rechunk", "a", chunk=[3]), node("t", "rechunk", "r", chunk=[2]), node("u", "subtract", "t", "r")])
    summed = expression([*inputs_of("a", "b"), node("r", "rechunk", "a", chunk=[6]), node("s", "add", "b", "r")])
    return [one, ran(grid, rechunked([2, 1]), "copy", 73), *both(grid, rechunked([2, 1]), "copy", 32), *tight(grid, rechunked([1, 3]), 96, "copy", "copy copy"), *both(line, rechunked([6], [3], [12]), "copy"), *both(line, rechunked([3], [4]), "copy", 48),
            *both(line, rechunked([3], [4]), "copy copy copy copy", 47), *both(line, rechunked([3], [4]), "copy copy copy", 16), *both(line, rechunked([12], [4], [12], [1]), "copy"), *both(line, rechunked([4], [4]), "copy"), *both(line, apart, "copy copy copy map"),
            *both({**line, "b": line_of("int32", range(12), 3)}, summed, "copy map"), *both({"a": stored("int8", [0, 3], [2, 2], [])}, rechunked([1, 3], [4, 1]), "copy"),
            *both({"a": counted("int8", [7, 5], [3, 2])}, rechunked([2, 5], [7, 1]), "copy", 60), *both({"a": counted("uint64", [5, 4], [3, 1])}, rechunked([1, 1]), "copy", 124),
            *both({"a": counted("int8", [13, 11], [9, 2], first=-70)}, rechunked([1, 6], [8, 2]), "copy copy copy copy", 46), *both({"a": number("int16", -5)}, rechunked([], []), "copy"), ran(line, expression([*inputs_of("a")]), "copy"),
            *both(line, expression([*inputs_of("a"), node("q", "square", "a"), node("r", "rechunk", "q", chunk=[6]), node("t", "rechunk", "r", chunk=[5]), node("u", "negative", "t")]), "map copy map")]


# What isn't inlined

def kept_rows():
    """Arrays that stay stored: two read one, a task reads it stretched, or as another input than the source, or by a view or a copy; and their
    maker writes two arrays, or several chunks."""
    a, row, l = wide(), counted("int16", [1, 6], [1, 6], first=4), labels_of(5, 2, 2)
    squares, rows = [*inputs_of("a"), node("q", "square", "a")], [*inputs_of("a", "b"), node("q", "square", "b")]
    six_wide, labels = {"a": line_of("int16", [4, 1, 3, 0, 2, 1], 4)}, [*inputs_of("a"), node("q", "abs", "a")]
    return [*both({"a": a}, expression([*squares, node("s", "sum", "q", axes=[0]), node("t", "max", "q", axes=[0]), node("r", "subtract", "s", "t")]), "map fold fold map(merge merge)"),
            *both({"a": a}, expression([*squares, node("s", "sum", "q", axes=[1]), node("t", "index", "q", index=[{}, 0]), node("r", "subtract", "s", "t")]), "map map(fold pull)"),
            *both({"a": a, "b": row}, expression([*rows, node("r", "add", "a", "q")]), "map map"), *both({"a": a, "b": line_of("int16", range(6), 6)}, expression([*rows, node("r", "add", "a", "q")]), "map map"),
            *both({"a": a}, expression([*squares, node("r", "flip", "q")]), "map pull"), *both({"a": a}, expression([*squares, node("r", "concat", "q", "a", axis=0)]), "map pull"),
            *both({"a": a}, expression([*squares, node("r", "rechunk", "q", chunk=[5, 1])]), "map copy"), *both({"a": a, "b": wide((6, 4), (6, 2))}, expression([*inputs_of("a", "b"), node("q", "square", "a"), node("r", "matmul", "q", "b")]), "map mul"),
            *both({"a": a, "b": wide((6, 4), (6, 2))}, expression([*inputs_of("a", "b"), node("q", "square", "b"), node("r", "matmul", "a", "q")]), "map mul"),
            *both({"a": a, "l": l}, expression([*inputs_of("a", "l"), node("q", "abs", "l"), node("r", "groupby_sum", "a", "q", axis=0, groups=2)]), "map groupfold merge"),
            *both(six_wide, expression([*labels, node("r", "groupby_sum", "q", "q", axis=0, groups=5)]), "map groupfold merge"),
            *both({"a": a}, expression([*squares, node("r", "cumulative_sum", "q", axis=0)]), "map fold carry scan"),
            *both(six_wide, expression([*inputs_of("a"), node("x", "argmax", "a", keepdims=True), node("r", "add", "x", 1)]), "pairfold pairmerge map"),
            *both({"a": line_of("int16", [4, 1], 2)}, expression([*inputs_of("a"), node("x", "argmax", "a"), node("r", "add", "x", 1)]), "pairfold map"),
            *both({"a": line_of("int16", range(6), 4), "b": line_of("int16", range(6), 3)}, expression([*inputs_of("a", "b"), node("r", "add", "a", "b")]), "copy map"),
            *both({"a": a}, expression([*inputs_of("a"), node("c", "rechunk", "a", chunk=[5, 2]), node("r", "sum", "c", axes=[0])]), "copy fold"),
            *both({"a": a}, expression([*squares, node("r", "sum", "q", axes=[0])], "q"), "map"),
            *both({"a": a}, expression([*squares, node("dead", "sum", "q", axes=[0]), node("r", "max", "q", axes=[0])]), "fold(map) merge")]


def joined(count, *rest):
    """So many arrays one behind the other, and a map over them with the others."""
    arrays = {f"a{at}": line_of("int8", [at, at + 1], 2) for at in range(count)}
    return {**arrays, **{name: line_of("int8", range(2 * count), 2) for name in rest}}, [*inputs_of(*arrays, *rest), node("c", "concat", *arrays, axis=0)]


def limit_rows():
    """At most eight stored arrays, each place counting, and at most 32 instructions, with all that is inside."""
    seven, nodes = joined(7, "b")
    eight, others = joined(8, "b")
    alone, more = joined(8)
    one = {"a": line_of("int16", [5, -3, 2, 7], 3)}

    def sums(count, *behind):
        return expression([*tables.functions_of(count), node("s", "sum", f"m{count - 1}", axes=[0], keepdims=True), *behind])

    rows = [*both(seven, expression([*nodes, node("r", "add", "c", "b")]), "map(pull)"), *both(eight, expression([*others, node("r", "add", "c", "b")]), "pull map"),
            *both(alone, expression([*more, node("r", "negative", "c")]), "map(pull)"), *both(alone, expression([*more, node("n", "negative", "c"), node("r", "max", "n")]), "fold(map(pull)) merge merge"),
            *both({"a": one["a"]}, expression([*inputs_of("a"), node("c", "concat", *["a"] * 8, axis=0), node("r", "sum", "c")]), "fold(pull) merge merge"),
            *[row for count, wanted in ((4, "map(pull pull)"), (5, "pull map(pull)"), (8, "pull pull map"))
              for row in both(one, expression([*inputs_of("a"), node("c", "concat", *["a"] * count, axis=0), node("d", "concat", *["a"] * count, axis=0), node("r", "add", "c", "d")]), wanted)]]
    whole = {"a": line_of("int16", [5, -3, 2], 3)}
    for count, wanted in ((29, "map(fold(map))"), (30, "fold(map) map")):
        rows += both(whole, sums(count, node("r", "negative", "s")), wanted)
    return rows + both(whole, sums(31), "fold(map)") + both(whole, sums(32), "map fold(map)")


def memory_rows():
    """In just the memory that inlining takes, and in one byte less."""
    x, a = {"x": days()}, {"a": wide()}
    count = expression([*inputs_of("x"), *COUNTED])
    flipped = expression([*inputs_of("a"), node("f", "flip", "a"), node("g", "flip", "a", axes=[1]), node("r", "subtract", "f", "g")])
    nested = expression([*inputs_of("a"), node("s", "sum", "a", axes=[1], keepdims=True), node("t", "sum", "s", axes=[1]), node("r", "max", "t")])
    return [*tight(x, count, 2432, "fold(map) merge", "map fold merge"), *both(x, count, "map fold merge", 2368), *tight(a, nested, 24 + 24 + 16 + 16 + 8, "fold(fold(fold)) merge", "fold(fold) fold merge"), *both(a, nested, "fold fold(fold) merge", 72),
            *both(a, flipped, "map(pull pull)", 24 * 4 + 3 * 512), {"words": words_of("run", 24 * 4 + 3 * 512 - 1), "input": flipped, "holds": tables.holds_of(a), "line": f"error 5 node=3 need={24 * 4 + 3 * 512} allowed={24 * 4 + 3 * 512 - 1}"}]


# Sizes, types and layouts

def size_rows():
    """No elements, no axis, chunks longer than their axis and axes of size 1."""
    nothing, none = stored("int32", [0], [4], []), stored("int8", [0, 3], [1, 2], [])
    five = number("int16", -5)
    return [*both({"a": nothing}, expression([*inputs_of("a"), node("m", "add", "a", 1), node("r", "sum", "m")]), "fold(map)"), *both({"a": none}, expression([*inputs_of("a"), node("m", "square", "a"), node("r", "sum", "m", axes=[0])]), "fold(map)"),
            *both({"a": none}, expression([*inputs_of("a"), node("m", "square", "a"), node("r", "argmax", "m", axis=1)]), "pairfold(map) pairmerge"), *both({"a": none}, expression([*inputs_of("a"), node("f", "flip", "a"), node("r", "add", "f", "a")]), "map(pull)"),
            *both({"a": nothing, "l": stored("int8", [0], [4], [])}, expression([*inputs_of("a", "l"), node("m", "add", "a", 1), node("r", "groupby_min", "m", "l", axis=0, groups=2)]), "groupfold(map)"),
            *both({"a": nothing}, expression([*inputs_of("a"), node("m", "add", "a", 1), node("s", "sum", "m"), node("r", "subtract", 7, "s")]), "map(fold(map))"),
            *both({"a": nothing}, expression([*inputs_of("a"), node("m", "add", "a", 1), node("r", "cumulative_sum", "m")]), "scan(map)"),
            *both({"a": stored("uint8", [2, 0], [1, 1], []), "b": stored("uint8", [0, 3], [1, 2], [])}, expression([*inputs_of("a", "b"), node("p", "matmul", "a", "b"), node("r", "add", "p", 3)]), "map(mul)"),
            *both({"a": five}, expression([*inputs_of("a"), node("m", "square", "a"), node("r", "sum", "m")]), "fold(map)"), *both({"a": five}, expression([*inputs_of("a"), node("m", "square", "a"), node("r", "argmax", "m")]), "pairfold(map)"),
            *both({"a": five}, expression([*inputs_of("a"), node("e", "expand_dims", "a", axis=0), node("m", "multiply", "e", 3), node("r", "cumulative_sum", "m")]), "scan(map(pull))"),
            *both({"a": line_of("int8", [3, 4], 9)}, expression([*inputs_of("a"), node("s", "sum", "a"), node("r", "floor_divide", "s", 2)]), "map(fold)"),
            *both({"a": line_of("int8", [3, 4], 9)}, expression([*inputs_of("a"), node("m", "negative", "a"), node("r", "min", "m")]), "fold(map)"),
            *both({"a": counted("int8", [2, 1, 3, 1, 2, 2], [1, 1, 2, 1, 1, 2], first=-9)}, expression([*inputs_of("a"), node("m", "multiply", "a", 5), node("r", "sum", "m", axes=[0, 2, -1])]), "fold(map) merge merge", None, 0, 2),
            *both({"a": counted("int8", [2, 6], [1, 4], first=-9)}, expression([*inputs_of("a"), node("v", "reshape", "a", shape=[3, -1]), node("m", "multiply", "v", 5), node("r", "sum", "m", axes=[0])]), "fold(map(pull)) merge")]


def type_rows():
    """Each type inside: promotion, truth values and where, sums that wrap, and unsigned numbers above those of int64."""
    def line(dtype, *values, **layout):
        return line_of(dtype, values, 2, **layout)

    ends = {dtype: line(dtype, rules.limits(dtype)[0], rules.limits(dtype)[1], 1, rules.limits(dtype)[1], 2) for dtype in rules.SIZES}
    kinds = [*[ran({"a": array}, expression([*inputs_of("a"), node("m", "bitwise_invert", "a"), node("r", op, "m")]), f"{reader}(map) {merge} {merge}", None, 0, 2)
               for array in ends.values() for op, reader, merge in (("any", "fold", "merge"), *([] if array.array.dtype == "bool" else [("sum", "fold", "merge"), ("max", "fold", "merge"), ("argmin", "pairfold", "pairmerge")]))]]
    mixed = {"a": line("int8", -128, 5, 127), "b": line("uint8", 200, 1, 255)}
    return kinds + [*both(mixed, expression([*inputs_of("a", "b"), node("m", "multiply", "a", "b"), node("r", "sum", "m")]), "fold(map) merge"), *both(mixed, expression([*inputs_of("a", "b"), node("s", "stack", "a", "b", axis=0), node("t", "astype", "s", dtype="int8"), node("r", "max", "t", axes=[0])]), "fold(map(pull)) merge"),
            *both(mixed, expression([*inputs_of("a", "b"), node("c", "concat", "a", "b", axis=0), node("g", "greater", "c", 3), node("r", "all", "g")]), "fold(map(pull)) merge"),
            *both({"a": line("bool", 1, 0, 1, 1)}, expression([*inputs_of("a"), node("n", "logical_not", "a"), node("i", "astype", "n", dtype="int16"), node("r", "cumulative_sum", "i")]), "map fold carry scan"),
            *both({"a": line("int64", 2**63 - 1, 5, -(2**63))}, expression([*inputs_of("a"), node("m", "multiply", "a", 3), node("r", "sum", "m")]), "fold(map) merge"),
            *both({"a": line("int32", 2**31 - 1, 1, 5)}, expression([*inputs_of("a"), node("s", "sum", "a", axes=[0], keepdims=True), node("n", "astype", "s", dtype="int8"), node("r", "abs", "n")]), "fold map(merge)")]


def layout_rows():
    """Big-endian inputs, other keys, fill values of absent chunks and of chunks that are made of them, other bytes past the edge, and truth bytes;
    what stands past the edge of a chunk that is made inside is in no fold."""
    odd = stored("int16", [3, 5], [2, 2], [4, -1, 2, 30000, -4, 0, 5, -6, 7, 0, -32768, 9, 0, 11, 12], past=-32768, endian="big", encoding="v2", separator=".")
    gaps = line_of("int16", [1, 2, 3, 4, 5, 6, 7], 2, absent=[(1,), (3,)], fill=-3, endian="big", past=9)
    truths = stored("bool", [3, 4], [2, 3], [1, 0, 0, 1, 1, 1, 0, 1, 1, 0, 0, 1], past=1, raw={(1, 1): {"hex": "07 01 01 01 01 01"}})
    rows = []
    for op in ("sum", "min", "max", "prod"):
        for axes in ([0], [1], None):
            rows.append(ran({"a": odd}, expression([*inputs_of("a"), node("m", "subtract", "a", 1), node("r", op, "m", axes=axes)]), None, None, 0, 2))
            rows.append(ran({"a": odd}, expression([*inputs_of("a"), node("f", "flip", "a"), node("r", op, "f", axes=axes)]), None, None, 0, 2))
    for last in (node("r", "argmin", "m", axis=1), node("r", "argmax", "m"), node("r", "cumulative_sum", "m", axis=0)):
        rows.append(ran({"a": odd}, expression([*inputs_of("a"), node("m", "bitwise_xor", "a", 255), last]), None, None, 0, 2))
    return rows + [*[ran({"a": gaps}, expression([*inputs_of("a"), node("m", op, "a"), node("r", last, "m")]), None, None, 0, 2) for op in ("square", "flip") for last in ("sum", "min", "argmax")],
                   *[ran({"a": truths}, expression([*inputs_of("a"), node("m", "logical_not", "a"), node("r", op, "m", axes=[1])]), "fold(map) merge") for op in ("any", "all")],
                   ran({"a": truths}, expression([*inputs_of("a"), node("f", "flip", "a"), node("r", "logical_xor", "f", "a")]), "map(pull)"),
                   ran({"a": line_of("uint64", [0] * 5, 2, absent=[(at,) for at in range(3)], fill=2**64 - 1)}, expression([*inputs_of("a"), node("m", "bitwise_right_shift", "a", 1), node("r", "sum", "m")]), "fold(map) merge")]


# Refusals and faults

def refused_row(arrays, text, *options):
    """A call whose line with `--fusion 2` is that of the expression without."""
    held = {key: tables.text_of(value) for key, value in tables.holds_of(arrays)}
    lines = []
    for fusion in (1, 2):
        try:
            rules.plan_of(tables.text_of(text), held.get, *((AMPLE, 0, rules.SPLIT_EVERY) if not options else options), fusion)
            raise SystemExit(f"{text} isn't refused")
        except rules.Refused as answer:
            lines.append(f"error {answer}")
    assert lines[0] == lines[1]
    return {"words": words_of("run", *options), "input": text, "holds": tables.holds_of(arrays), "line": lines[0]}


def refused_rows():
    """Memory and counts are those of the expression and of its operations before any is left out; words are refused as others."""
    many, x = {"a": metadata_of("int8", [65536], [1])}, {"x": days()}
    twice = expression([*inputs_of("a"), node("p", "square", "a"), node("q", "square", "p")])
    copies = expression([*inputs_of("a"), *[node(f"r{at}", "rechunk", f"r{at - 1}" if at else "a", chunk=[1]) for at in range(5)]])
    text, held = expression([*inputs_of("x"), *COUNTED]), tables.holds_of(x)
    words = [["plan", "--fusion", number_] for number_ in ("0", "3", "-1", "", "two", "2.0", "18446744073709551617")] + [
        ["plan", "--fusion"], ["plan", "--fusion=2", "--fusion=2"], ["plan", "--fusions", "2"], ["check", "--fusion", "2"], ["load", "--fusion=2"], ["print", "y", "--fusion", "1"]]
    accepted = [{**planned(x, text), "words": words} for words in (["plan", "--fusion=2"], ["plan", "--fusion", "+2"], ["plan", "--fusion", "002"])]
    before = rules.counted_plan(tables.text_of(text), {key: tables.text_of(value) for key, value in held}.get, AMPLE, 0)
    same = {"words": ["plan", "--fusion", "1"], "input": text, "holds": held, "output": before.lines()}
    return [refused_row(x, text, 1663, 0, 4), refused_row(many, twice), refused_row(many, copies), refused_row(many, twice, 1026, 0, 4), *accepted, same,
            *[{"words": words, "input": text, "holds": held, "line": "error 2 code=2", "calls": 0} for words in words]]


def way_rows():
    """A key of an array that isn't stored any more is in nobody's way; those that are stored are."""
    x, text = {"x": days()}, expression([*inputs_of("x"), *COUNTED])
    row = ran(x, text, "fold(map) merge")
    kept = [["_cubed/y/1/c/0/0/0", "other"]]
    return [{**row, "holds": row["holds"] + kept},
            *[{"words": row["words"], "input": text, "holds": row["holds"] + [[key, ""]], "line": f"error 9 key={key}"} for key in ("_cubed/y/plan.json", "y/zarr.json", "y/.zarray", "_cubed/y/0/c/0/0/0", "y/c/0/1")]]


def short(array, place, data):
    """The array with other bytes as a chunk."""
    return stored(array.array.dtype, array.array.shape, array.array.chunk, array.elements.values(), past=array.past, raw={place: {"hex": data}})


def bad_rows():
    """A chunk of an input of another length ends the run, whichever operation inside reads it; what is stored by then is free."""
    a, b = wide(), wide(first=3)
    rows = []
    for name, place, text, wanted in (
            ("a", (1, 0), [node("q", "square", "a"), node("m", "add", "q", "b"), node("r", "sum", "m", axes=[0])], "fold(map) merge"),
            ("b", (2, 0), [node("f", "flip", "b", axes=[1]), node("m", "add", "a", "f"), node("r", "argmax", "m", axis=1)], "pairfold(map(pull))"),
            ("a", (0, 0), [node("s", "sum", "a", axes=[1]), node("t", "max", "b", axes=[1]), node("r", "add", "s", "t")], "map(fold fold)")):
        whole = ran({"a": a, "b": b}, expression([*inputs_of("a", "b"), *text]), wanted)
        bad = {"a": a, "b": b, name: short({"a": a, "b": b}[name], place, "0102")}
        line = f"error 13 key={name}/c/{place[0]}/{place[1]} got=2 want=24"
        left = {key: value for key, value in whole.items() if key != "calls"}
        rows.append({**left, "holds": tables.holds_of(bad), "output": "", "line": line, "leaves": whole["leaves"][:2], "may_leave": whole["leaves"][2:]})
    return rows


def looped(arrays, text, wanted, late=None, split_every=rules.SPLIT_EVERY):
    """A run each of whose calls fails once and for good, with a stop before each, and each put late."""
    plan = plan_over(arrays, text, None, 0, split_every)
    tasks = tasks_of(plan, arrays)
    calls = calls_of(plan, tasks)
    ends = [[f"error 10 op={task[0]} task={task[1]}" if task else f"error 16 key={key}", done, tables.BEFORE if done else ""] for key, done, task in calls]
    first = next(at for at, call in enumerate(calls) if call[2])
    loops = {"ends": ends, "once": {"from": first, "output": plan.report(1)}, "late": len(calls) if late is None else late, "sinks": True}
    row = ran(arrays, text, wanted, None, 0, split_every)
    return {**row, "leaves": worker.in_order_stored(row["leaves"], tasks), "loops": loops}


FAILING = {
    "a count, each call failing": looped({"a": line_of("int16", [25, 3, 21, 40, 7], 2)}, expression([*inputs_of("a"), node("g", "greater", "a", 20), node("c", "astype", "g", dtype="int8"), node("s", "sum", "c")]), "fold(map) merge"),
    "an array and its mirror, each call failing": looped({"a": line_of("int32", [1, 2, 3], 2)}, expression([*inputs_of("a"), node("f", "flip", "a"), node("r", "add", "f", "a")]), "map(pull)"),
    "a place of a slice, each call failing": looped({"a": line_of("int16", [3, 1, 1, 1, 2, 0], 2)}, expression([*inputs_of("a"), node("i", "index", "a", index=[{"stop": 5}]), node("m", "negative", "i"), node("r", "argmax", "m")]), "pairfold(map(pull)) pairmerge", 4),
    "sums that are made where they are read, each call failing": looped({"a": counted("int8", [2, 3], [1, 2])}, expression([*inputs_of("a"), node("s", "sum", "a", axes=[0]), node("m", "multiply", "s", "s")]), "fold map(merge)", 4, 2),
    "two copies in one, each call failing": looped({"a": line_of("int16", range(1, 7), 2)}, expression([*inputs_of("a"), node("r", "rechunk", "a", chunk=[3]), node("t", "rechunk", "r", chunk=[4]), node("u", "negative", "t")]), "copy map", 4)}


# Several workers

def late_readers():
    """A map into whose tasks the last merges of a sum are inlined: task 0 waits for the tasks 0 and 2 of the fold, task 1 for 1 and 3."""
    return {"a": counted("int8", [4, 4], [2, 2], first=-7)}, expression([*inputs_of("a"), node("s", "sum", "a", axes=[0]), node("r", "multiply", "s", 3)])


def gated(workers, arrays, text, wanted, hold=(), until=()):
    """A run by so many workers that holds a task until another has come. A gate is told the numbers of all operations, those that are inlined
    among them."""
    row, plan = ran(arrays, text, wanted), plan_over(arrays, text)
    told = [[(plan.whole.index(plan.closed[op]), task) for op, task in tasks] for tasks in (hold, until)]
    return by(workers, {name: value for name, value in row.items() if name != "calls"}, *told)


def worker_rows():
    """A task starts when all that is read inside it is done: not before, and not later."""
    readers = (*late_readers(), "fold map(merge)")
    count = ({"x": days()}, expression([*inputs_of("x"), *COUNTED]), "fold(map) merge")
    return [gated(2, *readers, [(0, 0)], [(1, 1)]), gated(2, *readers, [(0, 3)], [(1, 0)]), gated(4, *readers, [(0, 0)], [(1, 1)]), gated(4, *readers), gated(4, *count), gated(16, *count),
            gated(2, *count, [(0, 0)], [(1, 1)])]


# Over a folder

def job_of(label, arrays, text, *options):
    plan = plan_over(arrays, text, *options)
    return stop_cases.Job(label, ran(arrays, text, None, *options), plan, tasks_of(plan, arrays), arrays)


def jobs():
    count = job_of("count", {"a": line_of("int16", [25, 3, 21, 40, 7], 2)}, expression([*inputs_of("a"), node("g", "greater", "a", 20), node("c", "astype", "g", dtype="int8"), node("s", "sum", "c")]))
    return count, job_of("readers", *late_readers()), job_of("mirror", a_and_b(), expression([*inputs_of("a", "b"), node("f", "flip", "b"), node("r", "add", "f", "a")]), 2000)


def versions_of(job):
    """The record of the one version is refused by `resume`, `drop` and `part` of the other, at the number of the version; nothing is changed."""
    key, named = job.record, job.value[job.record]
    text = rules.compact(job.texts[named["named"]])
    other = text.replace('"cubed":3', '"cubed":2')
    place = stop_cases.place_of(text.encode(), other.encode())
    assert other != text and text[place] == "3"
    steps = []
    for held, fusion in ((named, "1"), (other, "2")):
        for command, more in (("resume", []), ("resume", ["--workers", "4"]), ("drop", []), ("part", ["--op", "0", "--from", "0", "--to", "1"])):
            words = [command, *more, *[word for word in job.words if word not in ("--fusion", "2")], "--fusion", fusion]
            steps.append({"holds": (job.inputs if not steps else []) + [[key, held]], "words": words, "input": {"named": job.label}, "line": f"error 14 place={place}",
                          "leaves": [[key, held], *[[one, None] for one in job.keys[1:]]]})
    default = {"holds": [[key, named]], "words": ["resume", *[word for word in job.words if word not in ("--fusion", "2")]], "input": {"named": job.label}, "line": f"error 14 place={place}", "leaves": [[key, named]]}
    whole = [{"holds": [[key, None]], **job.called("run"), "output": job.report(len(job.tasks)), "leaves": job.kept(job.keys)},
             {**job.called("drop"), "output": f"ok keys={len(job.keys)}\n", "leaves": job.kept(())}]
    return {"name": "a record of the one version is refused by the other", "steps": [*steps, default, *whole]}


def folder_cases(count, readers, mirror):
    parts = [(name, part_cases.Parts(job)) for name, job in (("a count", count), ("sums that are made where they are read", readers))]
    cases = [versions_of(count), *stop_cases.stop_cases(count, "a count", 3, 7), *stop_cases.stop_cases(readers, "sums that are made where they are read", 5, 11), *stop_cases.stop_cases(mirror, "an array and a mirror", 4, 9),
             *stop_cases.four_cases(count, "a count", 6, 11), *stop_cases.four_cases(readers, "sums that are made where they are read", 9, 17),
             stop_cases.named_once(count, "a count", 1, 2), stop_cases.named_once(readers, "sums that are made where they are read", 4, 3)]
    for name, job in parts:
        cases.append({"name": f"{name} is begun, each call failing", "steps": part_cases.begin_steps(job)})
        cases.append({"name": f"{name}, task by task, each call failing", "steps": part_cases.stopped_parts(job, part_cases.single_tasks(job), 3)})
        cases.append({"name": f"{name}, its tasks in orders", "steps": part_cases.all_orders(job, part_cases.single_tasks(job), 97)})
        cases.append({"name": f"{name}, each part twice, and chunks that are lost", "steps": part_cases.repeated(job)})
    cases.append({"name": "numbers that a plan with inlined arrays hasn't", "steps": part_cases.numbers(parts[0][1])})
    return [count, readers, mirror], cases


def cases_in_memory():
    return [
        {"name": "the worked examples", "rows": worked_rows()},
        {"name": "255 prefix sums in one task", "rows": deep_rows()},
        {"name": "a demonstration in one task, whichever call fails", **demonstrated()},
        *[{"name": f"arrays of the kind {maker}, read by each kind", "rows": kind_rows(maker)} for maker in MAKERS],
        {"name": "operations inside one another", "rows": nested_rows()},
        {"name": "maps that load an array once", "rows": merged_rows()},
        {"name": "the memory of maps that load an array once", "rows": merged_memory_rows()},
        {"name": "copies in one pass, and copies that stay", "rows": copy_rows()},
        {"name": "arrays that stay stored", "rows": kept_rows()},
        {"name": "at most eight stored arrays and 32 instructions", "rows": limit_rows()},
        {"name": "the memory of inlining", "rows": memory_rows()},
        {"name": "no elements, no axis and chunks past the edge", "rows": size_rows()},
        {"name": "each type inside", "rows": type_rows()},
        {"name": "other layouts, absent chunks and other bytes past the edge", "rows": layout_rows()},
        {"name": "refusals, and words", "rows": refused_rows()},
        {"name": "keys in the way", "rows": way_rows()},
        {"name": "chunks of another length", "rows": bad_rows()},
        {"name": "tasks by several workers", "rows": worker_rows()},
        *[{"name": name, **row} for name, row in FAILING.items()]]


if __name__ == "__main__":
    usage_if_asked(__doc__)
    sys.setrecursionlimit(5000)
    tables.write("fused_through.json", cases_in_memory())
    stop_cases.write("fused_through_folder.json", *folder_cases(*jobs()))
