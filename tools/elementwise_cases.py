#!/usr/bin/env python3
"""Writes the tables of cases of `run` over elementwise expressions: elementwise.json, lengths.json and refusals.json in
crates/test_cases/data.

usage: tools/elementwise_cases.py

Expected bytes, records, counts and lines come from compare/rules.py, as exact whole numbers and by the rules' own formulas; where
NumPy can be imported each element is compared with NumPy's too. A line whose rule isn't there is written by hand. Nothing
comes from the program.
"""
import os
import sys

TOP = os.path.dirname(os.path.dirname(os.path.realpath(__file__)))
sys.path.insert(0, f"{TOP}/compare")
import rules  # noqa: E402
import worker  # noqa: E402
from rules import Array, compact  # noqa: E402
from said import usage_if_asked

try:
    import compare
except ImportError:
    compare = None
    print("NumPy can't be imported: the elements are those of compare/rules.py alone", file=sys.stderr)

BEFORE = "error 9 key=_cubed/y/plan.json"


class Stored:
    """An array that a depot holds: what its metadata says, its elements, and which of its chunks are absent."""

    def __init__(self, array, values, absent=(), past=0, raw=None, metadata=None):
        self.array, self.absent, self.past, self.raw = array, absent, past, raw or {}
        self.metadata = array.written() if metadata is None else metadata
        self.elements = dict(zip(rules.indices(array.shape), values))
        for index in self.elements:
            if tuple(i // side for i, side in zip(index, array.chunk)) in absent:
                self.elements[index] = array.fill

    def holds(self, name):
        pairs = [[f"{name}/zarr.json", self.metadata]]
        for place in rules.itertools.product(*map(range, rules.grid_of(self.array.shape, self.array.chunk))):
            if place not in self.absent:
                pairs.append([self.array.key(name, place), self.raw.get(place) or self.spelled(place)])
        return pairs

    def spelled(self, place):
        return spelled(self.array, rules.chunk_bytes(self.array, self.elements, place, self.past))


def spelled(array, data):
    """Returns the bytes of a chunk as a table writes them, with a space between elements."""
    size = rules.SIZES[array.dtype]
    return {"hex": " ".join(data[at:at + size].hex() for at in range(0, len(data), size))}


def stored(dtype, shape, chunk, values, absent=(), past=0, raw=None, metadata=None, **layout):
    return Stored(Array(dtype, shape, chunk, **layout), values, absent, past, raw, metadata)


def node(ident, op, *args, **members):
    """Returns a node; without arguments it has no `args`."""
    return {"id": ident, "op": op, **({"args": list(args)} if args else {}), **members}


def inputs_of(*names):
    return [node(name, "input", name=name) for name in names]


def expression(nodes, out=None, store_as="y"):
    return {"nodes": nodes, "out": out or nodes[-1]["id"], "store_as": store_as}


def holds_of(arrays):
    return [pair for name, array in arrays.items() for pair in array.holds(name)]


def text_of(value):
    """Returns the bytes of a table's text or other JSON value."""
    return value.encode() if isinstance(value, str) else compact(value).encode()


def plan_over(text, arrays, allowed, reserved=0, split_every=rules.SPLIT_EVERY):
    held = {key: text_of(value) for key, value in holds_of(arrays)}
    return rules.plan_of(text_of(text), held.get, allowed, reserved, split_every)


def words_of(allowed, reserved):
    words = ["run"] if allowed is None else ["run", "--allowed-mem", str(allowed)]
    return words + (["--reserved-mem", str(reserved)] if reserved else [])


def made_by(plan, arrays):
    """Returns the chunks that a plan makes, in the order of its tasks."""
    found = rules.meant(plan, {name: array.elements for name, array in arrays.items()})
    if compare:
        compare.same_as_numpy(plan, {name: array.elements for name, array in arrays.items()}, found)
    return [[plan.key(k, place), spelled(plan.array(k), rules.chunk_bytes(plan.array(k), found[k], place))]
            for k in plan.made for place in plan.chunks(k)]


def ran(arrays, text, allowed=None, reserved=0, **more):
    """Returns the row of a run that ends with 0."""
    plan = plan_over(text, arrays, 200000000 if allowed is None else allowed, reserved)
    texts = [[f"_cubed/{plan.expr['store_as']}/plan.json", plan.record()],
             [f"{plan.expr['store_as']}/zarr.json", plan.array(plan.out).written()]]
    return {"words": words_of(allowed, reserved), "input": text, "holds": holds_of(arrays), **more,
            "output": plan.report(), "leaves": texts + made_by(plan, arrays)}


def refused(arrays, text, line=None, allowed=None, reserved=0, **more):
    """Returns the row of a run that is refused; without a line, with that of the rules."""
    if line is None:
        try:
            plan_over(text, arrays, 200000000 if allowed is None else allowed, reserved)
            raise SystemExit(f"{text} isn't refused")
        except rules.Refused as answer:
            line = f"error {answer}"
    return {"words": words_of(allowed, reserved), "input": text, "holds": holds_of(arrays), **more, "line": line}


def calls_of(plan):
    """Returns the calls of the depot and its yard that a run makes, of which none fails: the key, how many keys are stored by then, and
    the task whose call it is. Each input has a name of its own, and no task reads one array twice."""
    names = [entry["name"] for entry in plan.expr["nodes"] if entry["op"] == "input"]
    calls = [(f"{name}/zarr.json", 0, None) for name in names] + [(key, 0, None) for key in plan.keys_in_the_way()]
    return calls + [(key, number, None) for number, key in enumerate(plan.keys_in_the_way()[:2])] + worker.calls_of(tasks_of(plan))


def tasks_of(plan):
    """Returns the tasks of a plan of maps."""
    return [worker.Task(op, task, [plan.key(arg, where) for _, arg, where in plan.map_reads(k, place)], [plan.key(k, place)])
            for op, k in enumerate(plan.made) for task, place in enumerate(plan.chunks(k))]


def looped(arrays, text, allowed, late):
    """Returns a run with each of its calls failing once and for good, a stop before each, and each put late."""
    plan = plan_over(text, arrays, allowed)
    calls, ends = calls_of(plan), []
    for key, done, task in calls:
        line = f"error 10 op={task[0]} task={task[1]}" if task else f"error 16 key={key}"
        ends.append([line, done, BEFORE if done else ""])
    first = next(at for at, call in enumerate(calls) if call[2])
    loops = {"ends": ends, "once": {"from": first, "output": plan.report(1)}, "late": late, "sinks": True}
    row = ran(arrays, text, allowed)
    return {**row, "leaves": worker.in_order_stored(row["leaves"], tasks_of(plan)), "calls": len(calls), "loops": loops}


# The arrays of the worked examples

def six(values, **layout):
    return stored("int32", [6], [4], values, **layout)


def a_and_b():
    return {"a": six([1, 2, 3, 4, 5, 6]), "b": six([10, 20, 30, 40, 50, 60])}


def line_of(dtype, values, chunk=4, **layout):
    return stored(dtype, [len(values)], [chunk], values, **layout)


def number(dtype, value, **layout):
    return stored(dtype, [], [], [value], **layout)


ADDED = [*inputs_of("a", "b"), node("s", "add", "a", "b")]
DOUBLED = [*ADDED, node("t", "multiply", "s", 2)]


# Worked examples whose bytes, record and metadata stand here as texts

LITERAL_EXPRESSION = '{"nodes":[{"id":"a","op":"input","name":"a"},{"id":"b","op":"input","name":"b"},' \
    '{"id":"s","op":"add","args":["a","b"]},{"id":"t","op":"multiply","args":["s",2]}],"out":"t","store_as":"y"}'
LITERAL_METADATA = '{"chunk_grid":{"configuration":{"chunk_shape":[4]},"name":"regular"},"chunk_key_encoding":{"configuration":' \
    '{"separator":"/"},"name":"default"},"codecs":[{"configuration":{"endian":"little"},"name":"bytes"}],"data_type":"int32",' \
    '"fill_value":0,"node_type":"array","shape":[6],"zarr_format":3}'
LITERAL_RECORD = '{"allowed":1600,"cubed":2,"expr":{"nodes":[{"id":"a","name":"a","op":"input"},{"id":"b","name":"b","op":"input"},' \
    '{"args":["a","b"],"id":"s","op":"add"},{"args":["s",2],"id":"t","op":"multiply"}],"out":"t","store_as":"y"},"inputs":{"a":' \
    f'{LITERAL_METADATA},"b":{LITERAL_METADATA}' + '},"reserved":0,"split_every":4}'
LITERAL_CHUNKS = [
    ["_cubed/y/0/c/0", {"hex": "0b000000 16000000 21000000 2c000000"}],
    ["_cubed/y/0/c/1", {"hex": "37000000 42000000 00000000 00000000"}],
    ["y/c/0", {"hex": "16000000 2c000000 42000000 58000000"}],
    ["y/c/1", {"hex": "6e000000 84000000 00000000 00000000"}]]


def fused_later():
    """Two maps, with all that is stored as literal texts, which must be what the rules say."""
    row = ran(a_and_b(), expression(DOUBLED), 1600)
    leaves = [["_cubed/y/plan.json", LITERAL_RECORD], ["y/zarr.json", LITERAL_METADATA], *LITERAL_CHUNKS]
    assert [[key, text_of(value)] for key, value in leaves] == [[key, text_of(value)] for key, value in row["leaves"]]
    assert row["output"] == "ok ops=2 tasks=4 starts=4 failed=0 peak=1600\n"
    return {**row, "input": LITERAL_EXPRESSION, "leaves": leaves, "calls": 21}


def truth_byte():
    array = number("bool", 1, raw={(): {"hex": "07"}})
    row = ran({"x": array}, expression([*inputs_of("x"), node("n", "logical_not", "x")]), 1027)
    assert row["output"].endswith("peak=1027\n") and row["leaves"][-1] == ["y/c", {"hex": "00"}]
    return row


def big_endian_rows():
    """Big-endian numbers and a chunk that is absent, negated; and added to themselves by two nodes of one input."""
    array = stored("int16", [4], [2], [258, -2, 0, 0], absent={(1,)}, endian="big", fill=-1, raw={(0,): {"hex": "0102 fffe"}})
    negated = ran({"x": array}, expression([*inputs_of("x"), node("n", "negative", "x")]))
    assert negated["leaves"][-2:] == [["y/c/0", {"hex": "fefe 0200"}], ["y/c/1", {"hex": "0100 0100"}]]
    twice = [node("a", "input", name="x"), node("b", "input", name="x"), node("s", "add", "a", "b")]
    doubled = ran({"x": array}, expression(twice))
    assert doubled["leaves"][-2:] == [["y/c/0", {"hex": "0402 fcff"}], ["y/c/1", {"hex": "feff feff"}]]
    return [negated, doubled]


def whole_row_rows():
    """A matrix and a row, of one chunk each: each row of the matrix gets the other array; and a row that is too short."""
    matrix = stored("int32", [2, 3], [2, 3], [1, 2, 3, 4, 5, 6])
    added = ran({"a": matrix, "b": stored("int32", [3], [3], [10, 20, 30])}, expression(ADDED))
    assert added["leaves"][-1] == ["y/c/0/0", {"hex": "0b000000 16000000 21000000 0e000000 19000000 24000000"}]
    return [added, refused({"a": matrix, "b": stored("int32", [2], [2], [10, 20])}, expression(ADDED), "error 4 code=2 node=2")]


def broadcast_rows():
    matrix = stored("int32", [2, 3], [2, 2], [1, 2, 3, 4, 5, 6])
    row = stored("int32", [3], [2], [10, 20, 30])
    column = stored("int32", [2, 1], [1, 1], [100, 200])
    return [ran({"a": matrix, "b": row}, expression(ADDED)),
            ran({"a": row, "b": matrix}, expression(ADDED)),
            ran({"a": stored("int32", [2, 3], [1, 2], [1, 2, 3, 4, 5, 6]), "b": column}, expression(ADDED)),
            ran({"a": column, "b": stored("int32", [3], [2], [1, 2, 3])}, expression(ADDED)),
            refused({"a": matrix, "b": stored("int32", [2], [2], [1, 2])}, expression(ADDED), "error 4 code=2 node=2"),
            *whole_row_rows()]


def promoted_rows():
    plus = [*inputs_of("a"), node("s", "add", "a", 1)]
    return [ran({"a": line_of("int8", [127])}, expression(plus)),
            ran({"a": line_of("uint8", [255]), "b": line_of("int8", [-1])}, expression(ADDED)),
            refused({"a": line_of("int64", [1]), "b": line_of("uint64", [1])}, expression(ADDED), "error 4 code=1 node=2"),
            ran({"a": line_of("int32", [-(2**31), 7]), "b": line_of("uint32", [2**32 - 1, 0])}, expression(ADDED)),
            ran({"a": line_of("uint16", [65535, 1]), "b": line_of("int8", [1, -1])}, expression(ADDED))]


def divided_rows():
    arrays = {"a": line_of("int8", [-7, -7, -128, 5]), "b": line_of("int8", [2, 0, -1, -3])}
    return [ran(arrays, expression([*inputs_of("a", "b"), node("q", op, "a", "b")])) for op in ("floor_divide", "remainder")]


# Each function, over values at the ends of the types

SIGNED = [-128, -127, -8, -1, 0, 1, 9, 127]
UNSIGNED = [0, 1, 2, 8, 127, 128, 254, 255]
WIDE = {"int64": ([-(2**63), -(2**63), 2**63 - 1, -1, 5, 0], [-1, 2**63 - 1, 2, 63, -64, 64]),
        "uint64": ([0, 2**64 - 1, 2**64 - 1, 2**63, 5, 1], [1, 2**64 - 1, 2, 0, 64, 63])}


def folded(ops, first, second, both):
    """Returns nodes of each function over two nodes, and those that put the results together so that each is live."""
    nodes = [node(f"f{at}", op, *[first, second][:rules.FUNCTIONS[op][0]]) for at, op in enumerate(ops)]
    last = "f0"
    for at in range(1, len(ops)):
        nodes.append(node(f"x{at}", both, last, f"f{at}"))
        last = f"x{at}"
    return nodes


def each_of(ops, arrays, both="bitwise_xor"):
    return ran(arrays, expression([*inputs_of("a", "b"), *folded(ops, "a", "b", both)]))


def function_cases():
    whole = [*rules.ARITHMETIC, *rules.BITWISE]
    pairs = {"int8": {"a": stored("int8", [8, 1], [4, 1], SIGNED), "b": stored("int8", [1, 7], [1, 7], [-128, -9, -1, 0, 3, 8, 127])},
             "uint8": {"a": stored("uint8", [8, 1], [4, 1], UNSIGNED), "b": stored("uint8", [1, 7], [1, 7], [0, 1, 3, 7, 8, 200, 255])}}
    wide = {dtype: {"a": line_of(dtype, left, 6), "b": line_of(dtype, right, 6)} for dtype, (left, right) in WIDE.items()}
    truths = {"a": line_of("bool", [0, 0, 1, 1], 3, raw={(1,): {"hex": "ff 01 01"}}), "b": line_of("bool", [0, 1, 0, 1], 3)}
    mixed = {"a": line_of("int8", [-128, -1, 0, 1, 127, 5]), "b": line_of("uint8", [128, 255, 0, 1, 127, 6])}
    compared = [*rules.EQUALITY, *rules.ORDER]
    return [
        {"name": "each function of integers, over pairs of small numbers at the ends of their types", "rows": [
            each_of(whole, pairs["int8"]), each_of(whole, pairs["uint8"])]},
        {"name": "each function of integers of 64 bits, at the ends of their types", "rows": [
            each_of(whole, wide["int64"]), each_of(whole, wide["uint64"])]},
        {"name": "each comparison, of one type and of two", "rows": [
            each_of(compared, arrays, "logical_xor") for arrays in (mixed, wide["int64"], wide["uint64"])]},
        {"name": "each logical function and each function of bits over truth values, a stored byte other than 0 being true", "rows": [
            each_of([*rules.LOGICAL], truths, "logical_xor"), each_of([*rules.BITWISE], truths, "not_equal"),
            each_of([*rules.EQUALITY], truths, "logical_or")]},
        {"name": "a type is converted to each type", "rows": [
            ran({"a": line_of("int16", [-32768, -129, -1, 0, 1, 255, 256, 32767])},
                expression([*inputs_of("a"), node("t", "astype", "a", dtype=dtype)])) for dtype in rules.SIZES]},
        {"name": "truth values and unsigned numbers are converted", "rows": [
            ran({"a": line_of(dtype, values)}, expression([*inputs_of("a"), node("t", "astype", "a", dtype=to)]))
            for dtype, values, to in (("bool", [0, 1], "int64"), ("uint64", [2**64 - 1, 2**63, 0], "int32"),
                                      ("uint64", [2**64 - 2**8, 0], "bool"), ("bool", [1, 0], "bool"))]}]


def where_rows():
    nodes = [*inputs_of("c", "a", "b"), node("w", "where", "c", "a", "b")]
    truth = line_of("bool", [1, 0, 1], 2)
    arrays = {"c": truth, "a": line_of("int8", [-1, -2, -3], 2), "b": line_of("uint8", [200, 201, 202], 2)}
    matrix = {**arrays, "b": stored("uint8", [2, 3], [1, 2], [1, 2, 3, 4, 5, 6])}
    two = {name: arrays[name] for name in ("c", "a")}
    return [ran(arrays, expression(nodes)), ran(matrix, expression(nodes)),
            ran({"c": number("bool", 1), "a": number("int16", -5), "b": line_of("int16", [1, 2, 3], 2)}, expression(nodes)),
            ran({"c": truth, "a": truth, "b": line_of("bool", [0, 0, 1], 2)}, expression(nodes)),
            ran(two, expression([*inputs_of("c", "a"), node("w", "where", "c", "a", 127)])),
            ran(two, expression([*inputs_of("c", "a"), node("w", "where", "c", -128, "a")])),
            ran({"c": truth}, expression([*inputs_of("c"), node("w", "where", "c", "c", True)]))]


def literal_rows():
    array = {"a": line_of("int8", [-128, -1, 0, 127])}
    ends = {"a": line_of("uint64", [0, 1, 2**64 - 1])}
    truth = {"a": line_of("bool", [0, 1])}
    return [ran(arrays, expression([*inputs_of("a"), node("s", op, *args)])) for arrays, op, args in (
        (array, "subtract", (-128, "a")), (array, "subtract", ("a", 127)), (array, "bitwise_left_shift", (1, "a")),
        (array, "less", (0, "a")), (ends, "equal", ("a", 2**64 - 1)), (ends, "floor_divide", ("a", 0)),
        (truth, "logical_xor", (True, "a")), (truth, "not_equal", ("a", False)), (truth, "bitwise_or", (False, "a")))]


# The greater, the lesser, and numbers between bounds

AB, X = inputs_of("a", "b"), inputs_of("x")


def clipped(ident, arg, least, most):
    return node(ident, "clip", arg, min=least, max=most)


def ending(row, values, peak=None):
    """Returns a row of one array in one chunk, whose elements and peak stand here by hand."""
    key, chunk = row["leaves"][-1]
    assert key.startswith("y/c") and chunk["hex"].split() == values, chunk
    assert peak is None or row["output"].endswith(f" peak={peak}\n"), row["output"]
    return row


def extreme_pairs():
    """Returns two arrays of one type and of two types each, at the ends of the types."""
    column, row = [8, 1], [1, 7]
    signed, unsigned = [-128, -9, -1, 0, 3, 8, 127], [0, 1, 3, 7, 8, 200, 255]
    yield {"a": stored("int8", column, [4, 1], SIGNED), "b": stored("int8", row, row, signed)}
    yield {"a": stored("uint8", column, [4, 1], UNSIGNED), "b": stored("uint8", row, row, unsigned)}
    for dtype, (left, right) in WIDE.items():
        yield {"a": line_of(dtype, left, 6), "b": line_of(dtype, right, 6)}
    whole = [-(2**31), 2**31 - 1, -1, 0]
    yield {"a": line_of("int32", whole), "b": line_of("uint32", [0, 2**32 - 1, 1, 0])}
    yield {"a": line_of("uint16", [65535, 0, 7]), "b": line_of("int16", [-32768, 32767, 7])}
    yield {"a": line_of("int64", [-(2**63), 2**63 - 1, 5]), "b": line_of("uint32", [2**32 - 1, 0, 5])}


def extreme_rows():
    mixed = {"a": line_of("int8", [-128, 5], 2), "b": line_of("uint8", [200, 1], 2)}
    return [ending(ran(mixed, expression([*AB, node("m", "maximum", "a", "b")])), ["c800", "0500"]),
            ending(ran(mixed, expression([*AB, node("m", "minimum", "a", "b")])), ["80ff", "0100"]),
            *[each_of([*rules.EXTREMES], arrays) for arrays in extreme_pairs()]]


def extreme_literal_rows():
    """A number on either side, at the ends of its array's type."""
    rows = []
    for dtype in ("int8", "uint8", "int64", "uint64"):
        low, high = rules.limits(dtype)
        array = {"x": line_of(dtype, [low, low + 1, high // 2 + 1, high], 3)}
        for op, args in (("maximum", ("x", low + 1)), ("maximum", (high, "x")),
                         ("minimum", (low, "x")), ("minimum", ("x", high // 2))):
            rows.append(ran(array, expression([*X, node("m", op, *args)])))
    return rows


def extreme_shape_rows():
    """Shapes that broadcast, an array that is copied to other chunks, one that is read twice, no axes, no elements."""
    both, bounded = expression([*AB, node("m", "maximum", "a", "b")]), expression([*X, clipped("m", "x", -4, 3)])
    matrix, row = stored("int32", [2, 3], [1, 2], [1, -2, 3, -4, 5, -6]), stored("int16", [3], [2], [0, 4, -4])
    three, four = stored("int32", [6], [3], [6, 5, 4, 3, 2, 1]), six([6, 5, 4, 3, 2, 1])
    copied = ran({"a": six([1, 2, 3, 4, 5, 6]), "b": three}, both)
    nothing = stored("int32", [0], [4], [])
    return [ran({"a": matrix, "b": row}, both), ran({"a": row, "b": matrix}, both),
            with_copy(copied, "_cubed/y/0", four),
            ran({"x": four}, expression([*X, node("m", "minimum", "x", "x")])),
            ran({"a": number("int8", -5), "b": number("uint8", 200)}, both),
            ran({"x": number("int8", -5)}, bounded),
            ran({"a": nothing, "b": stored("int32", [1], [4], [7])}, both),
            ran({"x": stored("int8", [2, 0], [1, 3], [])}, bounded)]


def clip_rows():
    """Bounds inside, at the ends of the type, equal, and exchanged, where all elements are the upper one."""
    def bounded(*bounds):
        return expression([*X, clipped("n", "x", *bounds)])

    short, one = ({"x": line_of("int32", [1, 2, 3, 4, 5, 6], side)} for side in (4, 6))
    between = [f"{x:02x}000000" for x in (2, 2, 3, 4, 5, 5)]
    rows = [reported(ran(short, bounded(2, 5)), 1, 2, 3632), reported(ran(short, bounded(5, 2)), 1, 2, 3632),
            reported(ran(short, bounded(2, 5), 3639, 7), 1, 2, 3639),
            refused(short, bounded(2, 5), "error 5 node=1 need=3632 allowed=3631", 3631),
            ending(ran(one, bounded(2, 5)), between, 3656), ending(ran(one, bounded(5, 2)), ["02000000"] * 6, 3656)]
    for dtype in list(rules.SIZES)[1:]:
        low, high = rules.limits(dtype)
        half = high // 2
        array = {"x": line_of(dtype, [low, low + 1, half, high - 1, high], 5)}
        rows += [ran(array, bounded(*bounds)) for bounds in ((low, high), (low + 1, high - 1), (half, half), (high, low))]
    return rows


def bounds_of(count):
    """Returns so many nodes with bounds, each of the one before."""
    return [*X, *[clipped(f"m{at}", f"m{at - 1}" if at else "x", at, 100 - at) for at in range(count)]]


def extreme_merged_rows():
    """Maps that are merged with others, and with each other, as long as 32 instructions hold them."""
    three = {**a_and_b(), "c": six([7, 30, 7, 41, 9, 9])}
    one = {"x": six([-7, 2, 3, 98, 99, 6])}
    abc = inputs_of("a", "b", "c")
    bounds = expression([*abc, node("s", "subtract", "b", "a"), clipped("n", "s", 10, 40),
                         node("m", "maximum", "n", "c"), node("t", "multiply", "m", 2)])
    below = expression([*abc, node("m", "minimum", "b", "c"), node("n", "maximum", 9, "a"), node("t", "minimum", "m", "n")])
    twice = expression([*AB, node("m", "maximum", "a", "b"), node("n", "minimum", "a", "b"), node("t", "subtract", "m", "n")])
    chosen = expression([*abc, node("l", "less", "a", 3), node("w", "where", "l", "b", "c"), clipped("t", "w", 20, 30)])
    narrow = expression([*X, node("n", "astype", "x", dtype="int8"), clipped("m", "n", -2, 3), node("t", "maximum", "m", "x")])
    return [reported(ran(three, bounds), 1, 2, 7248), ran(three, bounds, 7247), ran(three, bounds, 3632),
            ran(three, below), ran(a_and_b(), twice), ran(three, chosen), ran(one, narrow),
            reported(ran(one, expression(bounds_of(5))), 1, 2, 15920),
            reported(ran(one, expression(bounds_of(6))), 2, 4, 15920), ran(one, expression(bounds_of(11)))]


def planned(arrays, text, allowed):
    return {"words": ["plan", "--allowed-mem", str(allowed)], "input": text, "holds": holds_of(arrays),
            "output": plan_over(text, arrays, allowed).lines()}


def extreme_planned_rows():
    """What `plan` prints: maps as any other."""
    both = expression([*AB, node("m", "minimum", "a", "b"), clipped("n", "m", -1, 30)])
    apart, merged = (planned(a_and_b(), both, allowed) for allowed in (5183, 5184))
    assert apart["output"].splitlines() == ["op 0 map node=2 tasks=2 cells=2 projected=2112",
                                            "op 1 map node=3 tasks=2 cells=2 projected=3632",
                                            "plan ops=2 tasks=4 cells=4 peak=3632"]
    assert merged["output"].splitlines() == ["op 0 map node=3 tasks=2 cells=2 projected=5184",
                                             "plan ops=1 tasks=2 cells=2 peak=5184"]
    return [apart, merged]


def extreme_cases():
    return [
        {"name": "the greater and the lesser, of one type and of two", "rows": extreme_rows()},
        {"name": "the greater and the lesser of an array and a number", "rows": extreme_literal_rows()},
        {"name": "the greater and the lesser over other shapes and chunks", "rows": extreme_shape_rows()},
        {"name": "numbers between two bounds", "rows": clip_rows()},
        {"name": "extremes and bounds in maps that are merged", "rows": extreme_merged_rows()},
        {"name": "plans of extremes and bounds", "rows": extreme_planned_rows()}]


# Shapes of plans

def chain(count):
    """Returns nodes of so many functions, each of the one before."""
    nodes = inputs_of("a")
    for at in range(count):
        op, rest = (("add", (at,)), ("multiply", (3,)), ("negative", ()), ("bitwise_xor", (85,)))[at % 4]
        nodes.append(node(f"m{at}", op, nodes[-1]["id"], *rest))
    return nodes


def chained_rows():
    array = {"a": stored("int16", [5], [3], [1, -2, 3, -4, 32767])}
    return [ran(array, expression(chain(count))) for count in (1, 2, 40)]


def used_twice_rows():
    return [ran(a_and_b(), expression([*ADDED, node("t", "multiply", "s", "s"), node("u", "subtract", "s", "t")]), 1600),
            ran({"a": six([1, 2, 3, 4, 5, 6])}, expression([*inputs_of("a"), node("t", "multiply", "a", "a")]), 1600),
            ran({"a": six([1, 2, 3, 4, 5, 6])}, expression(
                [node("p", "input", name="a"), node("q", "input", name="a"), node("s", "add", "p", "q"), node("t", "add", "s", "q")]))]


def reported(row, ops, tasks, peak):
    assert row["output"] == f"ok ops={ops} tasks={tasks} starts={tasks} failed=0 peak={peak}\n", row["output"]
    return row


def functions_of(count):
    """Returns so many functions, each of the one before; a number is negated or not."""
    return [*inputs_of("a"), *[node(f"m{at}", "negative", f"m{at - 1}" if at else "a") for at in range(count)]]


def sum_of(count):
    """Returns the arrays a0, a1 and so on, and the nodes that add them one after another."""
    arrays = {f"a{at}": six(range(at, at + 6)) for at in range(count)}
    adds = [node(f"s{at}", "add", f"s{at - 1}" if at > 1 else "a0", f"a{at}") for at in range(1, count)]
    return arrays, [*inputs_of(*arrays), *adds]


def merged_rows():
    """Maps whose result one other map alone reads: with enough memory they are one operation, with a byte less they are two. An array that
    is read twice stays, and so does one of another grid; and a map has at most 8 inputs and 32 instructions."""
    two = a_and_b()
    three = {**two, "c": six([7, 7, 7, 9, 9, 9])}
    matrix = {"a": stored("int32", [2, 3], [1, 2], range(6)), "b": stored("int32", [3], [2], [5, 6, 7])}
    nine, eight, one = sum_of(9), sum_of(8), {"a": six([1, 2, 3, 4, 5, 6])}
    both = [*ADDED, node("d", "subtract", "a", "b"), node("p", "multiply", "s", "d")]
    diamond = [*ADDED, node("u", "negative", "s"), node("v", "square", "s"), node("w", "subtract", "u", "v")]
    last = [*inputs_of("a", "b", "c"), node("n", "square", "c"), node("s", "subtract", "a", "b"), node("t", "subtract", "n", "s")]
    chosen = [*ADDED, node("l", "less", "a", 3), node("w", "where", "l", "s", -1), node("t", "subtract", 100, "w")]
    narrow = [*ADDED, node("n", "astype", "s", dtype="int8"), node("w", "add", "n", "a"), node("t", "equal", "w", "b")]
    stretched = [*inputs_of("a", "b"), node("n", "negative", "b"), node("s", "add", "a", "n"), node("t", "square", "s")]
    copied = [*inputs_of("a", "b"), node("n", "negative", "b"), node("s", "add", "a", "n"), node("t", "square", "s")]
    sides = {"a": six([1, 2, 3, 4, 5, 6]), "b": stored("int32", [6], [3], range(6))}
    return [
        reported(ran(two, expression(DOUBLED), 2624), 1, 2, 2624), reported(ran(two, expression(DOUBLED), 2623), 2, 4, 1600),
        reported(ran(two, expression(DOUBLED), 2631, 7), 1, 2, 2631), reported(ran(two, expression(DOUBLED), 2630, 7), 2, 4, 1607),
        reported(ran(two, expression(both)), 1, 2, 3680), ran(two, expression([*ADDED, node("t", "multiply", "s", "s")])),
        ran(two, expression(diamond)), ran(three, expression(last)), ran(two, expression(chosen)), ran(two, expression(narrow)),
        ran(matrix, expression(stretched)),
        with_copy(ran(sides, expression(copied)), "_cubed/y/1", stored("int32", [6], [4], [0, -1, -2, -3, -4, -5])), ran(*(eight[0], expression(eight[1]))), ran(*(nine[0], expression(nine[1]))),
        ran(one, expression(functions_of(31))), ran(one, expression(functions_of(32))), ran(one, expression(functions_of(64))),
        ran({"a": number("int16", 5), "b": number("int16", -7)}, expression(both)),
        ran({"a": stored("int8", [0, 3], [2, 2], []), "b": stored("int8", [3], [2], [1, 2, 3])}, expression([*ADDED, node("t", "abs", "s")]))]


def with_copy(row, name, array):
    """Returns the row with the chunks of a copy, which the plan makes behind its first array: the rules name the arrays of nodes alone."""
    leaves = row["leaves"]
    at = next(k for k, (key, _) in enumerate(leaves) if key.startswith("y/c"))
    return {**row, "leaves": leaves[:at] + array.holds(name)[1:] + leaves[at:]}


def merged_calls():
    """One operation of two maps, whichever call fails."""
    arrays = {**a_and_b(), "c": six([1, 1, 1, 2, 2, 2])}
    return looped(arrays, expression([*inputs_of("a", "b", "c"), node("s", "add", "a", "b"), node("t", "multiply", "c", "s")]), 2640, 20)


def dead_rows():
    """A dead input is read and stands in the record; its chunks are neither read nor needed, and no dead node is carried out."""
    large = stored("int64", [4000], [2000], [0] * 4000, absent={(0,), (1,)})
    short = six([1, 2, 3, 4, 5, 6], raw={(0,): {"hex": "01"}})
    nodes = [*inputs_of("a", "b", "d"), node("n", "negative", "d"), node("s", "add", "a", "b"), node("v", "square", "s"),
             node("m", "sum", "d"), node("r", "rechunk", "s", chunk=[1])]
    first = [*inputs_of("d", "a", "b"), node("n", "abs", "d"), node("s", "add", "a", "b"), node("t", "negative", "s")]
    return [ran({**a_and_b(), "d": large}, expression(nodes, "s"), 1600, calls=16),
            ran({**a_and_b(), "d": short}, expression(nodes, "s"), 1600, calls=16),
            ran({**a_and_b(), "d": large}, expression(first), 1600, calls=22),
            ran({**a_and_b(), "d": large}, expression([*inputs_of("a", "b", "d"), node("s", "add", "a", "b"),
                                                       node("u", "add", "s", 1)], "s"), 1600, calls=16)]


def rank_zero_rows():
    one = {"a": number("int8", 100), "b": number("int8", 100)}
    return [ran(one, expression(ADDED)), ran(one, expression([*inputs_of("a"), node("s", "square", "a")])),
            ran({"a": number("int8", 100), "b": line_of("int16", [1, 2, 3], 2)}, expression(ADDED)),
            ran({"a": stored("int16", [2, 1], [1, 1], [1, 2]), "b": number("uint8", 200, absent={()}, fill=255)}, expression(ADDED))]


def empty_rows():
    nothing = stored("int32", [0], [4], [])
    return [ran({"a": nothing, "b": nothing}, expression(ADDED), 1600),
            ran({"a": nothing, "b": stored("int32", [1], [4], [7])}, expression(DOUBLED), 1600),
            ran({"a": stored("int8", [2, 0], [1, 3], []), "b": stored("int8", [2, 1], [1, 3], [1, 2])}, expression(ADDED))]


def layouts_row():
    arrays = {"a": stored("int16", [3, 3], [2, 2], list(range(9)), past=77, endian="big", encoding="v2", separator="."),
              "b": stored("int16", [3, 3], [2, 2], [10 * k for k in range(9)], absent={(0, 1)}, fill=-3, separator="."),
              "c": stored("uint8", [3], [2], [1, 2, 3], past=9, encoding="v2", separator="/")}
    return ran(arrays, expression([*inputs_of("a", "b", "c"), node("s", "add", "a", "b"), node("t", "multiply", "s", "c")]))


def reserved_rows():
    return [ran(a_and_b(), expression(DOUBLED), 1607, 7), refused(a_and_b(), expression(DOUBLED), None, 1606, 7)]


def three_operations():
    return looped(a_and_b(), expression([*ADDED, node("t", "multiply", "s", 2), node("u", "subtract", "t", "a")]), 1600, 20)


def broken_rows():
    """Faults inside the tasks of a later operation."""
    nodes = [*ADDED, node("t", "multiply", "s", 2), node("u", "subtract", "t", "c")]
    text = expression([nodes[0], nodes[1], node("c", "input", name="c"), *nodes[2:]])
    arrays = {**a_and_b(), "c": six([1, 1, 1, 1, 1, 1])}
    whole = ran(arrays, text, 1600)
    texts, chunks = whole["leaves"][:2], whole["leaves"][2:]
    short = {**arrays, "c": six([1, 1, 1, 1, 1, 1], raw={(1,): {"hex": "01000000 01000000 00000000 000000"}})}
    # A task of the last operation is tried until it has failed three times, or is done.
    failing = {key: [entry for entry in chunks if entry[0] != key] for key in ("y/c/1", "_cubed/y/1/c/0")}
    return [
        {**whole, "holds": holds_of(short), "output": "", "line": "error 13 key=c/c/1 got=15 want=16", "leaves": texts,
         "may_leave": failing["y/c/1"]},
        {**whole, "faults": [{"call": "put", "key": "y/c/1", "times": 2}], "output": whole["output"].replace("6 failed=0", "8 failed=2")},
        {**whole, "faults": [{"call": "put", "key": "y/c/1", "times": 3}], "output": "", "line": "error 10 op=2 task=1",
         "leaves": texts, "may_leave": failing["y/c/1"]},
        {**whole, "faults": [{"call": "get", "key": "_cubed/y/0/c/0", "times": 3}], "output": "", "line": "error 10 op=1 task=0",
         "leaves": texts, "may_leave": [entry for entry in failing["_cubed/y/1/c/0"] if entry[0] != "y/c/0"]},
        {**whole, "faults": [{"call": "put", "key": "_cubed/y/1/c/0", "times": 1, "land": 1}],
         "output": whole["output"].replace("6 failed=0", "7 failed=1")}]


def elementwise_cases():
    return [
        {"name": "two maps, with all that they store", **fused_later()},
        {"name": "types are promoted, and sums wrap once", "rows": promoted_rows()},
        {"name": "quotients are rounded down, and by zero all is zero", "rows": divided_rows()},
        {"name": "a truth value that is stored as 7", **truth_byte()},
        {"name": "big-endian numbers, and a chunk that is absent", "rows": big_endian_rows()},
        {"name": "shapes broadcast", "rows": broadcast_rows()},
        {"name": "three operations, whichever call fails", **three_operations()},
        {"name": "faults in the tasks of later operations", "rows": broken_rows()},
        {"name": "chains of 1, 2 and 40 functions", "rows": chained_rows()},
        {"name": "a node and an input are used twice", "rows": used_twice_rows()},
        {"name": "maps that are merged, and maps that aren't", "rows": merged_rows()},
        {"name": "two maps in one operation, whichever call fails", **merged_calls()},
        {"name": "dead nodes are neither carried out nor refused for memory, and chunks of dead inputs aren't read", "rows": dead_rows()},
        {"name": "arrays without an axis", "rows": rank_zero_rows()},
        {"name": "arrays without elements", "rows": empty_rows()},
        {"name": "inputs of other layouts, with other bytes past the edge", **layouts_row()},
        {"name": "memory that is set aside", "rows": reserved_rows()},
        {"name": "where", "rows": where_rows()},
        {"name": "literals", "rows": literal_rows()},
        *function_cases(),
        *extreme_cases()]


# Lengths: each function at some, and each length from 0 to 131 by a function of one type and one of two types

PARTNERS = {"int8": "int16", "int16": "uint8", "int32": "int8", "int64": "uint32",
            "uint8": "uint16", "uint16": "uint64", "uint32": "uint8", "uint64": "uint16"}
TWO = [op for op, row in rules.FUNCTIONS.items() if row[0] == 2 and op not in rules.LOGICAL]


def numbers(dtype, count, seed):
    """Returns so many numbers of a type, its ends, 0 and small ones among them."""
    bits = 8 * rules.SIZES[dtype]
    ends = [0, 1, 2, -1, 7, 2**(bits - 1) - 1, 2**(bits - 1), 2**bits - 1]
    return [rules.wrapped(dtype, ends[(at * 5 + seed) % 8] if at % 3 else (at * at + seed) * 0x9E3779B97F4A7C15 >> at % 60) for at in range(count)]


def length_row(length):
    """Returns a run over arrays of one length: a function of two arrays of a type, and one of its result and an array of another type."""
    first, second = TWO[length % len(TWO)], TWO[(5 * length + 2) % len(TWO)]
    dtype = list(PARTNERS)[(length + length // 8) % 8]
    arrays = {name: line_of(kind, numbers(kind, length, seed), max(length, 1))
              for name, kind, seed in (("a", dtype, 3 * length), ("b", dtype, length + 1), ("c", PARTNERS[dtype], length))}
    gives_numbers = first in rules.ARITHMETIC or first in rules.BITWISE or first in rules.EXTREMES
    last = node("t", second, "s", "c") if gives_numbers else node("t", "where", "s", "a", "c")
    return ran(arrays, expression([*inputs_of("a", "b", "c"), node("s", first, "a", "b"), last]))


def length_cases():
    return [{"name": f"lengths from {least} to {least + 32}", "rows": [length_row(length) for length in range(least, least + 33)]}
            for least in range(0, 132, 33)]


# Refusals

def metadata_of(dtype, shape, chunk):
    """Returns an array of which no chunk is held."""
    array = stored(dtype, [0] * len(shape), chunk, [])
    array.array = Array(dtype, shape, chunk)
    array.metadata = array.array.written()
    array.holds = lambda name: [[f"{name}/zarr.json", array.metadata]]
    return array


def text_rows():
    """Each code of 3, in its order."""
    a, sum_of = inputs_of("a")[0], node("s", "add", "a", "a")
    nodes = [node(f"n{at}", "input", name="a") for at in range(257)]
    texts = ['{"nodes":[', "", "{}", {**expression([a, sum_of]), "more": 1}, expression([a, sum_of], "q"), expression([a, sum_of], "s", "_y"),
             expression([a, sum_of], "s", "../x"), expression([a, 7], "a"), expression([a, {**sum_of, "more": 1}]),
             expression([a, node("s", "sort", "a")]), expression([a, node("s", "Add", "a", "a")]),
             expression([a, node("s", "add", "a")]), expression([a, node("s", "add", 1, 2)]), expression([a, node("s", "negative", 5)]),
             expression([a, node("s", "maximum", "a")]), expression([a, node("s", "minimum", 1, 2)]),
             expression([a, node("s", "maximum", "a", "a", axis=0)]), expression([a, clipped("s", 5, 0, 9)]),
             expression([a, node("s", "clip", "a", "a", min=0, max=9)]), expression([a, node("s", "clip", "a", min=0)]),
             expression([a, clipped("s", "a", 0, True)]), expression([a, clipped("s", "a", -(2**63) - 1, 0)]),
             expression([a, clipped("s", "a", 0, 2**64)]), expression([a, clipped("s", "a", None, 9)]),
             expression([a, clipped("s", 5, 0, 2**64)]), expression([a, clipped("s", "q", 0, 9)]),
             expression([a, node("a", "negative", "a")], "a"), expression([a, node("s", "add", "a", "q")]), expression(nodes),
             '{"nodes":[{"id":"a","op":"input","name":"a"},{"id":"s","op":"add","args":["a",1.0]}],"out":"s","store_as":"y"}',
             '{"nodes":[{"id":"a","op":"input","name":"a"},{"id":"s","op":"add","args":["a",-0]}],"out":"s","store_as":"y"}',
             '{"nodes":[{"id":"a","op":"input","name":"a"},{"id":"s","op":"add","args":["a",18446744073709551616]}],"out":"s","store_as":"y"}']
    rows = [refused(a_and_b(), text, calls=0) for text in texts]
    long = {"join": [compact(expression([a, sum_of])), {"repeat": [" ", 1048576]}]}
    return rows + [{"words": ["run"], "input": long, "holds": [], "line": "error 3 code=7 node=0", "calls": 0}]


def type_rows():
    """Each code of 4, in its order; those of operators that aren't elementwise by hand."""
    lines = {"a": line_of("int8", [1, 2, 3]), "c": line_of("bool", [1, 0, 1])}
    cube = {"a": stored("int32", [2, 3], [1, 2], [1, 2, 3, 4, 5, 6])}
    wide = {"a": metadata_of("int8", [2**20, 1], [2**20, 1]), "b": metadata_of("int8", [1, 2**21], [1, 2**21])}
    deep = {"a": metadata_of("int64", [1, 2**14], [1, 2**14]), "b": metadata_of("int64", [2**14, 1], [2**14, 1])}
    many = {"a": metadata_of("int8", [2**9, 1], [1, 1]), "b": metadata_of("int8", [1, 2**9], [1, 1])}
    sole = inputs_of("a")
    of_two = inputs_of("a", "c")
    by_rules = [
        (lines, [*of_two, node("s", "add", "c", 1)]), (lines, [*of_two, node("s", "logical_not", "a")]),
        (lines, [*of_two, node("s", "where", "a", "c", "c")]), (lines, [*of_two, node("s", "less", "c", "c")]),
        (lines, [*of_two, node("s", "add", "a", 128)]), (lines, [*of_two, node("s", "add", "a", True)]),
        (lines, [*of_two, node("s", "where", "c", "c", 1)]), (lines, [*of_two, node("s", "equal", "a", "c")]),
        (lines, [*of_two, node("s", "maximum", "a", "c")]), (lines, [*of_two, node("s", "minimum", True, "a")]),
        (lines, [*of_two, node("s", "maximum", "c", 300)]), (lines, [*of_two, node("s", "maximum", 128, "a")]),
        (lines, [*of_two, clipped("s", "c", 0, 300)]), (lines, [*of_two, clipped("s", "a", -129, 5)]),
        (lines, [*of_two, clipped("s", "a", 5, 128)]), (lines, [*of_two, clipped("s", "a", -(2**63), 2**64 - 1)]),
        (lines, [*of_two, node("s", "bitwise_and", "c", "a")]), (lines, [*of_two, node("s", "where", "c", "a", "c")]),
        (wide, ADDED), (deep, ADDED), (many, ADDED)]
    by_hand = [
        (cube, [*sole, node("s", "permute_dims", "a", axes=[0, 0])], 3), (cube, [*sole, node("s", "flip", "a", axes=[2])], 3),
        (cube, [*sole, node("s", "index", "a", index=[2])], 9),
        ({}, [node("s", "arange", start=0, stop=6, step=0, dtype="int32", chunk=[4])], 9),
        (cube, [*sole, node("s", "reshape", "a", shape=[4, -1])], 8),
        ({"a": stored("int32", [0], [4], [])}, [*sole, node("s", "max", "a")], 4),
        (cube, [*sole, node("s", "broadcast_to", "a", shape=[2, 4], chunk=[1, 1])], 2),
        (cube, [*sole, node("s", "concat", "a", "a", axis=2)], 3)]
    return [refused(arrays, expression(nodes)) for arrays, nodes in by_rules] + \
        [refused(arrays, expression(nodes), f"error 4 code={code} node={len(nodes) - 1}") for arrays, nodes, code in by_hand]


def type_order_rows():
    """The first faulty node, live or not, and of one node's faults the first of their order."""
    arrays = {"a": line_of("int8", [1, 2, 3]), "b": line_of("int16", [1, 2]), "c": line_of("bool", [1, 0, 1])}
    three = inputs_of("a", "b", "c")
    return [refused(arrays, expression(nodes, out)) for nodes, out in (
        ([*three, node("p", "add", "c", "a"), node("q", "add", "a", "b")], "q"),
        ([*three, node("p", "add", "a", "b"), node("q", "add", "c", "a")], "p"),
        ([*three, node("p", "add", "a", 1), node("q", "negative", "c")], "p"),
        ([*three, node("p", "add", "c", 1000)], "p"), ([*three, node("p", "where", "c", "b", 40000)], "p"),
        ([*three, node("p", "bitwise_or", "c", "b")], "p"), ([*three, node("p", "where", "c", "c", "b")], "p"))]


def memory_rows():
    """At the border, and the first such node: an input too where more is set aside than allowed, but no dead one."""
    bytes_of = {"a": line_of("int8", [1, 2, 3, 4, 5], 3), "b": line_of("int64", [1, 2, 3, 4, 5], 3)}
    nodes = [*inputs_of("a", "b"), node("n", "negative", "a"), node("s", "add", "n", "b"), node("t", "square", "s")]
    select = [*inputs_of("a", "b"), node("l", "less", "a", 3), node("w", "where", "l", "b", -1)]
    rows = []
    for text in (expression(nodes), expression(select)):
        plan = plan_over(text, bytes_of, 10**6)
        needs = [plan.need(k) for k in plan.lowered]
        rows += [refused(bytes_of, text, None, need - 1) for need in needs]
        rows += [ran(bytes_of, text, allowed) for allowed in (max(needs), plan.peak() - 1, plan.peak())]
    return rows + [
        refused(a_and_b(), expression(ADDED), "error 5 node=0 need=1601 allowed=1600", 1600, 1601),
        refused(a_and_b(), expression([*inputs_of("a", "b"), node("n", "negative", "b")]), "error 5 node=1 need=9 allowed=8", 8, 9),
        refused(a_and_b(), expression(ADDED), "error 5 node=2 need=1600 allowed=0", 0),
        refused({"a": metadata_of("int64", [2**28], [2**25])}, expression([*inputs_of("a"), node("n", "negative", "a")]), None)]


def count_rows():
    """Tasks at the border, where the record that is held is named, and one more. Metadata alone is read."""
    def line(count):
        return metadata_of("int8", [count], [1])

    held = [["_cubed/y/plan.json", "{}"]]
    square = [*inputs_of("a"), node("p", "square", "a"), node("q", "square", "p")]
    more = [*inputs_of("a", "o"), node("p", "square", "a"), node("q", "square", "o"), node("r", "add", "p", "q")]
    dead = [*square, node("d", "square", "q")]
    arrays = {"a": line(32768)}
    edge = refused(arrays, expression(square), BEFORE)
    beside = refused(arrays, expression(dead, "q"), BEFORE)
    return [{**edge, "holds": edge["holds"] + held}, {**beside, "holds": beside["holds"] + held},
            refused({"a": line(32768), "o": metadata_of("int8", [], [])}, expression(more), "error 6 which=1 count=65537"),
            refused({"a": line(65536)}, expression(square), "error 6 which=1 count=131072"),
            refused({"a": line(40000)}, expression([*square, node("r", "add", "p", "q")]), "error 6 which=1 count=120000"),
            refused({"a": line(65536)}, expression([*inputs_of("a"), *[node(f"n{k}", "square", f"n{k - 1}" if k else "a") for k in range(5)]]),
                    "error 6 which=1 count=327680")]


def way_rows():
    """The keys in the way in their order: record, metadata, and the chunks of each array that is made."""
    arrays = {name: metadata_of("int32", [6], [4]) for name in "ab"}
    text = expression(DOUBLED)
    keys = plan_over(text, arrays, 1600).keys_in_the_way()
    rows = []
    for at, key in enumerate(keys):
        later = [[other, {"hex": "07"}] for other in keys[at:]]
        rows.append({**refused(arrays, text, f"error 9 key={key}", 1600, calls=2 + at + 1), "holds": holds_of(arrays) + later})
    same = expression(ADDED, "s", "b")
    dead = expression([*inputs_of("a", "y"), node("n", "negative", "a")])
    return rows + [refused(arrays, same, "error 9 key=b/zarr.json"),
                   {**refused(arrays, same, "error 9 key=_cubed/b/plan.json"), "holds": holds_of(arrays) + [["_cubed/b/plan.json", ""]]},
                   refused({"a": arrays["a"], "y": arrays["b"]}, dead, "error 9 key=y/zarr.json")]


def pair_rows():
    """Two faults at once, of which the earlier in the order of refusals is named."""
    both = {name: metadata_of("int32", [6], [4]) for name in "ab"}
    bad = metadata_of("int32", [6], [4])
    bad.metadata = "[]"
    odd = {"a": both["a"], "b": metadata_of("int32", [5], [4])}
    misaligned = {"a": both["a"], "b": metadata_of("int32", [6], [5])}
    many = {"a": metadata_of("int8", [65536], [1])}
    twice = expression([*inputs_of("a"), node("p", "square", "a"), node("q", "square", "p")])
    text, no_text = expression(ADDED), expression([*ADDED, 3], "s")
    held = [["_cubed/y/plan.json", ""]]

    def failing(key, call="get"):
        return [{"call": call, "key": key, "times": 3}]

    def row(arrays, line, text=text, more_holds=(), **more):
        allowed = more.pop("allowed", None)
        made = refused(arrays, text, f"error {line}", allowed, **more)
        return {**made, "holds": made["holds"] + list(more_holds)}

    return [
        {**row(both, "2 code=2", source_fails_at=0), "words": ["run", "--retries", "9"]},
        row(both, "11", no_text, source_fails_at=0), row(both, "11", no_text, source_fails_at=1),
        row(both, "3 code=3 node=3", no_text, faults=failing("a/zarr.json"), calls=0),
        row({"b": bad}, "16 key=a/zarr.json", faults=failing("a/zarr.json"), calls=3),
        row({"b": both["b"]}, "8 name=a", faults=failing("b/zarr.json"), calls=2),
        row({"b": bad}, "8 name=a", calls=2), row({"a": bad}, "7 name=a code=1", calls=1),
        row({"a": bad, "b": both["b"]}, "7 name=a code=1", faults=failing("b/zarr.json"), calls=1),
        row({"a": odd["a"], "b": bad}, "7 name=b code=1", expression([*inputs_of("a", "b"), node("s", "logical_not", "a")])),
        row({"a": both["a"]}, "8 name=b", expression([*inputs_of("a"), node("n", "logical_not", "a"), *inputs_of("b")], "n")),
        row(odd, "4 code=2 node=2"), row(odd, "4 code=2 node=3", expression([*inputs_of("a", "b"), node("m", "sum", "a"), node("s", "add", "a", "b")], "m")),
        row(odd, "4 code=2 node=2", allowed=0), row(odd, "4 code=2 node=2", more_holds=held),
        row(misaligned, "5 node=2 need=1600 allowed=0", allowed=0), row(misaligned, "5 node=2 need=1084 allowed=1083", expression([*inputs_of("a", "b"), node("n", "square", "b"), node("s", "add", "a", "n")]), allowed=1083),
        row(misaligned, "9 key=_cubed/y/plan.json", more_holds=held),
        row(many, "5 node=1 need=1027 allowed=1026", twice, allowed=1026),
        row(many, "6 which=1 count=131072", twice, more_holds=held, allowed=1027),
        row(both, "5 node=2 need=1600 allowed=1599", more_holds=held, allowed=1599),
        row(both, "5 node=2 need=1600 allowed=1599", faults=failing("_cubed/y/plan.json", "has"), allowed=1599, calls=2),
        row(both, "16 key=_cubed/y/plan.json", faults=failing("_cubed/y/plan.json", "has"), more_holds=[["y/zarr.json", ""]]),
        row(both, "9 key=_cubed/y/plan.json", faults=failing("y/zarr.json", "has"), more_holds=held),
        row(both, "16 key=_cubed/y/0/c/1", expression(DOUBLED), allowed=1600, faults=failing("_cubed/y/0/c/1", "has"), more_holds=[["y/c/0", ""]]),
        row({"a": six([1, 2, 3, 4, 5, 6], raw={(0,): {"hex": "01"}}), "b": both["b"]}, "9 key=y/c/1", more_holds=[["y/c/1", ""]])]


def hostile_rows():
    """Texts and metadata that no writer makes."""
    spaces, deep = {"repeat": [" ", 1048577]}, "[" * 200 + "]" * 200
    rows = [{"words": [command], "input": text, "holds": [], "line": f"error 3 code={code} node=0", "calls": 0}
            for command in ("run", "plan", "check") for text, code in ((spaces, 7), (deep, 1))]
    rows.append({"words": ["load"], "input": spaces, "holds": [], "line": "error 18 code=8", "calls": 0})
    shape = compact(six([1] * 6).metadata).replace('"shape":[6]', '"shape":[1e1]')
    metadata = [(spaces, 10), ({"hex": "ff"}, 1), ('{"node_type":"array","zarr_format":3}', 3), (shape, 5)]
    for words, text in ((["run"], expression(ADDED)), (["plan"], expression(ADDED)), (["check"], expression(ADDED)), (["print", "a"], "")):
        rows += [{"words": words, "input": text, "holds": [["a/zarr.json", told]], "line": f"error 7 name=a code={code}", "calls": 1} for told, code in metadata]
    return rows


def refusal_cases():
    return [
        {"name": "texts that are no expressions", "rows": text_rows()},
        {"name": "nodes that have no type", "rows": type_rows()},
        {"name": "the first faulty node, and its first fault", "rows": type_order_rows()},
        {"name": "the first live node that needs more than is allowed", "rows": memory_rows()},
        {"name": "more tasks than a plan may have", "rows": count_rows()},
        {"name": "the first key in the way", "rows": way_rows()},
        {"name": "of two faults the earlier is named", "rows": pair_rows()},
        {"name": "texts and metadata that no writer makes", "rows": hostile_rows()}]


# Writing

def joined(parts, indent):
    return "[\n" + ",\n".join(indent + part for part in parts) + "]"


def case_text(case):
    """Returns a case as text, with a line for each row."""
    members = []
    for name, value in case.items():
        spelled_value = joined(map(rules.json.dumps, value), "  ") if name == "rows" else rules.json.dumps(value)
        members.append(f'"{name}": {spelled_value}')
    return "{" + ",\n ".join(members) + "}"


def options_of(words):
    """Returns the memory that words allow and set aside, how many partial results are merged and the number of `--fusion`, or nothing where
    they are refused."""
    parts = [part for word in words[1:] for part in word.split("=", 1)]
    told = dict(zip(parts[::2], parts[1::2]))
    if "--retries" in told:
        return None
    return int(told.get("--allowed-mem", 200000000)), int(told.get("--reserved-mem", 0)), int(told.get("--split-every", 4)), int(told.get("--fusion", 1))


def check(name, row):
    """Compares the line of a row, and the output of `plan`, with the rules, where no call fails and they say it."""
    if any(member in row for member in ("faults", "source_fails_at", "sink_fails_at")) or not isinstance(row.get("input"), (str, dict)) \
            or "join" in row["input"] or row.get("line", "").startswith(("error 2 ", "error 13")):
        return
    told = options_of(row["words"]) if row["words"][0] in ("run", "plan") else None
    if told is None or any("repeat" in value for _, value in row["holds"]) or "repeat" in row["input"]:
        return
    held = {key: text_of(value) if isinstance(value, str) or "hex" not in value else bytes.fromhex(value["hex"]) for key, value in row["holds"]}
    output = row.get("output", "")
    try:
        if row["words"][0] == "plan":
            output = rules.counted_plan(text_of(row["input"]), held.get, *told).lines()
        else:
            rules.plan_of(text_of(row["input"]), held.get, *told)
        line = ""
    except rules.Refused as answer:
        line = f"error {answer}"
    except KeyError as op:
        print(f"{name}: by hand, {op}: {row['line']}")
        return
    if (line, output) != (row.get("line", ""), row.get("output", "")):
        raise SystemExit(f"{name}: {row} says other than {line} {output}")


def write(file, cases):
    for case in cases:
        for row in case.get("rows", [case]):
            check(case["name"], row)
    with open(f"{TOP}/crates/test_cases/data/{file}", "w", encoding="ascii") as out:
        out.write('{\n"kind": "calls",\n"cases": ' + joined(map(case_text, cases), "") + "\n}\n")


def main():
    write("elementwise.json", elementwise_cases())
    write("lengths.json", length_cases())
    write("refusals.json", refusal_cases())


if __name__ == "__main__":
    usage_if_asked(__doc__)
    main()
