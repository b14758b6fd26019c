"""What `plan` and `run` must answer for an expression, read anew from the public standards and this project's own rules: the text (3),
the metadata of the inputs (8, 7), types and shapes (4), memory (5), counts (6), keys in the way (9), the operations with their
tasks, chunks and memory, also after maps are merged and arrays are inlined, the record, the keys of the arrays that are made, and the
elements of elementwise functions as exact whole numbers.

Nothing here comes from the program. compare.py and tools/elementwise_cases.py use it; the first takes the elements from NumPy instead.
"""
import collections
import itertools
import json
import math
import re

from copies import copy_need, copy_steps, max_mem
from inlined import MOST_INPUTS, MOST_INSTRUCTIONS, Closing
from limits import MOST_CHUNK_BYTES, SIZES, aligned, broadcast, chunk_for, grid_of, is_value, limit_place, limits, promoted, size_of, whole, wrapped
from operators import GROUPS, OTHERS, PULLS
from reductions import (FOLDS, PLACES, Room, Step, aligned_labels, aligned_operands, bytes_of, fold_steps, group_steps, place_steps, product_steps,
                        sum_steps)

NAME = re.compile(r"[A-Za-z0-9][A-Za-z0-9_.-]{0,31}\Z")
MOST_TEXT, MOST_NODES, MOST_TASKS, MOST_CELLS = 1 << 20, 256, 1 << 16, 1 << 18
MOST_GROUPS = 1 << 16
SPLIT_EVERY, DEFAULT = 4, 200000000


class Refused(Exception):
    """An answer other than `ok`, as its line without `error `."""


def refuse(status, **fields):
    raise Refused(" ".join([str(status)] + [f"{name}={value}" for name, value in fields.items()]))


# Elementwise functions: the count of arguments, what they accept, and the exact value of numbers of a width

def shifted_right(width, x, y):
    return x >> y if 0 <= y < width else (-1 if x < 0 else 0)


ARITHMETIC = {
    "add": (2, lambda w, x, y: x + y), "subtract": (2, lambda w, x, y: x - y), "multiply": (2, lambda w, x, y: x * y),
    "floor_divide": (2, lambda w, x, y: x // y if y else 0), "remainder": (2, lambda w, x, y: x - y * (x // y) if y else 0),
    "bitwise_left_shift": (2, lambda w, x, y: x * 2**y if 0 <= y < w else 0), "bitwise_right_shift": (2, shifted_right),
    "negative": (1, lambda w, x: -x), "positive": (1, lambda w, x: x), "abs": (1, lambda w, x: abs(x)),
    "square": (1, lambda w, x: x * x), "sign": (1, lambda w, x: (x > 0) - (x < 0))}
BITWISE = {
    "bitwise_and": (2, lambda w, x, y: x & y), "bitwise_or": (2, lambda w, x, y: x | y),
    "bitwise_xor": (2, lambda w, x, y: x ^ y), "bitwise_invert": (1, lambda w, x: ~x)}
EQUALITY = {"equal": (2, lambda w, x, y: x == y), "not_equal": (2, lambda w, x, y: x != y)}
ORDER = {
    "less": (2, lambda w, x, y: x < y), "less_equal": (2, lambda w, x, y: x <= y),
    "greater": (2, lambda w, x, y: x > y), "greater_equal": (2, lambda w, x, y: x >= y)}
LOGICAL = {
    "logical_and": (2, lambda w, x, y: x & y), "logical_or": (2, lambda w, x, y: x | y),
    "logical_xor": (2, lambda w, x, y: x ^ y), "logical_not": (1, lambda w, x: 1 - x)}
EXTREMES = {"maximum": (2, lambda w, x, y: max(x, y)), "minimum": (2, lambda w, x, y: min(x, y))}
FUNCTIONS = {
    **ARITHMETIC, **BITWISE, **EQUALITY, **ORDER, **LOGICAL, **EXTREMES,
    "where": (3, None), "astype": (1, None), "clip": (1, None)}


def own_instructions(op):
    """Returns how many instructions of a map are the function's own, beside one for each argument: an extreme is a
    comparison and a choice, and `clip` has its two bounds, with a comparison and a choice for each."""
    return 6 if op == "clip" else 2 if op in EXTREMES else 1


def accepts(op, dtype):
    """Whether a function accepts an argument of this type; of `where` each but the first."""
    if op in LOGICAL:
        return dtype == "bool"
    return dtype != "bool" or op in BITWISE or op in EQUALITY or op in ("where", "astype")


def value_of(node, shared, result, args):
    """Returns the element that a function gives for elements of the shared type."""
    op = node["op"]
    if op == "clip":
        return min(node["max"], max(node["min"], args[0]))
    if op == "where":
        return args[1] if args[0] else args[2]
    if op == "astype":
        return int(args[0] != 0) if result == "bool" else wrapped(result, args[0])
    exact = int(FUNCTIONS[op][1](8 * SIZES[shared], *args))
    return exact & 1 if result == "bool" else wrapped(result, exact)


# The text: forms of nodes

def listed(kind):
    return lambda value: type(value) is list and all(kind(entry) for entry in value)


def is_name(value):
    return type(value) is str and bool(NAME.match(value))


def is_null_or(kind):
    return lambda value: value is None or kind(value)


def is_entry(value):
    """Whether a value is an entry of `index`."""
    if type(value) is dict:
        return set(value) <= {"start", "stop", "step"} and all(is_null_or(INT64)(part) for part in value.values())
    return INT64(value) or value in ("new", "...")


def is_new_shape(value):
    return listed(whole(-1, 2**40))(value) and value.count(-1) <= 1


INT64, SIZE, SIDE = whole(-(2**63), 2**63 - 1), whole(0, 2**40), whole(1, 2**40)
LITERAL = whole(-(2**63), 2**64 - 1)
AXES, FLAG = listed(INT64), lambda value: type(value) is bool
DTYPE = lambda value: type(value) is str and value in SIZES
SIZES_LIST, CHUNK = listed(SIZE), listed(SIDE)


def is_literal(value):
    return FLAG(value) or LITERAL(value)


# Of each operator the least and greatest count of arguments (nothing: it has no `args`), its members and those that may be absent.
ONE, MANY = (1, 1), (1, 8)
MEMBERS = {"astype": {"dtype": DTYPE}, "clip": {"min": LITERAL, "max": LITERAL}}
ROWS = {
    "input": (None, {"name": is_name}, {}),
    **{op: ((row[0], row[0]), MEMBERS.get(op, {}), {}) for op, row in FUNCTIONS.items()},
    "full": (None, {"shape": SIZES_LIST, "dtype": DTYPE, "value": is_literal, "chunk": CHUNK}, {}),
    "arange": (None, {"start": INT64, "stop": INT64, "step": INT64, "dtype": DTYPE, "chunk": CHUNK}, {}),
    "eye": (None, {"rows": SIZE, "cols": SIZE, "k": INT64, "dtype": DTYPE, "chunk": CHUNK}, {}),
    "tril": (ONE, {"k": INT64}, {}), "triu": (ONE, {"k": INT64}, {}),
    "index": (ONE, {"index": listed(is_entry)}, {}),
    "concat": (MANY, {"axis": INT64}, {}), "stack": (MANY, {"axis": INT64}, {}),
    "permute_dims": (ONE, {"axes": AXES}, {}), "reshape": (ONE, {"shape": is_new_shape}, {}),
    "expand_dims": (ONE, {"axis": INT64}, {}), "squeeze": (ONE, {"axes": AXES}, {}),
    "flip": (ONE, {}, {"axes": is_null_or(AXES)}), "roll": (ONE, {"shifts": AXES, "axes": AXES}, {}),
    "broadcast_to": (ONE, {"shape": SIZES_LIST, "chunk": CHUNK}, {}), "rechunk": (ONE, {"chunk": CHUNK}, {}),
    **{op: (ONE, {}, {"axes": is_null_or(AXES), "keepdims": FLAG}) for op in ("sum", "prod", "min", "max", "any", "all")},
    **{op: (ONE, {}, {"axis": is_null_or(INT64), "keepdims": FLAG}) for op in ("argmin", "argmax")},
    "cumulative_sum": (ONE, {}, {"axis": is_null_or(INT64)}),
    **{op: ((2, 2), {"axis": INT64, "groups": whole(1, MOST_GROUPS)}, {}) for op in GROUPS},
    "matmul": ((2, 2), {}, {})}


def whole_number(text):
    """Reads a number as an integer only where it is one of 64 bits, and not minus zero. One that no float holds is none of JSON."""
    number = int(text)
    if text != "-0" and -(2**63) <= number < 2**64:
        return number
    try:
        return float(number)
    except OverflowError:
        raise ValueError(text[:20]) from None


def no_constant(text):
    raise ValueError(text)


def nesting(text):
    """Returns how deep the lists and objects of a text stand in one another."""
    depth = most = 0
    for mark in re.sub(r'"(\\.|[^"\\])*"', "", text):
        depth += (mark in "[{") - (mark in "]}")
        most = max(most, depth)
    return most


def json_of(data):
    """Reads a JSON value as serde_json does."""
    text = data.decode("utf-8")
    if nesting(text) > 127:
        raise ValueError("too deep")
    value = json.loads(text, parse_int=whole_number, parse_constant=no_constant)
    text.encode("utf-8")
    json.dumps(value, ensure_ascii=False).encode("utf-8")
    return value


def read(data):
    """Returns the expression that a text is, or refuses it with 3."""
    if len(data) > MOST_TEXT:
        refuse(3, code=7, node=0)
    try:
        value = json_of(data)
    except (ValueError, RecursionError):
        refuse(3, code=1, node=0)
    if type(value) is not dict or set(value) != {"nodes", "out", "store_as"} or type(value["nodes"]) is not list \
            or type(value["out"]) is not str or type(value["store_as"]) is not str:
        refuse(3, code=2, node=0)
    if len(value["nodes"]) > MOST_NODES:
        refuse(3, code=7, node=0)
    ids = []
    for number, node in enumerate(value["nodes"]):
        code = node_code(node, ids)
        if code:
            refuse(3, code=code, node=number)
        ids.append(node["id"])
    if value["out"] not in ids or not is_name(value["store_as"]):
        refuse(3, code=2, node=0)
    return value


def node_code(node, ids):
    """Returns the code of a node's first fault, and 0 where it has none."""
    if type(node) is not dict or type(node.get("id")) is not str or type(node.get("op")) is not str:
        return 3
    if node["op"] not in ROWS:
        return 4
    count, members, optional = ROWS[node["op"]]
    wanted = {"id", "op", *members, *(["args"] if count else [])}
    if not wanted <= set(node) <= wanted | set(optional):
        return 3
    kinds = {**members, **optional}
    if any(not kinds[name](node[name]) for name in kinds if name in node) or count and type(node["args"]) is not list:
        return 3
    if count and not are_arguments(node, count):
        return 5
    if not is_name(node["id"]) or node["id"] in ids:
        return 6
    return 6 if any(arg not in ids for arg in node.get("args", []) if type(arg) is str) else 0


def are_arguments(node, count):
    """Whether a node's arguments are as many as they must be, each of its form, and arrays where they must be."""
    args = node["args"]
    if not count[0] <= len(args) <= count[1] or any(type(arg) is not str and not is_literal(arg) for arg in args):
        return False
    arrays = [type(arg) is str for arg in args]
    if node["op"] == "where":
        return arrays[0] and (arrays[1] or arrays[2])
    return any(arrays) if node["op"] in FUNCTIONS else all(arrays)


# Metadata

REQUIRED = ["zarr_format", "node_type", "shape", "data_type", "chunk_grid", "chunk_key_encoding", "fill_value", "codecs"]


class Array:
    """What metadata says of an array."""

    def __init__(self, dtype, shape, chunk, fill=0, endian="little", encoding="default", separator="/"):
        self.dtype, self.shape, self.chunk, self.fill = dtype, list(shape), list(chunk), fill
        self.endian, self.encoding, self.separator = endian, encoding, separator

    def info(self):
        return self.dtype, self.shape, self.chunk

    def key(self, name, place):
        return f"{name}/{chunk_key(self.encoding, self.separator, place)}"

    def written(self):
        """Returns the metadata as the program writes it."""
        codec = {"name": "bytes"}
        if SIZES[self.dtype] > 1:
            codec["configuration"] = {"endian": self.endian}
        return {
            "chunk_grid": {"configuration": {"chunk_shape": self.chunk}, "name": "regular"},
            "chunk_key_encoding": {"configuration": {"separator": self.separator}, "name": self.encoding},
            "codecs": [codec], "data_type": self.dtype, "fill_value": bool(self.fill) if self.dtype == "bool" else self.fill,
            "node_type": "array", "shape": self.shape, "zarr_format": 3}

    def bytes_of(self, elements):
        """Returns the bytes of elements, in the array's byte order."""
        size, low = SIZES[self.dtype], limits(self.dtype)[0]
        return b"".join(int(x).to_bytes(size, self.endian, signed=low < 0) for x in elements)


def chunk_key(encoding, separator, place):
    parts = [str(part) for part in place]
    return separator.join(["c"] + parts) if encoding == "default" else separator.join(parts) or "0"


def compact(value):
    return json.dumps(value, sort_keys=True, separators=(",", ":"))


def part_of(value, needs):
    """Returns the name and the configuration of a part of the metadata, or nothing."""
    if type(value) is str and not needs:
        return value, {}
    if type(value) is not dict or not set(value) <= {"name", "configuration", "must_understand"} \
            or type(value.get("name")) is not str or type(value.get("configuration", {})) is not dict \
            or type(value.get("must_understand", True)) is not bool or needs and "configuration" not in value:
        return None
    return value["name"], value.get("configuration", {})


def meta_of(name, held):
    """Returns the array that the first metadata that is held of this name describes, of version 3 or of version 2, or refuses it."""
    written, zarray = held(f"{name}/zarr.json"), held(f"{name}/.zarray")
    if written is None and zarray is None:
        refuse(8, name=name)
    array = zarray_or_code(zarray) if written is None else meta_or_code(written)
    if type(array) is int:
        refuse(7, name=name, code=array)
    return array


def meta_or_code(data):
    if len(data) > MOST_TEXT:
        return 10
    try:
        told = json_of(data)
    except (ValueError, RecursionError):
        return 1
    if type(told) is not dict:
        return 1
    if type(told.get("zarr_format")) is not int or told["zarr_format"] != 3 or told.get("node_type") != "array":
        return 2
    if any(name not in told for name in REQUIRED):
        return 3
    dtype = part_of(told["data_type"], False)
    if dtype is None or dtype[0] not in SIZES or dtype[1]:
        return 4
    grid = part_of(told["chunk_grid"], True)
    if not is_grid(told["shape"], grid, SIZES[dtype[0]]):
        return 5
    return layout_or_code(told, Array(dtype[0], told["shape"], grid[1]["chunk_shape"]))


def is_grid(shape, grid, size):
    if grid is None or grid[0] != "regular" or set(grid[1]) != {"chunk_shape"}:
        return False
    chunk = grid[1]["chunk_shape"]
    return listed(whole(0, 2**64))(shape) and listed(whole(1, 2**64))(chunk) and len(shape) == len(chunk) \
        and limit_place(shape, chunk, size) == 0


def layout_or_code(told, array):
    encoding = part_of(told["chunk_key_encoding"], False)
    if encoding is None or encoding[0] not in ("default", "v2") or not set(encoding[1]) <= {"separator"} \
            or encoding[1].get("separator", "/") not in ("/", "."):
        return 6
    array.encoding = encoding[0]
    array.separator = encoding[1].get("separator", "/" if encoding[0] == "default" else ".")
    fill = told["fill_value"]
    if array.dtype == "bool" and not FLAG(fill) or array.dtype != "bool" and not whole(*limits(array.dtype))(fill):
        return 7
    array.fill = int(fill)
    codecs = told["codecs"]
    codec = part_of(codecs[0], False) if type(codecs) is list and len(codecs) == 1 else None
    if codec is None or codec[0] != "bytes" or not set(codec[1]) <= {"endian"} \
            or codec[1].get("endian", "little") not in ("little", "big") or SIZES[array.dtype] > 1 and not codec[1]:
        return 8
    array.endian = codec[1].get("endian", "little") if SIZES[array.dtype] > 1 else "little"
    return others_code(told, array) or array


def others_code(told, array):
    names = told.get("dimension_names")
    is_named = names is None or type(names) is list and len(names) == len(array.shape) \
        and all(name is None or type(name) is str for name in names)
    if type(told.get("attributes", {})) is not dict or not is_named or told.get("storage_transformers", []) != []:
        return 3
    others = set(told) - set(REQUIRED) - {"attributes", "dimension_names", "storage_transformers"}
    return 9 if any(type(told[name]) is not dict or told[name].get("must_understand") is not False for name in others) else 0


def zarray_or_code(data):
    """Returns the array that a `.zarray` describes, or the code of its first fault."""
    if len(data) > MOST_TEXT:
        return 30
    try:
        told = json_of(data)
    except (ValueError, RecursionError):
        return 21
    if type(told) is not dict:
        return 21
    if type(told.get("zarr_format")) is not int or told["zarr_format"] != 2:
        return 22
    if any(name not in told for name in ("shape", "chunks", "dtype", "compressor", "fill_value", "order", "filters")):
        return 23
    dtype = dtype_of_v2(told["dtype"])
    if dtype is None:
        return 24
    if not is_grid(told["shape"], ("regular", {"chunk_shape": told["chunks"]}), SIZES[dtype]):
        return 25
    if told["compressor"] is not None or told["filters"] not in (None, []):
        return 28
    if told["order"] != "C":
        return 29
    fill, separator = fill_of_v2(dtype, told["fill_value"]), told.get("dimension_separator", ".")
    if fill is None:
        return 27
    if separator not in ("/", "."):
        return 26
    endian = "big" if told["dtype"][0] == ">" and SIZES[dtype] > 1 else "little"
    return Array(dtype, told["shape"], told["chunks"], fill, endian, "v2", separator)


def dtype_of_v2(text):
    """Returns the type that a text of version 2 names, or nothing."""
    codes = {f"{name[0]}{size}": name for name, size in SIZES.items()}
    dtype = codes.get(text[1:]) if type(text) is str else None
    return dtype if dtype and text[0] in ("<>|" if SIZES[dtype] == 1 else "<>") else None


def fill_of_v2(dtype, value):
    """Returns the element that a fill value of version 2 stands for, or nothing."""
    if value is None:
        return 0
    if dtype == "bool" and FLAG(value):
        return int(value)
    return value if whole(*limits(dtype))(value) else None


# Types and shapes

def typed(expr, metas):
    """Returns the type, shape and chunk shape of each node, or refuses the first faulty one with 4."""
    infos, told = [], {}
    for number, node in enumerate(expr["nodes"]):
        if node["op"] == "input":
            info = metas[node["name"]].info()
        else:
            args = [told[arg] if type(arg) is str else arg for arg in node.get("args", [])]
            info = elementwise(node, args) if node["op"] in FUNCTIONS else other(node, args)
        if type(info) is int:
            refuse(4, code=info, node=number)
        infos.append(info)
        told[node["id"]] = info
    return infos


def elementwise(node, args):
    """Returns what is known of an elementwise node, or the code of its first fault."""
    op = node["op"]
    arrays = [arg for arg in args if type(arg) is tuple]
    values = args[1:] if op == "where" else args
    typed_values = [arg[0] for arg in values if type(arg) is tuple]
    if op == "where" and args[0][0] != "bool" or any(not accepts(op, dtype) for dtype in typed_values):
        return 6
    shared = typed_values[0]
    written = [arg for arg in values if type(arg) is not tuple]
    if op == "clip":
        written += [node["min"], node["max"]]
    if any(not is_value(shared, value) for value in written):
        return 5
    for dtype in typed_values[1:]:
        shared = promoted(shared, dtype)
        if shared is None:
            return 1
    shape = broadcast([sizes for _, sizes, _ in arrays])
    if shape is None:
        return 2
    result = node["dtype"] if op == "astype" else "bool" if op in EQUALITY or op in ORDER else shared
    chunk = chunk_for(shape, arrays)
    sizes = [SIZES[array[0]] * math.prod(aligned(shape, chunk, array)) for array in arrays]
    return 7 if limit_place(shape, chunk, SIZES[result]) or max(sizes) > MOST_CHUNK_BYTES else (result, shape, chunk)


def other(node, args):
    return OTHERS[node["op"]](node, args)


# The plan

class Plan:
    """What `run` carries out, with `--fusion` 1 or 2: of each node its operations, the prefixes of their arrays, and what its tasks read."""

    def __init__(self, expr, metas, infos, allowed=DEFAULT, reserved=0, split_every=SPLIT_EVERY, fusion=1):
        self.expr, self.metas, self.infos = expr, metas, infos
        self.allowed, self.reserved, self.split_every, self.fusion = allowed, reserved, split_every, fusion
        self.places = {node["id"]: number for number, node in enumerate(expr["nodes"])}
        self.out = self.places[expr["out"]]
        self.live = self.marks()
        self.lowered = [k for k, node in enumerate(expr["nodes"]) if self.live[k] and (node["op"] != "input" or k == self.out)]
        self.steps = {k: self.steps_of(k) for k in self.lowered}
        self.counts = self.tasks(), self.cells()
        if fusion == 1:
            self.merge_maps()
        elif not any(self.too_large()):
            self.leave_out()
        self.prefixes = dict(self.named())

    def leave_out(self):
        """Keeps the operations that a plan of `--fusion 2` has: of those that are left out, maps are merged into others, copies joined with
        others, and arrays made where they are read. `whole` has those that are inlined too."""
        closing = Closing(self)
        self.closed, self.whole = closing.operations, closing.whole
        self.steps = {k: [operation.step for operation in self.closed if operation.node == k] for k in self.lowered}
        for operation in self.closed:
            operation.step.needs = operation.room()
        self.made = [k for k, steps in self.steps.items() if steps and steps[-1].is_last]

    def too_large(self):
        """Yields each live node that needs more than is allowed, and what it needs."""
        for k, live in enumerate(self.live):
            if live and self.need(k) > self.allowed:
                yield k, self.need(k)

    def merge_maps(self):
        """Merges maps into the maps that read them: these are taken in order, and the inputs of each from first to last, as they stand
        when it is taken. An input is told by the node of which it is an argument and its place among this node's arrays."""
        maps = [k for k in self.lowered if self.expr["nodes"][k]["op"] in FUNCTIONS]
        self.map_inputs = {k: [(k, at) for at in range(len(self.arrays(k)))] for k in maps}
        self.instructions = {k: self.instruction_count(k) for k in maps}
        self.merged = set()
        reads = collections.Counter(arg for k in self.lowered for arg in self.arrays(k))
        for k in maps:
            for source in list(self.map_inputs[k]):
                maker = self.straight(source)
                if maker in maps and maker != self.out and reads[maker] == 1 and self.infos[maker][1:] == self.infos[k][1:]:
                    self.merge(maker, k, source)
        self.made = [k for k in self.lowered if k not in self.merged]

    def merge(self, maker, reader, source):
        """Merges a map into the one that reads it as this input, where both together are small enough."""
        at = self.map_inputs[reader].index(source)
        inputs = self.map_inputs[reader][:at] + self.map_inputs[maker] + self.map_inputs[reader][at + 1:]
        instructions = self.instructions[reader] - 1 + self.instructions[maker]
        chunks = [bytes_of(self.infos[self.arrays(k)[place]][0], self.aligned_args(k)[place]) for k, place in inputs]
        result = bytes_of(*self.infos[reader][::2])
        room = Room([*chunks, result], sum(chunks), result, instructions)
        if len(inputs) <= MOST_INPUTS and instructions <= MOST_INSTRUCTIONS and self.reserved + int(room) <= self.allowed:
            self.map_inputs[reader], self.instructions[reader] = inputs, instructions
            self.steps[reader][-1].needs = room
            self.steps[maker].pop()
            self.merged.add(maker)

    def straight(self, source):
        """Returns the node whose array is this input of a map, and nothing where it is a copy in other chunks."""
        k, at = source
        arg = self.arrays(k)[at]
        return arg if self.aligned_args(k)[at] == list(self.infos[arg][2]) else None

    def named(self):
        """Yields the prefix of each made array, by its node, the place of its operation and its place among those that this writes."""
        number = 0
        for k, steps in self.steps.items():
            for at, step in enumerate(steps):
                for which in range(len(step.arrays)):
                    is_own = step.is_last and which == len(step.arrays) - 1
                    if is_own and k == self.out:
                        yield (k, at, which), self.expr["store_as"]
                        continue
                    yield (k, at, which), f"_cubed/{self.expr['store_as']}/{number}"
                    number += 1

    def steps_of(self, k):
        """Returns the operations of a node that is made: the copies, then its own."""
        most = max_mem(self.allowed, self.reserved)
        copied = [step for arg, info, chunk in self.copied(k) for step in copy_steps(arg, info, chunk, most)]
        steps = copied + self.own_steps(k)
        for step in steps[-1:]:
            step.is_last = True
        return steps

    def own_steps(self, k):
        """Returns the operations of a node without those that copy arrays."""
        node, made = self.expr["nodes"][k], self.infos[k]
        args = [self.infos[arg] for arg in self.arrays(k)]
        if node["op"] in FOLDS:
            return fold_steps(node, args[0], made, self.split_every)
        if node["op"] in PLACES:
            return place_steps(node, args[0], made, self.split_every)
        if node["op"] == "cumulative_sum":
            return sum_steps(node, args[0], made, self.split_every)
        if node["op"] in GROUPS:
            return group_steps(node, made, args, self.split_every)
        if node["op"] == "matmul":
            return product_steps(made, args, self.split_every)
        if node["op"] in ("input", "rechunk"):
            return []
        return [Step("pull" if node["op"] in PULLS else "map", [made], self.room(k))]

    def aligned_args(self, k):
        """Returns the aligned chunk shape of each argument of a function, of a product or of groups, of any other node its own."""
        args = [self.infos[arg] for arg in self.arrays(k)]
        op = self.expr["nodes"][k]["op"]
        if op == "matmul":
            return [list(sides) for sides in aligned_operands(self.infos[k], args)]
        if op in GROUPS:
            return list(aligned_labels(self.expr["nodes"][k], args))
        return [list(aligned(*self.infos[k][1:], arg) if op in FUNCTIONS else arg[2]) for arg in args]

    def copied(self, k):
        """Returns what is copied for a node, in order: the node whose array it is, what is known of it, and the chunks to which it goes."""
        op = self.expr["nodes"][k]["op"]
        if op == "input":
            return [(k, self.infos[k], self.infos[k][2])] if k == self.out else []
        args = self.arrays(k)
        if op == "rechunk":
            return [(args[0], self.infos[args[0]], self.infos[k][2])]
        return [(arg, self.infos[arg], chunk) for arg, chunk in zip(args, self.aligned_args(k)) if chunk != list(self.infos[arg][2])]

    def marks(self):
        live = [False] * len(self.infos)
        live[self.out] = True
        for k in range(self.out, -1, -1):
            if live[k]:
                for arg in self.arrays(k):
                    live[arg] = True
        return live

    def arrays(self, k):
        """Returns the numbers of the nodes that are a node's arguments, in order."""
        return [self.places[arg] for arg in self.expr["nodes"][k].get("args", []) if type(arg) is str]

    def instruction_count(self, k):
        """Returns how many instructions the map of an elementwise node has: those of its arguments, and its function's own."""
        node = self.expr["nodes"][k]
        return len(node["args"]) + own_instructions(node["op"])

    def function_count(self, k):
        """Returns how many instructions of the map of an elementwise node load no array."""
        return self.instruction_count(k) - len(self.arrays(k))

    def room(self, k):
        """Returns what a task of an elementwise node or of a view needs."""
        result = bytes_of(*self.infos[k][::2])
        if self.expr["nodes"][k]["op"] in PULLS:
            return Room([bytes_of(*self.infos[arg][::2]) for arg in self.arrays(k)] + [result], 0, result)
        args = [bytes_of(self.infos[arg][0], chunk) for arg, chunk in zip(self.arrays(k), self.aligned_args(k))]
        return Room([*args, result], sum(args), result, self.instruction_count(k))

    def need(self, k):
        """Returns the bytes that a node needs."""
        rooms = [step.room for step in self.own_steps(k)] + [copy_need(info, chunk) for _, info, chunk in self.copied(k)]
        return self.reserved + max(rooms, default=0)

    def operations(self):
        """Returns the node and the operation of each, in order."""
        return [(k, step) for k, steps in self.steps.items() for step in steps]

    def projected(self, step):
        return self.reserved + step.room

    def tasks(self):
        return sum(step.tasks() for _, step in self.operations())

    def cells(self):
        return sum(step.cells() for _, step in self.operations())

    def peak(self):
        return max(self.projected(step) for _, step in self.operations())

    def report(self, failed=0):
        """Returns what `run` prints where so many starts of tasks have failed."""
        tasks = self.tasks()
        return f"ok ops={len(self.operations())} tasks={tasks} starts={tasks + failed} failed={failed} peak={self.peak()}\n"

    def lines(self):
        """Returns what `plan` prints."""
        told = [f"op {at} {step.kind} node={k} tasks={step.tasks()} cells={step.cells()} projected={self.projected(step)}\n"
                for at, (k, step) in enumerate(self.operations())]
        return "".join(told) + f"plan ops={len(told)} tasks={self.tasks()} cells={self.cells()} peak={self.peak()}\n"

    def chunks(self, k):
        """Returns the places of the chunks of a node."""
        return list(itertools.product(*map(range, grid_of(*self.infos[k][1:]))))

    def key(self, k, place):
        if self.expr["nodes"][k]["op"] == "input":
            name = self.expr["nodes"][k]["name"]
            return self.metas[name].key(name, place)
        at, own = next((at, step) for at, step in enumerate(self.steps[k]) if step.is_last)
        return self.part_key(k, at, len(own.arrays) - 1, place)

    def part_key(self, k, at, which, place):
        """Returns the key of a chunk of an array that an operation of a node writes."""
        return f"{self.prefixes[k, at, which]}/{chunk_key('default', '/', place)}"

    def array_key(self, array, place):
        """Returns the key of a chunk of a stored array of a plan of `--fusion 2`."""
        if array.maker is None:
            return self.metas[array.name].key(array.name, place)
        k = array.maker.node
        return self.part_key(k, self.steps[k].index(array.maker.step), array.maker.writes.index(array), place)

    def parts(self):
        """Yields each array that is made: its node, the place of its operation, its place among those that this writes, and what is known of it."""
        for k, steps in self.steps.items():
            for at, step in enumerate(steps):
                for which, array in enumerate(step.arrays):
                    yield k, at, which, array

    def map_reads(self, k, place):
        """Returns for each input of a map that is left, in order, the input and the node and the chunk of its argument that a task reads."""
        return [((node, at), *self.task_inputs(node, place)[at]) for node, at in self.map_inputs[k]]

    def task_inputs(self, k, place):
        """Returns for each argument the node and the chunk that a task of a function reads where all are aligned."""
        shape = self.infos[k][1]
        found = []
        for arg in self.arrays(k):
            sizes = self.infos[arg][1]
            rest = len(shape) - len(sizes)
            found.append((arg, tuple(place[rest + at] if size == shape[rest + at] else 0 for at, size in enumerate(sizes))))
        return found

    def made_keys(self):
        """Returns the keys of the chunks that are made, by operation, task and chunk."""
        return [self.part_key(k, at, which, place) for k, steps in self.steps.items() for at, step in enumerate(steps)
                for task in step.places() for which, place in step.written(task)]

    def keys_in_the_way(self):
        """Returns the keys that are asked for, in order."""
        name = self.expr["store_as"]
        return [f"_cubed/{name}/plan.json", f"{name}/zarr.json", f"{name}/.zarray", *self.made_keys()]

    def record(self):
        names = sorted({node["name"] for node in self.expr["nodes"] if node["op"] == "input"})
        return {"allowed": self.allowed, "cubed": self.fusion + 1, "expr": self.expr, "inputs": {name: self.metas[name].written() for name in names},
                "reserved": self.reserved, "split_every": self.split_every}

    def array(self, k):
        """Returns the array in which a node's elements are stored."""
        return Array(*self.infos[k])


def typed_plan(data, held, allowed=DEFAULT, reserved=0, split_every=SPLIT_EVERY, fusion=1):
    """Returns a text as a plan that isn't tested yet, over what is held, or refuses it. `held` gives the bytes of a key, or nothing."""
    expr = read(data)
    metas = {}
    for node in expr["nodes"]:
        if node["op"] == "input":
            metas[node["name"]] = meta_of(node["name"], held)
    return Plan(expr, metas, typed(expr, metas), allowed, reserved, split_every, fusion)


def counted_plan(data, held, allowed, reserved, split_every=SPLIT_EVERY, fusion=1):
    """Returns the plan of a text that `plan` prints, or refuses it."""
    plan = typed_plan(data, held, allowed, reserved, split_every, fusion)
    for k, need in plan.too_large():
        refuse(5, node=k, need=need, allowed=allowed)
    tasks, cells = plan.counts
    if tasks > MOST_TASKS:
        refuse(6, which=1, count=tasks)
    if cells > MOST_CELLS:
        refuse(6, which=2, count=cells)
    return plan


def plan_of(data, held, allowed, reserved, split_every=SPLIT_EVERY, fusion=1):
    """Returns the plan of a text that `run` carries out, or refuses it."""
    plan = counted_plan(data, held, allowed, reserved, split_every, fusion)
    for key in plan.keys_in_the_way():
        if held(key) is not None:
            refuse(9, key=key)
    return plan


# Elements, as exact whole numbers: of each array a map from indices

def indices(shape):
    return itertools.product(*map(range, shape))


def meant(plan, inputs):
    """Returns the elements of each live node. `inputs` has those of each input's name, as a map from indices."""
    found = {}
    for k, node in enumerate(plan.expr["nodes"]):
        if plan.live[k]:
            found[k] = inputs[node["name"]] if node["op"] == "input" else meant_node(plan, k, node, found)
    return found


def meant_node(plan, k, node, found):
    result, shape, _ = plan.infos[k]
    values = node["args"][1:] if node["op"] == "where" else node["args"]
    shared = None
    for arg in values:
        if type(arg) is str:
            dtype = plan.infos[plan.places[arg]][0]
            shared = dtype if shared is None else promoted(shared, dtype)
    def element(arg, index):
        if type(arg) is not str:
            return int(arg)
        sizes = plan.infos[plan.places[arg]][1]
        own = index[len(index) - len(sizes):]
        return found[plan.places[arg]][tuple(0 if size == 1 else i for size, i in zip(sizes, own))]

    return {index: value_of(node, shared, result, [element(arg, index) for arg in node["args"]]) for index in indices(shape)}


def chunk_bytes(array, elements, place, past=0):
    """Returns the bytes of a chunk, with `past` behind the edge of the array."""
    whole_chunk = []
    for inside in indices(array.chunk):
        index = tuple(i * side + j for i, side, j in zip(place, array.chunk, inside))
        is_there = all(i < size for i, size in zip(index, array.shape))
        whole_chunk.append(elements[index] if is_there else past)
    return array.bytes_of(whole_chunk)
