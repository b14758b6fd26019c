"""Random stored arrays, random expressions over them, and what is done to spoil both. compare/compare.py uses them; each is drawn by a
generator that is handed in, so that a case comes again by its seed and its number.
"""
import json

import numpy

import operators
import reductions
import rules
from rules import FUNCTIONS, Array

TYPES = list(rules.SIZES)


# Stored arrays

def random_elements(pick, dtype, shape):
    """Returns elements of the whole range of a type, or small ones."""
    rng = numpy.random.default_rng(pick.getrandbits(64))
    low, high = rules.limits(dtype)
    if pick.random() < 0.5:
        low, high = max(low, -9), min(high, 9)
    values = rng.integers(low, high, size=shape, dtype="uint8" if dtype == "bool" else dtype, endpoint=True)
    return numpy.asarray(values, dtype)


def random_layout(pick, dtype, shape, chunk):
    low, high = rules.limits(dtype)
    endian = pick.choice(["big", "little"]) if rules.SIZES[dtype] > 1 else "little"
    return Array(dtype, shape, chunk, pick.choice([0, min(5, high), low, high]), endian, pick.choice(["default", "v2"]), pick.choice("/."))


def metadata_of(pick, array):
    """Returns the members of an array's metadata, in any order and with members that say nothing."""
    members = dict(array.written())
    if rules.SIZES[array.dtype] == 1 and pick.random() < 0.5:
        members["codecs"] = [{"name": "bytes", "configuration": {"endian": pick.choice(["big", "little"])}}]
    if pick.random() < 0.3:
        members["attributes"] = {"units": "K"}
    order = list(members)
    pick.shuffle(order)
    return {name: members[name] for name in order}


def zarray_of(pick, array):
    """Returns the members of version 2 of an array, in any order and with members that say nothing."""
    size = rules.SIZES[array.dtype]
    mark = pick.choice("<>|") if size == 1 else ">" if array.endian == "big" else "<"
    members = {"zarr_format": 2, "shape": array.shape, "chunks": array.chunk, "dtype": mark + array.dtype[0] + str(size), "compressor": None,
               "filters": pick.choice([None, []]), "order": "C", "fill_value": pick.choice([array.fill, bool(array.fill)]) if array.dtype == "bool" else array.fill}
    if array.fill == 0 and pick.random() < 0.3:
        members["fill_value"] = None
    if array.separator == "/" or pick.random() < 0.3:
        members["dimension_separator"] = array.separator
    if pick.random() < 0.3:
        members["_later"] = 1
    order = list(members)
    pick.shuffle(order)
    return {name: members[name] for name in order}


# Random expressions

def sides(pick, count):
    return [pick.randint(1, 5) for _ in range(count)]


def random_shape(pick):
    return [pick.randint(0, 7) if pick.random() < 0.1 else pick.randint(1, 7) for _ in range(pick.randint(0, 4))]


def random_array(pick, shape, chunk):
    """Returns an array that broadcasts to a shape and is aligned with its chunks; now and then one that doesn't or isn't."""
    start = pick.randint(0, len(shape)) if pick.random() < 0.3 else 0
    sizes, own = list(shape[start:]), list(chunk[start:])
    for axis, size in enumerate(sizes):
        if size != 1 and pick.random() < 0.2:
            sizes[axis], own[axis] = 1, pick.randint(1, 3)
    if sizes and pick.random() < 0.04:
        own[pick.randrange(len(own))] = pick.randint(1, 6)
    if sizes and pick.random() < 0.01:
        sizes[pick.randrange(len(sizes))] = pick.randint(0, 8)
    return random_layout(pick, pick.choice(TYPES), sizes, own)


def random_arrays(pick):
    """Returns arrays that broadcast together."""
    shape = random_shape(pick)
    chunk = sides(pick, len(shape))
    return [random_array(pick, shape, chunk) for _ in range(pick.randint(1, 3))]


def random_wide(pick):
    """Returns a shape of up to 2,500 elements and up to six axes."""
    shape, left = [], 2500
    for _ in range(pick.choice([0, 1, 1, 2, 2, 2, 3, 3, 4, 4, 5, 6])):
        most = max(1, min(left, pick.choice([9, 9, 50])))
        shape.append(pick.choices([0, 1, pick.randint(1, most)], [1, 3, 30])[0])
        left //= max(1, shape[-1])
    pick.shuffle(shape)
    return shape


def random_sides(pick, shape):
    """Returns a chunk shape: single elements, whole axes, or any sides."""
    return [pick.choice([1, max(1, size), pick.randint(1, size + 2), pick.randint(1, size + 2)]) for size in shape]


def random_grids(pick):
    """Returns arrays that broadcast together, each in chunks of its own."""
    shape = random_wide(pick)
    found = []
    for _ in range(pick.randint(1, 3)):
        start = pick.randint(0, len(shape)) if pick.random() < 0.2 else 0
        sizes = [1 if pick.random() < 0.15 else size for size in shape[start:]]
        if pick.random() < 0.2 and len(sizes) == 2 and sizes[0] != sizes[1]:
            sizes.reverse()
        found.append(random_layout(pick, pick.choice(TYPES), sizes, random_sides(pick, sizes)))
    return found


def random_matrices(pick):
    """Returns arrays of which the first two can be multiplied, and a row that both can be multiplied with."""
    batch = [pick.randint(1, 3) for _ in range(pick.choice([0, 0, 0, 1, 2]))]
    rows, inner, columns = [pick.randint(0, 7) if pick.random() < 0.1 else pick.randint(1, 7) for _ in range(3)]
    chunk, (row_side, inner_side, column_side) = sides(pick, len(batch)), sides(pick, 3)
    kinds = [dtype for dtype in TYPES if dtype != "bool"]
    dtype = pick.choice(kinds)
    left, right = [sizes[pick.randint(0, len(batch)) if pick.random() < 0.3 else 0:] for sizes in (list(range(len(batch))),) * 2]
    operands = [(left, [rows, inner], [row_side, inner_side]), (right, [inner, columns], [inner_side, column_side]), ([], [inner], [inner_side])]
    return [random_layout(pick, pick.choice([dtype, dtype, pick.choice(kinds)]), [batch[axis] for axis in leading] + own, [chunk[axis] for axis in leading] + own_sides)
            for leading, own, own_sides in operands]


def literal_for(pick, dtype):
    """Returns a literal that a type has, or now and then any."""
    low, high = rules.limits(dtype)
    if pick.random() < 0.02:
        return pick.choice([True, False, -(2**63), 2**64 - 1, low - 1 if low > -(2**63) else 0, high + 1 if high < 2**63 else 0])
    if dtype == "bool":
        return pick.random() < 0.5
    return pick.choice([low, high, pick.randint(low, high), pick.randint(max(low, -9), min(high, 9)), 0, 1])


def random_function(pick, ident, told):
    """Returns an elementwise node over nodes whose types are told."""
    op = pick.choice(list(FUNCTIONS))
    count = FUNCTIONS[op][0]
    args = [pick.choice(list(told)) for _ in range(count)]
    values = args[1:] if op == "where" else args
    if len(values) == 2 and pick.random() < 0.3:
        at = pick.randrange(2)
        args[count - 2 + at] = literal_for(pick, told[values[1 - at]][0])
    node = {"id": ident, "op": op, "args": args}
    if op == "clip":
        dtype = told[args[0]][0].replace("bool", "uint8")
        return {**node, "min": literal_for(pick, dtype), "max": literal_for(pick, dtype)}
    return {**node, "dtype": pick.choice(TYPES)} if op == "astype" else node


def random_made(pick, ident, op):
    """Returns a node of an array that is made from nothing."""
    dtype = pick.choice(TYPES)
    node = {"id": ident, "op": op, "dtype": dtype}
    if op == "full":
        shape = random_shape(pick)
        return {**node, "shape": shape, "value": literal_for(pick, dtype), "chunk": sides(pick, len(shape))}
    if op == "arange":
        return {**node, "start": pick.randint(-5, 9), "stop": pick.randint(-9, 30), "step": pick.choice([1, 1, 2, 3, -1, -2, 2**40]),
                "chunk": [pick.randint(1, 5)]}
    return {**node, "rows": pick.randint(0, 6), "cols": pick.randint(0, 6), "k": random_diagonal(pick), "chunk": sides(pick, 2)}


def random_diagonal(pick):
    return pick.choice([0, 0, 1, -1, 2, -2, 5, -5, 2**63 - 1, -(2**63)])


def random_entry(pick, size):
    """Returns an entry of an index that takes an axis of this size."""
    if size and pick.random() < 0.3:
        return pick.randint(-size, size - 1)
    ends = [None, *range(-size - 1, size + 2)]
    entry = {"start": pick.choice(ends), "stop": pick.choice(ends), "step": pick.choice([None, 1, 1, 2, 3, -1, -1, -2])}
    return {name: end for name, end in entry.items() if end is not None or pick.random() < 0.3}


def random_index(pick, shape):
    items = [random_entry(pick, size) for size in shape]
    if items and pick.random() < 0.3:
        at = pick.randrange(len(items))
        items[at:pick.randint(at, len(items))] = ["..."]
    elif pick.random() < 0.3:
        items = items[:pick.randint(0, len(items))]
    while len(shape) < 5 and pick.random() < 0.2:
        items.insert(pick.randint(0, len(items)), "new")
    return items


def random_sizes(pick, count):
    """Returns a shape of so many elements, now and then with a -1."""
    shape = []
    while len(shape) < 4 and pick.random() < 0.7:
        side = pick.choice([n for n in range(1, 13) if count % n == 0] if count else [0, 1, 2])
        shape.append(side)
        count = count // side if side else 0
    shape.insert(pick.randint(0, len(shape)), count)
    if 0 not in shape and pick.random() < 0.4:
        shape[pick.randrange(len(shape))] = -1
    return shape


def random_axes(pick, rank):
    return [axis - pick.choice([0, rank]) for axis in pick.sample(range(rank), pick.randint(0, rank))]


def random_view(pick, ident, told):
    """Returns a view of nodes that are told, or an array that is made."""
    op = pick.choice(list(operators.PULLS))
    if op in operators.CREATION:
        return random_made(pick, ident, op)
    arg = pick.choice(list(told))
    shape = told[arg][1]
    rank = len(shape)
    args = [arg]
    if op in ("concat", "stack"):
        alike = [other for other, (_, sizes, _) in told.items() if len(sizes) == rank]
        args = [pick.choice(alike) if pick.random() < 0.7 else arg for _ in range(pick.randint(1, 4))]
    axes = random_axes(pick, rank)
    wide = [pick.randint(1, 3)] * pick.randint(0, max(0, 4 - rank)) + [pick.randint(1, 4) if size == 1 else size for size in shape]
    members = {
        "tril": {"k": random_diagonal(pick)}, "triu": {"k": random_diagonal(pick)}, "index": {"index": random_index(pick, shape)},
        "concat": {"axis": pick.randint(-rank, max(0, rank - 1))}, "stack": {"axis": pick.randint(-rank - 1, rank)},
        "permute_dims": {"axes": pick.sample(range(rank), rank)}, "reshape": {"shape": random_sizes(pick, int(numpy.prod(shape, dtype=int)))},
        "expand_dims": {"axis": pick.randint(-rank - 1, rank)},
        "squeeze": {"axes": [axis for axis, size in enumerate(shape) if size == 1 and pick.random() < 0.8]},
        "flip": pick.choice([{}, {"axes": None}, {"axes": axes}]),
        "roll": {"shifts": [pick.choice([pick.randint(-9, 9), 2**63 - 1, -(2**63)]) for _ in axes], "axes": axes},
        "broadcast_to": {"shape": wide, "chunk": sides(pick, len(wide))}}
    return {"id": ident, "op": op, "args": args, **members[op]}


def random_other(pick, ident, told):
    """Returns a node of a reduction, a product, or a change of chunks."""
    op = pick.choice([op for op in rules.OTHERS if op not in operators.PULLS] + ["matmul"] * 3 + ["rechunk"])
    arg = pick.choice(list(told))
    rank = len(told[arg][1])
    keeps = pick.choice([{}, {"keepdims": pick.random() < 0.5}])
    if op == "rechunk":
        return random_rechunk(pick, ident, told)
    if op == "matmul":
        inner = told[arg][1][-1:]
        fit = [other for other, (_, shape, _) in told.items() if shape[-2:][:1] == inner] or list(told)
        return {"id": ident, "op": op, "args": [arg, pick.choice(fit)]}
    if op in operators.GROUPS:
        return random_groups(pick, ident, told, op)
    if op in ("argmin", "argmax", "cumulative_sum"):
        axis = pick.choice([{}, {"axis": None}, {"axis": pick.randint(-rank, max(0, rank - 1))}])
        if op == "cumulative_sum" and rank != 1 and pick.random() < 0.9:
            axis = {"axis": pick.randint(-rank, max(0, rank - 1))}
        return {"id": ident, "op": op, "args": [arg], **axis, **(keeps if op in reductions.PLACES else {})}
    return {"id": ident, "op": op, "args": [arg], **pick.choice([{}, {"axes": None}, {"axes": random_axes(pick, rank)}]), **keeps}


def random_groups(pick, ident, told, op):
    """Returns groups of a node by another of one axis, of which most fit."""
    lines = [name for name, (_, shape, _) in told.items() if len(shape) == 1] or list(told)
    labels = pick.choice(lines)
    fit = [(name, axis) for name, (_, shape, _) in told.items() for axis, size in enumerate(shape) if [size] == told[labels][1]]
    arg, axis = pick.choice(fit) if fit and pick.random() < 0.97 else (pick.choice(list(told)), 0)
    groups = pick.choices([pick.randint(1, 12), pick.choice([1, 127, 300])], [9, 1])[0]
    return {"id": ident, "op": op, "args": [arg, labels], "axis": axis - pick.choice([0, len(told[arg][1])]), "groups": groups}


def random_rechunk(pick, ident, told):
    arg = pick.choice([list(told)[-1], *told])
    _, shape, chunk = told[arg]
    if pick.random() < 0.5:
        # Wide where the source's chunks are narrow, which takes two copies where memory is small.
        turned = [pick.randint(1, 2) if 2 * side > size else max(1, size - pick.randint(0, 1)) for size, side in zip(shape, chunk)]
        return {"id": ident, "op": "rechunk", "args": [arg], "chunk": turned}
    return {"id": ident, "op": "rechunk", "args": [arg], "chunk": random_sides(pick, shape)}


def info_of(node, told):
    args = [told[arg] if type(arg) is str else arg for arg in node.get("args", [])]
    return rules.elementwise(node, args) if node["op"] in FUNCTIONS else rules.other(node, args)


class Mix:
    """How often a node is a view, one of a reduction, a product or a change of chunks, or a change of chunks; of those whose arguments
    aren't in the chunks that it wants, how many stay; and how many are drawn over the node before."""

    def __init__(self, views, others, copies=0.0, askew=0.15, chained=0.0):
        self.views, self.others, self.copies, self.askew, self.chained = views, others, copies, askew, chained

    def narrowed(self, pick):
        """Returns the mix, or in two of three cases of copies one of these almost alone, for which little memory does."""
        return Mix(0.05, 0, 0.95, 1) if self.copies >= 0.5 and pick.random() < 0.65 else self

    def near(self, pick, told):
        """Returns the nodes over which one is drawn: all, or the one before and now and then another."""
        if not self.chained or pick.random() >= self.chained:
            return told
        names = list(told)
        return {name: told[name] for name in dict.fromkeys([*([pick.choice(names)] if pick.random() < 0.4 else []), names[-1]])}

    def draw(self, pick):
        chance = pick.random()
        if chance < self.copies:
            return random_rechunk
        chance -= self.copies
        return random_other if chance < self.others else random_view if chance < self.others + self.views else random_function


MIXES = {"run": Mix(0.15, 0.1), "views": Mix(0.97, 0.01), "reductions": Mix(0.15, 0.6), "check": Mix(0.35, 0.35, 0, 1),
         "copies": Mix(0.08, 0.12, 0.5, 1), "any": Mix(0.3, 0.35, 0.1, 1), "chains": Mix(0.3, 0.35, 0.08, 0.15, 0.85)}


def is_aligned(node, info, told):
    """Whether the arguments of an elementwise node or of a product have their aligned chunks."""
    args = [told[arg] for arg in node.get("args", []) if type(arg) is str]
    if node["op"] == "matmul":
        return [list(sides) for sides in reductions.aligned_operands(info, args)] == [list(arg[2]) for arg in args]
    if node["op"] in operators.GROUPS:
        return reductions.aligned_labels(node, args)[1] == list(args[1][2])
    return node["op"] not in FUNCTIONS or all(rules.aligned(info[1], info[2], arg) == arg[2] for arg in args)


def is_small(info):
    return numpy.prod(info[1], dtype=object) <= 3000 and rules.size_of(rules.grid_of(info[1], info[2])) <= 600


def random_nodes(pick, inputs, mix):
    """Returns nodes of which few have no type, over input nodes of each array."""
    nodes = [{"id": f"i{at}", "op": "input", "name": entry.name} for at, entry in enumerate(inputs)]
    if pick.random() < 0.2:
        nodes.append({"id": "again", "op": "input", "name": pick.choice(inputs).name})
    arrays = {entry.name: entry.array for entry in inputs}
    told = {node["id"]: arrays[node["name"]].info() for node in nodes}
    for at in range(pick.randint(1, 7)):
        for _ in range(60):
            node = mix.draw(pick)(pick, f"n{at}", mix.near(pick, told))
            info = info_of(node, told)
            if type(info) is not tuple:
                if pick.random() < 0.002:
                    break
            elif is_small(info) and (is_aligned(node, info, told) or pick.random() < mix.askew):
                break
        if type(info) is tuple and not is_small(info):
            break
        nodes.append(node)
        if type(info) is not tuple:
            break
        told[node["id"]] = info
    return nodes


def random_expression(pick, inputs, mix):
    nodes = random_nodes(pick, inputs, mix)
    made = [node["id"] for node in nodes if node["op"] != "input"]
    out = pick.choice(made) if made and pick.random() < 0.3 else nodes[-1]["id"]
    if pick.random() < (0.06 if mix.askew == 1 else 0.02):
        out = pick.choice(nodes)["id"]
    return {"nodes": nodes, "out": out, "store_as": "y"}


def spelled(pick, expression):
    """Returns the text of an expression, its members in any order, now and then one twice."""
    def members(value):
        order = list(value)
        pick.shuffle(order)
        return {name: value[name] for name in order}

    whole = members({**expression, "nodes": [members(node) if type(node) is dict else node for node in expression["nodes"]]})
    text = json.dumps(whole, indent=pick.choice([None, None, 1]))
    return f'{{"out": 7, {text[1:]}' if pick.random() < 0.05 else text


# Damage

def damaged_text(pick, text):
    """Returns a text that is perhaps no expression any more."""
    value = json.loads(text)
    node = pick.choice(value["nodes"])
    kind = pick.choice(["cut", "lost", "more", "op", "arg", "args", "id", "out", "name", "top", "kind"])
    if kind == "cut":
        return text[:pick.randrange(len(text))]
    if kind == "lost":
        del node[pick.choice(list(node))]
    elif kind == "more":
        node["more"] = 1
    elif kind == "op":
        node["op"] = pick.choice(["sort", "", "Add", 3, None, "input", "add", "negative", "where"])
    elif kind == "arg" and node.get("args"):
        node["args"][pick.randrange(len(node["args"]))] = pick.choice([None, 1.5, 2**64, -(2**63) - 1, "", "q", [], {}, "n9", True, 0])
    elif kind == "args":
        node["args"] = pick.choice([[], None, "i0", ["i0"], ["i0"] * 4, [1, 2], [node.get("id")]])
    elif kind == "id":
        node["id"] = pick.choice(["", "i0", "a b", "x" * 33, 5, "_x"])
    elif kind == "out":
        value["out"] = pick.choice(["", "q", None, 1])
    elif kind == "name":
        value["store_as"] = pick.choice(["", "../x", "_y", "a/b", "x" * 33, 3, ".y"])
    elif kind == "top":
        value["more"] = 1
    else:
        value["nodes"] = pick.choice([{}, None, value["nodes"] + [3], value["nodes"] * 200])
    return json.dumps(value)


def damaged_argument(pick, text):
    """Returns a text with another argument, or another type, of which perhaps a node has no type any more."""
    value = json.loads(text)
    functions = [at for at, node in enumerate(value["nodes"]) if node["op"] in FUNCTIONS]
    if functions:
        at = pick.choice(functions)
        node = value["nodes"][at]
        if pick.random() < 0.3:
            count = FUNCTIONS[node["op"]][0]
            others = [op for op, row in FUNCTIONS.items() if row[0] == count and op not in rules.MEMBERS]
            node["op"] = pick.choice(others)
            for name in ("dtype", "min", "max"):
                node.pop(name, None)
        else:
            node["args"][pick.randrange(len(node["args"]))] = pick.choice([before["id"] for before in value["nodes"][:at]] + [3, True])
    return json.dumps(value)


def damaged_metadata(pick, members):
    """Returns the text of metadata with a fault, or with one that is none."""
    members = json.loads(json.dumps(members))
    kind = pick.choice(["lost", "type", "fill", "codec", "grid", "rank", "more", "passed", "text", "version", "keys"])
    if kind == "lost":
        del members[pick.choice(list(members))]
    elif kind == "type":
        members["data_type"] = pick.choice(["float64", "int128", {"name": "float32"}, 3])
    elif kind == "fill":
        members["fill_value"] = pick.choice([None, 1.5, 2**64, "0", -(2**63) - 1, []])
    elif kind == "codec":
        members["codecs"] = pick.choice([[], [{"name": "zstd"}], members["codecs"] * 2, ["bytes"]])
    elif kind in ("grid", "rank"):
        members["shape" if kind == "rank" else "chunk_grid"] = pick.choice([[1] * 7, [-1], "regular", {"name": "regular", "configuration": {"chunk_shape": [0]}}])
    elif kind in ("more", "passed"):
        members["later"] = {"must_understand": kind == "more"}
    elif kind == "version":
        members["zarr_format"] = 2
    elif kind == "keys":
        members["chunk_key_encoding"] = pick.choice(["v3", {"name": "v2", "configuration": {"separator": "-"}}])
    else:
        return pick.choice(["{", "[]", "", "3"])
    return json.dumps(members)


def damaged_zarray(pick, members):
    """Returns the text of metadata of version 2 with a fault, or with one that is none."""
    members = json.loads(json.dumps(members))
    kind = pick.choice(["lost", "dtype", "fill_value", "compressor", "filters", "order", "shape", "chunks", "dimension_separator", "zarr_format", "text"])
    if kind == "lost":
        del members[pick.choice(list(members))]
    elif kind == "text":
        return pick.choice(["{", "[]", "", "3"])
    else:
        members[kind] = pick.choice({"dtype": ["<f4", "|i2", "<i16", ">u4", "|b1", "i4", 3, ["<i4"]], "fill_value": [None, 1.5, 2**64, "0", -(2**63) - 1, True, 1],
                                     "compressor": [{"id": "blosc"}, {}, False], "filters": [[], {}, [{"id": "delta"}], False], "order": ["F", "c", None],
                                     "shape": [[1] * 7, [-1], 6, []], "chunks": [[0], [1] * 7, "C", []], "dimension_separator": ["/", ".", "-", None],
                                     "zarr_format": [3, "2", 2.0, None]}[kind])
    return json.dumps(members)


def arrays_for(pick, mix):
    """Returns arrays for a mix of nodes."""
    if mix in (MIXES["reductions"], MIXES["any"]) and pick.random() < 0.4:
        return random_matrices(pick)
    wide = {"copies": 0.9, "any": 0.6, "chains": 0.2}.get(next(name for name in MIXES if MIXES[name] is mix), 0)
    return random_grids(pick) if pick.random() < wide else random_arrays(pick)
